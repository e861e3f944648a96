/* One segment that lies in memory as in the file, with its head. */
PHDRS { all PT_LOAD FILEHDR PHDRS FLAGS(5); dynamic PT_DYNAMIC FLAGS(4); }
SECTIONS
{
	. = SIZEOF_HEADERS;
	.text : { *(.text*) } :all
	.dynsym : { *(.dynsym) } :all
	.dynstr : { *(.dynstr) } :all
	.hash : { *(.hash) } :all
	.dynamic : { *(.dynamic) } :all :dynamic
	/DISCARD/ : { *(.note*) *(.gnu*) *(.eh_frame*) *(.data) *(.bss) }
}
