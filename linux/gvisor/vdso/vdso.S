/* The only symbol that the loader of the kernel looks for. No program runs, so nothing is ever called here. */
	.globl __kernel_rt_sigreturn
	.type __kernel_rt_sigreturn, @function
__kernel_rt_sigreturn:
	ud2
	.section .note.GNU-stack, "", @progbits
