package main

import (
	"bytes"
	"debug/elf"
	"encoding/binary"
	"fmt"
	"os"

	abi "gvisor.dev/gvisor/pkg/abi/linux"
	"gvisor.dev/gvisor/pkg/cpuid"
	"gvisor.dev/gvisor/pkg/fspath"
	"gvisor.dev/gvisor/pkg/memutil"
	"gvisor.dev/gvisor/pkg/rand"
	"gvisor.dev/gvisor/pkg/sentry/fsimpl/tmpfs"
	"gvisor.dev/gvisor/pkg/sentry/kernel"
	"gvisor.dev/gvisor/pkg/sentry/kernel/auth"
	"gvisor.dev/gvisor/pkg/sentry/limits"
	"gvisor.dev/gvisor/pkg/sentry/loader"
	"gvisor.dev/gvisor/pkg/sentry/pgalloc"
	_ "gvisor.dev/gvisor/pkg/sentry/syscalls/linux"
	"gvisor.dev/gvisor/pkg/sentry/time"
	"gvisor.dev/gvisor/pkg/sentry/usage"
	"gvisor.dev/gvisor/pkg/sentry/vfs"
	"gvisor.dev/gvisor/pkg/usermem"
)

// The program that every task executes: a page of nothing, with room at `scratch` for what a call reads and writes.
const (
	program           = "/program"
	programAt, pageOf = 0x400000, 0x1000
	scratch           = programAt + pageOf
)

// boot starts a kernel whose only process is the init of the root namespace.
func boot(s *stage) (*kernel.Kernel, error) {
	if err := rand.Init(); err != nil {
		return nil, err
	}
	if err := usage.Init(); err != nil {
		return nil, err
	}
	k, creds, err := newKernel(s)
	if err != nil {
		return nil, err
	}
	namespace, err := mountProgram(k, creds)
	if err != nil {
		return nil, err
	}
	table := k.NewFDTable()
	defer table.DecRef(k.SupervisorContext())
	if _, _, err := k.CreateProcess(kernel.CreateProcessArgs{
		Filename:                program,
		Argv:                    []string{program},
		WorkingDirectory:        "/",
		Credentials:             creds,
		FDTable:                 table,
		Limits:                  limits.NewLimitSet(),
		MaxSymlinkTraversals:    abi.MaxSymlinkTraversals,
		UTSNamespace:            k.RootUTSNamespace(),
		IPCNamespace:            k.RootIPCNamespace(),
		PIDNamespace:            k.RootPIDNamespace(),
		AbstractSocketNamespace: k.RootAbstractSocketNamespace(),
		MountNamespace:          namespace,
	}); err != nil {
		return nil, fmt.Errorf("the first process: %w", err)
	}
	return k, k.Start()
}

// newKernel makes a kernel without processes, and root's credentials in it.
func newKernel(s *stage) (*kernel.Kernel, *auth.Credentials, error) {
	k := &kernel.Kernel{Platform: s}
	descriptor, err := memutil.CreateMemFD("memory", 0)
	if err != nil {
		return nil, nil, fmt.Errorf("memory: %w", err)
	}
	memory, err := pgalloc.NewMemoryFile(os.NewFile(uintptr(descriptor), "memory"), pgalloc.MemoryFileOpts{})
	if err != nil {
		return nil, nil, fmt.Errorf("memory: %w", err)
	}
	k.SetMemoryFile(memory)
	vdso, err := loader.PrepareVDSO(k)
	if err != nil {
		return nil, nil, fmt.Errorf("vdso: %w", err)
	}
	keeper := kernel.NewTimekeeper(k, vdso.ParamPage.FileRange())
	keeper.SetClocks(time.NewCalibratedClocks())
	users := auth.NewRootUserNamespace()
	return k, auth.NewRootCredentials(users), k.Init(kernel.InitKernelArgs{
		FeatureSet:                  cpuid.HostFeatureSet().Fixed(),
		Timekeeper:                  keeper,
		RootUserNamespace:           users,
		ApplicationCores:            1,
		Vdso:                        vdso,
		RootUTSNamespace:            kernel.NewUTSNamespace("", "", users),
		RootIPCNamespace:            kernel.NewIPCNamespace(users),
		RootAbstractSocketNamespace: kernel.NewAbstractSocketNamespace(),
		PIDNamespace:                kernel.NewRootPIDNamespace(users),
	})
}

// mountProgram makes a file system in memory with the program in it.
func mountProgram(k *kernel.Kernel, creds *auth.Credentials) (*vfs.MountNamespace, error) {
	ctx, files := k.SupervisorContext(), k.VFS()
	files.MustRegisterFilesystemType(tmpfs.Name, &tmpfs.FilesystemType{}, &vfs.RegisterFilesystemTypeOptions{AllowUserMount: true})
	namespace, err := files.NewMountNamespace(ctx, creds, "", tmpfs.Name, &vfs.MountOptions{})
	if err != nil {
		return nil, fmt.Errorf("a file system: %w", err)
	}
	root := namespace.Root()
	where := &vfs.PathOperation{Root: root, Start: root, Path: fspath.Parse(program)}
	file, err := files.OpenAt(ctx, creds, where, &vfs.OpenOptions{Flags: abi.O_CREAT | abi.O_WRONLY, Mode: 0o755})
	if err != nil {
		return nil, fmt.Errorf("%s: %w", program, err)
	}
	defer file.DecRef(ctx)
	if _, err := file.Write(ctx, usermem.BytesIOSequence(programImage()), vfs.WriteOptions{}); err != nil {
		return nil, fmt.Errorf("%s: %w", program, err)
	}
	return namespace, nil
}

// programImage is the least ELF file that is loaded: one segment of two pages, of which the file has the head.
func programImage() []byte {
	head := elf.Header64{
		Ident:     [elf.EI_NIDENT]byte{'\x7f', 'E', 'L', 'F', byte(elf.ELFCLASS64), byte(elf.ELFDATA2LSB), byte(elf.EV_CURRENT)},
		Type:      uint16(elf.ET_EXEC),
		Machine:   uint16(elf.EM_X86_64),
		Version:   uint32(elf.EV_CURRENT),
		Entry:     programAt,
		Phoff:     64,
		Ehsize:    64,
		Phentsize: 56,
		Phnum:     1,
	}
	segment := elf.Prog64{
		Type:   uint32(elf.PT_LOAD),
		Flags:  uint32(elf.PF_R | elf.PF_W | elf.PF_X),
		Vaddr:  programAt,
		Filesz: 64 + 56,
		Memsz:  2 * pageOf,
		Align:  pageOf,
	}
	var image bytes.Buffer
	for _, part := range []any{head, segment} {
		if err := binary.Write(&image, binary.LittleEndian, part); err != nil {
			panic(err)
		}
	}
	return image.Bytes()
}
