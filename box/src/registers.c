/* registers.c - a system call in the registers of a stopped thread. */
#define _GNU_SOURCE
#include "registers.h"

#include <elf.h>
#include <errno.h>
#include <stddef.h>
#include <string.h>
#include <sys/ptrace.h>
#include <sys/uio.h>

void registers_restore(struct registers *registers, const struct registers *made)
{
	for (int i = 0; i < 6; i++)
		registers_set_argument(registers, i, registers_argument(made, i));
#if defined(__x86_64__)
	registers->all.orig_rax = made->all.orig_rax;
#endif
}

bool registers_make_none(pid_t tid, struct registers *registers)
{
	return registers_make_other(tid, registers, -1);
}

#if defined(__x86_64__)

bool registers_read(pid_t tid, struct registers *registers)
{
	return !ptrace(PTRACE_GETREGS, tid, 0, &registers->all);
}

bool registers_write(pid_t tid, const struct registers *registers)
{
	return !ptrace(PTRACE_SETREGS, tid, 0, &registers->all);
}

bool registers_read_call(pid_t tid, struct registers *registers)
{
	struct __ptrace_syscall_info info;

	if (ptrace(PTRACE_GET_SYSCALL_INFO, tid, sizeof info, &info) <= 0 || info.op != PTRACE_SYSCALL_INFO_SECCOMP)
		return false;
	registers->all.orig_rax = info.seccomp.nr;
	for (int i = 0; i < 6; i++)
		registers_set_argument(registers, i, info.seccomp.args[i]);
	return true;
}

/* The result may be -1 too. */
bool registers_read_result(pid_t tid, struct registers *registers)
{
	long result;

	errno = 0;
	result = ptrace(PTRACE_PEEKUSER, tid, offsetof(struct user_regs_struct, rax), 0);
	registers->all.rax = (unsigned long long)result;
	return result != -1 || !errno;
}

static unsigned long long *place(struct registers *registers, int index)
{
	struct user_regs_struct *all = &registers->all;
	unsigned long long *const places[] = { &all->rdi, &all->rsi, &all->rdx, &all->r10, &all->r8, &all->r9 };

	return places[index];
}

int64_t registers_call(const struct registers *registers)
{
	return (int64_t)registers->all.orig_rax;
}

uint64_t registers_argument(const struct registers *registers, int index)
{
	return *place((struct registers *)registers, index);
}

void registers_set_argument(struct registers *registers, int index, uint64_t value)
{
	*place(registers, index) = value;
}

int64_t registers_result(const struct registers *registers)
{
	return (int64_t)registers->all.rax;
}

void registers_set_result(struct registers *registers, int64_t result)
{
	registers->all.rax = (unsigned long long)result;
}

bool registers_change(pid_t tid, const struct registers *present, const struct registers *wanted)
{
	enum { WORD = sizeof present->all.rax, WORDS = sizeof present->all / WORD, FEW = 2 };
	const unsigned long long *one = &present->all.r15, *other = &wanted->all.r15; /* the first ones */
	int differing[FEW], count = 0;
	bool is_done = true;

	for (int i = 0; i < WORDS && count <= FEW; i++)
		if (one[i] != other[i] && count++ < FEW)
			differing[count - 1] = i;
	if (count > FEW)
		return registers_write(tid, wanted);
	for (int i = 0; i < count; i++)
		is_done &= !ptrace(PTRACE_POKEUSER, tid, differing[i] * WORD, other[differing[i]]);
	return is_done;
}

bool registers_make_other(pid_t tid, struct registers *registers, int64_t call)
{
	registers->all.orig_rax = (unsigned long long)call;
	return registers_write(tid, registers);
}

void registers_repeat(struct registers *registers, int64_t call)
{
	registers->all.rip -= 2; /* the length of `syscall` */
	registers->all.rax = (unsigned long long)call;
	registers->all.orig_rax = (unsigned long long)-1; /* so the kernel restarts nothing */
}

#else

bool registers_read(pid_t tid, struct registers *registers)
{
	struct iovec all = { &registers->all, sizeof registers->all };

	return !ptrace(PTRACE_GETREGSET, tid, NT_PRSTATUS, &all);
}

bool registers_write(pid_t tid, const struct registers *registers)
{
	struct iovec all = { (void *)&registers->all, sizeof registers->all };

	return !ptrace(PTRACE_SETREGSET, tid, NT_PRSTATUS, &all);
}

bool registers_read_call(pid_t tid, struct registers *registers)
{
	return registers_read(tid, registers);
}

bool registers_read_result(pid_t tid, struct registers *registers)
{
	return registers_read(tid, registers);
}

int64_t registers_call(const struct registers *registers)
{
	return (int64_t)registers->all.regs[8];
}

uint64_t registers_argument(const struct registers *registers, int index)
{
	return registers->all.regs[index];
}

void registers_set_argument(struct registers *registers, int index, uint64_t value)
{
	registers->all.regs[index] = value;
}

int64_t registers_result(const struct registers *registers)
{
	return (int64_t)registers->all.regs[0];
}

void registers_set_result(struct registers *registers, int64_t result)
{
	registers->all.regs[0] = (uint64_t)result;
}

bool registers_change(pid_t tid, const struct registers *present, const struct registers *wanted)
{
	return !memcmp(present, wanted, sizeof *present) || registers_write(tid, wanted);
}

/* The number of the call is a register set of its own here. */
bool registers_make_other(pid_t tid, struct registers *registers, int64_t call)
{
	int number = (int)call;
	struct iovec all = { &number, sizeof number };

	return registers_write(tid, registers) && !ptrace(PTRACE_SETREGSET, tid, NT_ARM_SYSTEM_CALL, &all);
}

void registers_repeat(struct registers *registers, int64_t call)
{
	registers->all.pc -= 4; /* the length of `svc` */
	registers->all.regs[8] = (uint64_t)call;
}

#endif
