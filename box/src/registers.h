/* registers.h - a system call in the registers of a stopped thread, on x86-64 and on aarch64. */
#ifndef REGISTERS_H
#define REGISTERS_H

#include <stdbool.h>
#include <stdint.h>
#include <sys/types.h>
#include <sys/user.h>

/* The column of the table of calls that this machine has, and its name to seccomp. */
#if defined(__x86_64__)
enum { MACHINE = 0 };
#define MACHINE_AUDIT AUDIT_ARCH_X86_64
#elif defined(__aarch64__)
enum { MACHINE = 1 };
#define MACHINE_AUDIT AUDIT_ARCH_AARCH64
#else
#error "pidtab-box knows the system calls of x86-64 and aarch64 alone"
#endif

struct registers {
	struct user_regs_struct all;
};

bool registers_read(pid_t tid, struct registers *registers);

/* In a stop before a call: its number and its arguments alone, which takes less where the machine has that. */
bool registers_read_call(pid_t tid, struct registers *registers);

/* Behind a call: its result, into the registers that it was made with. A call changes no other one. */
bool registers_read_result(pid_t tid, struct registers *registers);
bool registers_write(pid_t tid, const struct registers *registers);

/* Writes those that differ from the ones that the thread has. A few take cheaper calls, where the machine has them. */
bool registers_change(pid_t tid, const struct registers *present, const struct registers *wanted);

int64_t registers_call(const struct registers *registers);
uint64_t registers_argument(const struct registers *registers, int index);
void registers_set_argument(struct registers *registers, int index, uint64_t value);
int64_t registers_result(const struct registers *registers);
void registers_set_result(struct registers *registers, int64_t result);

/* In a stop before a call: another one is made, or none, and then the result is that of registers_set_result. */
bool registers_make_other(pid_t tid, struct registers *registers, int64_t call);
bool registers_make_none(pid_t tid, struct registers *registers);

/* In a stop behind a call: the instruction is made once more, for this call. */
void registers_repeat(struct registers *registers, int64_t call);

/* Behind a call: the number and all arguments as the program passed them, which no call changes and the kernel needs to restart it. */
void registers_restore(struct registers *registers, const struct registers *made);

#endif
