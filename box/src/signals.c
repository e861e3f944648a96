/* signals.c - who may send what to whom, and who is said to have sent it. */
#define _GNU_SOURCE
#include "calls.h"

#include <errno.h>
#include <signal.h>
#include <stddef.h>
#include <stdio.h>
#include <stdlib.h>
#include <string.h>
#include <sys/ptrace.h>
#include <sys/signalfd.h>
#include <sys/syscall.h>
#include <unistd.h>

/* ---- kill ---- */

/* The init of the caller's own namespace has this number there. No signal without a handler ends it from inside. */
enum { OWN_INIT = 1 };

/* kill(-1, signal) is one kill(2) after another of the caller, with his rights and his number, since the kernel's -1 reaches beyond the box. */
struct kill_all {
	int signal;
	uint32_t *roots; /* who was found */
	size_t count, next;
	bool is_anybody;
	int64_t result;
};

void kill_all_over(struct thread *thread)
{
	if (thread->kill_all)
		free(thread->kill_all->roots);
	free(thread->kill_all);
	thread->kill_all = NULL;
}

static bool is_found(const struct kill_all *all, uint32_t root)
{
	for (size_t i = 0; i < all->count; i++)
		if (all->roots[i] == root)
			return true;
	return false;
}

/* All whom the caller sees but himself and his init, and who were not found before: some may have begun meanwhile. */
static void find_all(struct kill_all *all, const struct process *caller)
{
	uint64_t count;
	const uint32_t *members = table_list(caller->root, PIDTAB_NAMESPACE_MEMBERS, 0, &count);

	all->roots = need(realloc(all->roots, (all->count + count + 1) * sizeof *all->roots));
	for (uint64_t i = 0; i < count; i++) {
		const struct process *process = process_seen(caller, members[i]);

		if (process && process != caller && !process->dead && members[i] != OWN_INIT && !is_found(all, process->root))
			all->roots[all->count++] = process->root;
	}
}

static const struct process *next_of_all(struct kill_all *all)
{
	while (all->next < all->count) {
		const struct process *process = process_of_root(all->roots[all->next++]);

		if (process && !process->dead)
			return process;
	}
	return NULL;
}

/* Turns the call into that for the next one. In the end the result is that of the kernel: that of the last one who could be reached. */
static enum onward kill_next(struct thread *thread, struct registers *registers, int signal)
{
	const struct process *target;
	int64_t result;

	if (thread->kill_all && thread->kill_all->signal != signal)
		kill_all_over(thread);
	if (!thread->kill_all) {
		thread->kill_all = need(calloc(1, sizeof *thread->kill_all));
		thread->kill_all->signal = signal;
	}
	target = next_of_all(thread->kill_all);
	if (!target) {
		find_all(thread->kill_all, thread->process);
		target = next_of_all(thread->kill_all);
	}
	if (target) {
		registers_set_argument(registers, 0, (uint64_t)target->real);
		return watch(thread, registers);
	}
	result = thread->kill_all->is_anybody ? thread->kill_all->result : -ESRCH;
	kill_all_over(thread);
	return answer_with(thread, result);
}

static int64_t killed_one(struct thread *thread, int64_t result)
{
	thread->kill_all->is_anybody = true;
	if (result != -EPERM)
		thread->kill_all->result = result == -ESRCH ? 0 : result;
	thread->once_more = true;
	return result;
}

enum onward enter_kill(struct thread *thread, struct registers *registers)
{
	const struct process *caller = thread->process;
	int32_t pid = (int32_t)call_argument(thread, 0);
	int signal = (int)call_argument(thread, 1);

	if (pid == -1)
		return kill_next(thread, registers, signal);
	if (pid == 0)
		return GO;
	if (pid > 0 && signal == 0 && pid < FIRST_THREAD)
		thread->told = table_do(PIDTAB_GETPGID, caller->root, (uint32_t)pid, 0);
	if (pid == OWN_INIT && (signal == SIGKILL || signal == SIGSTOP))
		return answer_with(thread, 0);
	return translate(thread, registers);
}

/* Whether somebody is there is a question that the table has too. */
int64_t leave_kill(struct thread *thread, int64_t result)
{
	uint32_t pid = (uint32_t)call_argument(thread, 0);

	if ((int32_t)pid == -1)
		return killed_one(thread, result);
	if (!checking || call_argument(thread, 1) != 0 || (int32_t)pid <= 0 || pid >= FIRST_THREAD || result <= -FIRST_RESTART || result == -EPERM)
		return result;
	if (result != (thread->told < 0 ? thread->told : 0))
		thread->told = table_do(PIDTAB_GETPGID, thread->process->root, pid, 0);
	compare("kill 0", result, thread->told < 0 ? thread->told : 0);
	return result;
}

enum { SIGNAL_SET = 8 }; /* the size of a set of signals: the kernel refuses others */

/* A parent that ignores SIGCHLD, or says so by a flag, has no zombies. */
enum onward enter_sigaction(struct thread *thread, struct registers *registers)
{
	uint64_t at = registers_argument(registers, 1);
	uint64_t action[2]; /* the handler and the flags, as the kernel has them */

	if (registers_argument(registers, 3) == SIGNAL_SET && at && read_memory(thread->tid, at, action, sizeof action)) {
		thread->process->ignores_children = action[0] == (uint64_t)SIG_IGN;
		thread->process->may_catch_end |= action[0] != (uint64_t)SIG_IGN && action[0] != (uint64_t)SIG_DFL;
		thread->process->wants_no_zombies = action[1] & SA_NOCLDWAIT;
	}
	return GO;
}

/* ---- who has sent a signal ---- */

/* The kernel has put in a number. That of a sigqueue(3) is what its caller says: SI_QUEUE stays as it is. */
static bool is_from_a_process(int signal, int code)
{
	return code == SI_USER || code == SI_TKILL || code == SI_MESGQ || (signal == SIGCHLD && code > 0 && code <= CLD_CONTINUED);
}

/* Whether the process has a handler for the signal. */
static bool is_caught(pid_t real, int signal)
{
	unsigned long long caught = 0;

	read_status(real, real, "SigCgt: %llx", &caught);
	return caught >> (signal - 1) & 1;
}

static bool is_fault(int signal, int code)
{
	return code > 0 && (signal == SIGSEGV || signal == SIGBUS || signal == SIGFPE || signal == SIGILL || signal == SIGTRAP || signal == SIGSYS);
}

/* A signal is about to be delivered: its sender's number is translated. An init gets none without a handler, but those of its own faults. */
int signal_arrives(const struct thread *thread, int signal)
{
	const struct process *process = thread->process;
	siginfo_t info;
	bool is_harmless = signal == SIGCHLD || signal == SIGCONT || signal == SIGURG || signal == SIGWINCH;

	if (signal == SIGCHLD && !process->may_catch_end && !process->shares_handlers)
		return signal; /* nobody will look who has sent it */
	if (ptrace(PTRACE_GETSIGINFO, thread->tid, 0, &info))
		return signal;
	if (process->is_init && !is_harmless && !is_fault(signal, info.si_code) && !is_caught(thread->tid, signal)) {
		ending_not_caught(process, signal);
		return 0;
	}
	if (is_from_a_process(signal, info.si_code) && info.si_pid > 0) {
		info.si_pid = (pid_t)to_number(process, PROCESS, info.si_pid);
		ptrace(PTRACE_SETSIGINFO, thread->tid, 0, &info);
	}
	return signal;
}

int64_t leave_sigtimedwait(struct thread *thread, int64_t result)
{
	uint64_t at = registers_argument(&thread->made, 1);
	siginfo_t info;

	if (result > 0 && at && read_memory(thread->tid, at, &info, offsetof(siginfo_t, si_pid)) && is_from_a_process(info.si_signo, info.si_code))
		show(thread, at + offsetof(siginfo_t, si_pid), PROCESS);
	return result;
}

/* ---- signalfd: what is read of it has the sender, and reads do not stop. So reads of a new descriptor are made to. ---- */

/* The filter is put where it does not disturb the program. One whose memory cannot be read is let go. */
enum onward enter_signalfd(struct thread *thread, struct registers *registers)
{
	uint64_t signals;

	if (!read_memory(thread->tid, registers_argument(registers, 1), &signals, sizeof signals))
		return GO;
	return room_take(thread) ? watch(thread, registers) : room_map(thread);
}

int64_t leave_signalfd(struct thread *thread, int64_t result)
{
	if (result >= 0 && !reads_stop(thread->process, (int)result))
		thread->behind_reads = (int)result;
	return result;
}

/* Whether the descriptor that is read is a signalfd: reads of its number stop when it has long become another file. */
static bool is_signalfd(const struct thread *thread)
{
	static const char name[] = "anon_inode:[signalfd]";
	char link[64], found[sizeof name];

	snprintf(link, sizeof link, "/proc/%d/fd/%d", thread->tid, (int)call_argument(thread, 0));
	return readlink(link, found, sizeof found) == sizeof name - 1 && !memcmp(found, name, sizeof name - 1);
}

enum onward enter_read(struct thread *thread, struct registers *registers)
{
	if (is_signalfd(thread))
		return watch(thread, registers);
	return is_copy_of_none(thread, (int)call_argument(thread, 0)) ? answer_with(thread, -ESRCH) : GO;
}

/* The bytes of a signalfd may be anywhere. */
enum onward enter_readv(struct thread *thread, struct registers *registers)
{
	if (is_signalfd(thread))
		return refuse(thread);
	if (is_copy_of_none(thread, (int)call_argument(thread, 0)))
		return answer_with(thread, -ESRCH);
	return strcmp(thread->call->name, "preadv2") ? GO : enter_rewind(thread, registers);
}

int64_t leave_signalfd_read(struct thread *thread, int64_t result)
{
	uint64_t at = registers_argument(&thread->made, 1);
	struct signalfd_siginfo info;

	if (!is_signalfd(thread))
		return result;
	for (int64_t done = 0; done + (int64_t)sizeof info <= result; done += (int64_t)sizeof info)
		if (read_memory(thread->tid, at + (uint64_t)done, &info, sizeof info) && is_from_a_process((int)info.ssi_signo, info.ssi_code))
			show(thread, at + (uint64_t)done + offsetof(struct signalfd_siginfo, ssi_pid), PROCESS);
	return result;
}

/* ---- timers ---- */

/* Only a timer that notifies a thread names one. */
enum onward enter_timer(struct thread *thread, struct registers *registers)
{
	const struct carried *clock = &thread->call->in[0], *notified = &thread->call->in[1];
	uint64_t at = registers_argument(registers, notified->argument);
	struct sigevent event;

	registers_set_argument(registers, clock->argument, (uint64_t)to_real(thread->process, clock->kind, call_argument(thread, clock->argument)));
	if (at && read_memory(thread->tid, at, &event, sizeof event) && event.sigev_notify & SIGEV_THREAD_ID)
		lend(thread, at + (uint64_t)notified->offset, notified->kind);
	return watch(thread, registers);
}
