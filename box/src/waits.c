/* waits.c - wait4(2) and waitid(2): the kernel chooses and reaps, and the table's `wait C pid N` follows. */
#define _GNU_SOURCE
#include "calls.h"

#include <errno.h>
#include <signal.h>
#include <stddef.h>
#include <sys/ptrace.h>
#include <sys/wait.h>

/* The kernel reaped, or showed, the child with the number. Its number to the caller; 0 where the table knows no such child: then it is a
 * zombie that the table reaped with its namespace, and the kernel gave to an outer subreaper. */
static int64_t waited(struct thread *thread, int64_t real, bool is_end)
{
	const struct name *name = name_of_real((pid_t)real);

	if (!name || !name->process)
		return 0;
	if (!is_end)
		return number_of(name, thread->process);
	if (!settle_parent(thread->process, name->process) && checking)
		compare_wait(thread, name->process);
	return reap(thread->process, name->process);
}

/* The call is made again, and the program sees nothing of the child. */
static void hide(struct thread *thread)
{
	hidden_waits++;
	thread->once_more = true;
}

/* Whether a wait4 reaped the child, and did not only show that it stopped or went on. */
static bool is_wait4_end(const struct thread *thread, pid_t real)
{
	uint64_t at = registers_argument(&thread->made, 1);
	int status;

	if (!(call_argument(thread, 2) & (WUNTRACED | WCONTINUED)))
		return true;
	if (at && read_memory(thread->tid, at, &status, sizeof status))
		return WIFEXITED(status) || WIFSIGNALED(status);
	return kill(real, 0) && errno == ESRCH;
}

/* Its end will be told by a signal. */
static bool is_live(const struct process *child)
{
	return child && !child->ended && !child->dead && !child->gone && !child->ends_unheard;
}

/* The kernel gives orphans to such a process. */
static bool takes_orphans(const struct process *process)
{
	return process->is_init || table_stat(process->root, 0).subreaper;
}

/* Whether some end is not fetched yet: its orphans, who may have ended, have another parent in the kernel than in the table. */
static bool has_unfetched_end(void)
{
	siginfo_t info = { .si_pid = 0 };

	return waitid(P_ALL, 0, &info, WEXITED | WNOHANG | WNOWAIT | __WALL) || info.si_pid;
}

/* Those whom a wait is for, as far as that is one child, or any. */
enum meant { NOBODY_THERE, ALL_LIVE, SOME_ENDED };

/* The kernel shows no end to a parent before it is fetched here. */
static enum meant children_of(const struct process *process)
{
	uint64_t count;
	const uint32_t *children = table_list(SUPERVISOR, PIDTAB_CHILDREN, process->root, &count);

	for (uint64_t i = 0; i < count; i++)
		if (!is_live(process_of_root(children[i])))
			return SOME_ENDED;
	return count > 0 ? ALL_LIVE : NOBODY_THERE;
}

/* Whom the wait is for, if that is one process. */
static const struct process *one_meant(const struct thread *thread)
{
	int32_t pid = (int32_t)call_argument(thread, 0);

	return pid > 0 ? process_seen(thread->process, (uint32_t)pid) : NULL;
}

static enum meant meant_by(const struct thread *thread, const struct process *child)
{
	const struct process *caller = thread->process;

	if (call_argument(thread, 0) == -1)
		return children_of(caller);
	return is_live(child) && parent_of(child) == caller ? ALL_LIVE : SOME_ENDED;
}

/* Whether the kernel has a child of the process that the table has not, and that a wait for any might find. */
static bool may_have_others(const struct thread *thread)
{
	return call_argument(thread, 0) == -1 && (takes_orphans(thread->process) || stages_lost());
}

/* Whether a SIGCHLD is sure to stop the caller right behind its wait: its only thread waits for the end of children that live, and
 * neither ignores nor blocks the signal. Another signal that interrupts it stops it too. */
static bool is_ended_by_signal(const struct thread *thread, enum meant meant)
{
	const struct process *caller = thread->process;
	uint64_t blocked;

	if (call_argument(thread, 2) != 0 || threads_of(caller) != 1 || caller->shares_handlers || caller->ignores_children || caller->wants_no_zombies)
		return false;
	if (meant != ALL_LIVE || may_have_others(thread))
		return false;
	return !ptrace(PTRACE_GETSIGMASK, thread->tid, sizeof blocked, &blocked) && !(blocked >> (SIGCHLD - 1) & 1);
}

/* Whether the wait finds nobody, and does not wait. */
static bool is_in_vain(const struct thread *thread, enum meant meant)
{
	if (call_argument(thread, 2) != WNOHANG || meant != ALL_LIVE)
		return false;
	return call_argument(thread, 0) != -1 || !takes_orphans(thread->process) || !has_unfetched_end();
}

/* Whether nobody is there to be waited for, and the call has no fault besides. */
static bool is_for_nobody(const struct thread *thread, enum meant meant)
{
	int64_t others = call_argument(thread, 2) & ~(WNOHANG | WUNTRACED | WCONTINUED);

	return meant == NOBODY_THERE && !others && !may_have_others(thread);
}

/* The exit of such a wait is not seen: what is to do behind it is done where the signal stops it, which saves a stop. One that finds
 * nobody is answered. */
enum onward enter_wait4(struct thread *thread, struct registers *registers)
{
	const struct process *child = one_meant(thread);
	enum meant meant = meant_by(thread, child);
	enum onward onward;

	if (!checking && is_in_vain(thread, meant))
		return answer_with(thread, 0);
	if (!checking && is_for_nobody(thread, meant))
		return answer_with(thread, -ECHILD);
	if (child)
		registers_set_argument(registers, 0, (uint64_t)child->real);
	onward = child ? watch(thread, registers) : translate(thread, registers);
	thread->has_no_exit = is_ended_by_signal(thread, meant);
	return thread->has_no_exit ? GO : onward;
}

/* A status that cannot be written is told behind the reaping: the child is gone all the same. */
static void reap_untold(struct thread *thread, int64_t result)
{
	if (result == -EFAULT)
		reap_vanished(thread->process);
}

int64_t leave_wait4(struct thread *thread, int64_t result)
{
	int64_t number;

	reap_untold(thread, result);
	if (result <= 0) {
		if (checking && (result == 0 || result == -ECHILD))
			compare_no_child(thread, result);
		return result;
	}
	number = waited(thread, result, is_wait4_end(thread, (pid_t)result));
	if (number == 0)
		hide(thread);
	return number;
}

/* A waitid answers by the siginfo_t; without one, who was reaped is found by who is no more there. */
int64_t leave_waitid(struct thread *thread, int64_t result)
{
	uint64_t at = registers_argument(&thread->made, 2);
	bool is_comparable = checking && call_argument(thread, 0) != P_PIDFD;
	siginfo_t info;
	int32_t number;
	bool is_end;

	reap_untold(thread, result);
	if (is_comparable && result == -ECHILD)
		compare_no_child(thread, result);
	if (result != 0)
		return result;
	if (!at || !read_memory(thread->tid, at, &info, offsetof(siginfo_t, si_pid) + sizeof info.si_pid)) {
		reap_vanished(thread->process);
		return result;
	}
	if (info.si_pid == 0) {
		if (is_comparable)
			compare_no_child(thread, 0);
		return result;
	}
	is_end = info.si_code >= CLD_EXITED && info.si_code <= CLD_DUMPED && !(call_argument(thread, 3) & WNOWAIT);
	number = (int32_t)waited(thread, info.si_pid, is_end);
	if (number == 0 && is_end)
		hide(thread);
	write_memory(thread->tid, at + offsetof(siginfo_t, si_pid), &number, sizeof number);
	return result;
}
