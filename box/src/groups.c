/* groups.c - queries, process groups, sessions and subreapers. */
#define _GNU_SOURCE
#include "calls.h"

#include <errno.h>
#include <sys/wait.h>

/* ---- queries ---- */

/* The kernel gives an orphan a new parent before the old one's end is reported: so that end is fetched first. */
static int64_t ask_parent(const struct process *caller)
{
	const struct process *parent = parent_of(caller);

	if (parent)
		catch_up(parent, WNOHANG);
	return table_do(PIDTAB_GETPPID, caller->root, 0, 0);
}

/* The number of a process. The caller may mean it by one of its threads. */
static uint32_t number_of_process(const struct process *caller, int64_t number)
{
	const struct thread *thread = thread_named(caller, number);

	return thread ? number_of(thread->process->name, caller) : (uint32_t)number;
}

static int64_t ask(const struct thread *thread)
{
	const struct call *call = thread->call;
	uint32_t number = call->in[0].kind ? number_of_process(thread->process, call_argument(thread, 0)) : 0;

	if (call->operation == PIDTAB_GETPPID)
		return ask_parent(thread->process);
	return table_do(call->operation, thread->process->root, number, 0);
}

enum onward enter_query(struct thread *thread, struct registers *registers)
{
	if (thread->call->in[0].kind)
		registers_set_argument(registers, 0, (uint64_t)to_real(thread->process, TASK, call_argument(thread, 0)));
	return answer_or_check(thread, ask(thread), registers);
}

enum onward enter_gettid(struct thread *thread, struct registers *registers)
{
	return thread->number ? answer_with(thread, thread->number) : enter_query(thread, registers);
}

/* A query of both. Where they differ the table is asked once more, since something may have ended between the two. */
int64_t leave_query(struct thread *thread, int64_t result)
{
	result = to_number(thread->process, PROCESS, result);
	if (result != thread->told)
		thread->told = ask(thread);
	compare(thread->call->name, result, thread->told);
	return thread->told;
}

/* ---- setpgid and setsid. Of a setpgid of another process the kernel looks whether that has executed, which is told to the table a
 * moment later. So the kernel is asked first, and what both do then is told in the kernel's order. ---- */

static uint32_t begin_asking(const struct process *caller, int32_t pid)
{
	struct process *target = pid > 0 ? process_seen(caller, (uint32_t)pid) : NULL;

	if (!target || target == caller)
		return 0;
	target->asked++;
	return target->root;
}

enum onward enter_setpgid(struct thread *thread, struct registers *registers)
{
	int32_t pid = (int32_t)call_argument(thread, 0), group = (int32_t)call_argument(thread, 1);

	(void)registers;
	if (thread_named(thread->process, pid))
		return answer_with(thread, -EINVAL); /* no process */
	thread->target = begin_asking(thread->process, pid);
	thread->told = thread->target ? 0 : table_setpgid(thread->process->root, pid, group);
	if (thread->told < 0 && !checking)
		return answer_with(thread, thread->told);
	return translate(thread, registers);
}

/* The kernel has decided, or the caller has ended. */
void setpgid_over(struct thread *thread, int64_t result)
{
	struct process *target = process_of_root(thread->target);
	int32_t pid = (int32_t)call_argument(thread, 0), group = (int32_t)call_argument(thread, 1);

	if (target && target->asked > 0)
		target->asked--;
	if (target && result == -EACCES && !target->exec_waits && !table_stat(SUPERVISOR, target->root).executed)
		catch_up(target, 0); /* its execve is about to be reported */
	if (target && result != 0)
		exec_told(target);
	if (thread->target && result > -FIRST_RESTART && thread->process->name)
		thread->told = table_setpgid(thread->process->root, pid, group);
	if (target && !target->asked)
		exec_told(target);
	thread->target = 0;
}

static int64_t leave_decided(const struct thread *thread, int64_t result)
{
	if (result > -FIRST_RESTART)
		compare(thread->call->name, to_number(thread->process, GROUP, result), thread->told);
	return thread->told;
}

int64_t leave_setpgid(struct thread *thread, int64_t result)
{
	setpgid_over(thread, result);
	return leave_decided(thread, result);
}

enum onward enter_setsid(struct thread *thread, struct registers *registers)
{
	thread->told = table_do(PIDTAB_SETSID, thread->process->root, 0, 0);
	return thread->told < 0 && !checking ? answer_with(thread, thread->told) : watch(thread, registers);
}

int64_t leave_setsid(struct thread *thread, int64_t result)
{
	return leave_decided(thread, result);
}

/* ---- subreapers ---- */

/* To the kernel an init stays one, since it takes the orphans of its namespace. */
enum onward enter_subreaper(struct thread *thread, struct registers *registers)
{
	table_do(PIDTAB_SUBREAPER, thread->process->root, 0, registers_argument(registers, 1) != 0);
	return thread->process->is_init ? answer_with(thread, 0) : GO;
}

enum onward enter_is_subreaper(struct thread *thread, struct registers *registers)
{
	int32_t is_one = (int32_t)table_stat(thread->process->root, 0).subreaper;
	bool is_written = write_memory(thread->tid, registers_argument(registers, 1), &is_one, sizeof is_one);

	return answer_with(thread, is_written ? 0 : -EFAULT);
}
