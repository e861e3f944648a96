/* forks.c - new processes and threads, in the table and in the kernel. */
#define _GNU_SOURCE
#include "calls.h"

#include <errno.h>
#include <sched.h>
#include <signal.h>
#include <stdlib.h>
#include <string.h>
#include <sys/ptrace.h>
#include <sys/syscall.h>
#include <unistd.h>

/* Where clone(2) has its arguments. */
enum { FLAGS = 0, STACK = 1, PARENT_TID = 2, CHILD_TID = MACHINE == 0 ? 3 : 4, THREAD_AREA = MACHINE == 0 ? 4 : 3 };

/* By which words clone(2) would do what the call does. */
static struct clone_words words_of(const struct registers *registers)
{
	int64_t call = registers_call(registers);

#ifdef SYS_fork
	if (call == SYS_fork)
		return (struct clone_words){ .flags = SIGCHLD };
	if (call == SYS_vfork)
		return (struct clone_words){ .flags = CLONE_VFORK | CLONE_VM | SIGCHLD };
#endif
	(void)call;
	return (struct clone_words){ .flags = registers_argument(registers, FLAGS), .stack = registers_argument(registers, STACK),
		.parent_tid = registers_argument(registers, PARENT_TID), .child_tid = registers_argument(registers, CHILD_TID),
		.thread_area = registers_argument(registers, THREAD_AREA), .pidfd = registers_argument(registers, PARENT_TID) };
}

static bool is_vfork(const struct registers *registers)
{
#ifdef SYS_vfork
	return registers_call(registers) == SYS_vfork;
#else
	(void)registers;
	return false;
#endif
}

/* The flags that clone(2) is given. A child that is traced by its flag costs a stop less than one by an option of the tracer. A parent in
 * vfork(2) is only heard of by an event, and a child that ends by another signal has one. Who is traced so is told its
 * number at its first stop: for the kernel to write its own before costs a fault, and is for where this one cannot. */
static uint64_t flags_given(const struct process *caller, const struct clone_words *words)
{
	uint64_t flags = words->flags & ~(uint64_t)CLONE_NEWPID;

	if ((flags & CLONE_PIDFD) && (flags & CLONE_PARENT_SETTID) && words->pidfd != words->parent_tid)
		flags &= ~(uint64_t)CLONE_PARENT_SETTID;
	if ((flags & CLONE_VFORK) || (flags & CSIGNAL) != SIGCHLD)
		return flags;
	return (caller->is_hidden || caller->may_hide ? flags : flags & ~(uint64_t)CLONE_CHILD_SETTID) | CLONE_PTRACE;
}

/* The program hides its memory from now on, or shows it. */
enum onward enter_dumpable(struct thread *thread, struct registers *registers)
{
	thread->process->may_hide = registers_argument(registers, 1) != 1;
	return GO;
}

static enum onward give_words(struct thread *thread, struct registers *registers, const struct clone_words *words)
{
	bool is_clone = registers_call(registers) == SYS_clone;

	thread->has_changed_call = false;
	if (is_vfork(registers))
		return watch(thread, registers);
	thread->given_flags = flags_given(thread->process, words);
	thread->has_changed_call = !is_clone || thread->given_flags != words->flags;
	registers_set_argument(registers, FLAGS, thread->given_flags);
	registers_set_argument(registers, STACK, words->stack);
	registers_set_argument(registers, PARENT_TID, words->flags & CLONE_PIDFD ? words->pidfd : words->parent_tid);
	registers_set_argument(registers, CHILD_TID, words->child_tid);
	registers_set_argument(registers, THREAD_AREA, words->thread_area);
	if (!is_clone)
		registers_make_other(thread->tid, registers, SYS_clone);
	return watch(thread, registers);
}

/* The table forks first: its refusal is the program's. Threads are not in it. */
enum onward make_by_clone(struct thread *thread, struct registers *registers, const struct clone_words *words)
{
	struct process *caller = thread->process;
	int64_t child = caller->spare;

	thread->flags = words->flags;
	thread->told_parent = words->parent_tid;
	thread->told_child = words->child_tid;
	thread->told = 0;
	if (words->flags & CLONE_THREAD)
		return give_words(thread, registers, words);
	thread->makes_space = (thread->flags & CLONE_NEWPID) || caller->unshared;
	if (child) {
		thread->child_root = caller->spare_root;
		caller->spare = 0;
	} else {
		child = table_do(PIDTAB_FORK, caller->root, 0, thread->makes_space);
		thread->child_root = (uint32_t)reply.second;
	}
	if (child < 0)
		return answer_with(thread, child);
	thread->child = (uint32_t)child;
	happen(thread, ASKS);
	return give_words(thread, registers, words);
}

enum onward enter_fork(struct thread *thread, struct registers *registers)
{
	struct clone_words words = words_of(registers);

	return make_by_clone(thread, registers, &words);
}

/* ---- a fork that comes to nothing, and a child that nobody claims ---- */

/* The table's child is ended and reaped. */
void fork_undo(struct thread *thread)
{
	table_do(PIDTAB_EXIT, thread->child_root, 0, 0);
	table_do(PIDTAB_WAIT, thread->process->root, thread->child, PIDTAB_CHILD);
	thread->child = 0;
}

/* It is kept for the call that comes again. */
void fork_keep(struct thread *thread)
{
	struct process *caller = thread->process;

	if (caller->spare) {
		fork_undo(thread);
		return;
	}
	caller->spare = thread->child;
	caller->spare_root = thread->child_root;
	thread->child = 0;
}

const struct process *stranger_parent(const struct thread *stranger)
{
	const struct name *name;
	struct state state;

	if (!read_state(stranger->tid, &state))
		return NULL;
	name = name_of_real(state.parent);
	return name ? name->process : NULL;
}

/* A process leads its threads. A new thread ends with its process, or is claimed by it. */
bool stranger_is_process(const struct thread *stranger)
{
	return !syscall(SYS_tgkill, stranger->tid, stranger->tid, 0);
}

void stranger_kill(const struct thread *stranger)
{
	kill(stranger->tid, SIGKILL);
}

/* The numbers that the kernel writes for a new process or thread are its own: in the parent's memory now, in the child's as it begins. A
 * thread's call by clone(2) did not stop before, so its arguments are read here. */
static void tell_numbers(struct thread *parent, struct thread *child)
{
	struct registers registers;
	int32_t number = (int32_t)to_number(parent->process, TASK, child->tid);

	if (parent->phase != IN_CALL) {
		if (!registers_read(parent->tid, &registers))
			return;
		parent->flags = registers_argument(&registers, FLAGS);
		parent->told_parent = registers_argument(&registers, PARENT_TID);
		parent->told_child = registers_argument(&registers, CHILD_TID);
	}
	if (parent->flags & CLONE_PARENT_SETTID)
		write_memory(parent->tid, parent->told_parent, &number, sizeof number);
	if (parent->flags & CLONE_CHILD_SETTID)
		child->tid_at = parent->told_child;
}

/* The child begins with the registers and the options of its parent. */
static void inherit(struct thread *parent, struct thread *child)
{
	child->sees_end = parent->sees_end;
	child->has_call_of_parent = parent->phase == IN_CALL && parent->has_changed_call;
	child->made = parent->made;
	child->flags = parent->flags;
	child->given_flags = parent->given_flags;
	child->data = data_of_child(parent->data);
}

/* The registers of a child are those of the call that made it, but for the result; with a stack or a thread area of its own, or where the
 * call was another one, they are read. */
void give_registers_back(struct thread *thread)
{
	bool is_known = registers_call(&thread->made) == SYS_clone && !registers_argument(&thread->made, STACK) && !(thread->flags & CLONE_SETTLS);
	struct registers present = thread->made, wanted;

	thread->has_call_of_parent = false;
	registers_set_argument(&present, FLAGS, thread->given_flags);
	registers_set_result(&present, 0);
	if (!is_known && !registers_read(thread->tid, &present))
		return;
	wanted = present;
	registers_restore(&wanted, &thread->made);
	registers_set_result(&wanted, 0);
	registers_change(thread->tid, &present, &wanted);
}

/* What the child does with the end of its own children, what its own end does, and what of ours it has. */
static void inherit_state(struct process *parent, struct process *child, uint64_t flags)
{
	child->ignores_children = parent->ignores_children;
	child->wants_no_zombies = parent->wants_no_zombies;
	child->may_catch_end = parent->may_catch_end;
	child->ends_unheard = (flags & CSIGNAL) != SIGCHLD;
	child->read_filters = parent->read_filters;
	child->may_hide = parent->may_hide;
	child->sees_proc = parent->sees_proc;
	child->writes_groups = parent->writes_groups;
	memcpy(child->filtered, parent->filtered, sizeof child->filtered);
	memory_leave(child->memory);
	child->memory = flags & CLONE_VM ? memory_share(parent->memory) : memory_copy(parent->memory);
	if ((flags & CLONE_VM) && !(flags & CLONE_VFORK))
		parent->shares_memory = true;
	child->shares_memory = parent->shares_memory;
	if (flags & CLONE_SIGHAND)
		parent->shares_handlers = child->shares_handlers = true;
}

/* A number of the kernel that comes again has been free: whoever had it was waited for, and only the stop behind that wait, or the end of the parent, is
 * not reported yet. The newest are reported first, so the others may be late. */
static void settle_former(const struct thread *thread, pid_t real)
{
	const struct name *former;

	for (int i = 0; i < MOMENTS && (former = name_of_real(real)) && former->process; i++) {
		const struct process *parent = parent_of(former->process);

		if (!parent || !catch_up_threads(parent, thread))
			wait_moment();
	}
}

/* The process of a child that the thread has asked for; its own, if the child is a thread. */
static struct process *process_of_child(struct thread *thread, pid_t real)
{
	struct process *process;
	struct name *name;

	if (thread->stage != ASKING)
		return thread->process;
	name = name_make(real, thread->child_root);
	if (!thread->makes_space && !thread->process->joined)
		name_beside(name, thread->process->name, thread->child);
	process = process_new(name);
	process->parent = thread->process->root;
	inherit_state(thread->process, process, thread->flags);
	process->is_init = thread->makes_space;
	return process;
}

/* The kernel has made a process or a thread. What a fallen one makes is nobody's. */
void forked(struct thread *thread, pid_t real)
{
	bool is_thread = thread->stage != ASKING;
	struct thread *child;

	if (!is_thread)
		settle_former(thread, real);
	if (thread->stage == FALLEN)
		return;
	child = thread_of_real(real);
	if (!child && is_thread && syscall(SYS_tgkill, thread->process->real, real, 0))
		return; /* its end was reported before */
	if (!child)
		child = thread_new(real, NULL);
	stage_delist(child);
	child->process = process_of_child(thread, real);
	stage_enlist(child);
	thread_number(child);
	thread->told = child->number;
	tell_numbers(thread, child);
	inherit(thread, child);
	thread->process->had_threads |= is_thread;
	set_options(thread);
	if (happen(child, CLAIMED) & END)
		thread_ended(child, child->status);
	happen(thread, TOLD);
}

int64_t leave_fork(struct thread *thread, int64_t result)
{
	struct process *caller = thread->process;

	if (result <= 0) {
		happen(thread, result <= -FIRST_RESTART ? DELAYED : FAILS);
		return result;
	}
	thread->phase = IN_CALL;
	if (thread->stage == ASKING)
		forked(thread, (pid_t)result);
	thread->phase = FREE;
	happen(thread, RETURNS);
	if (caller->unshared)
		caller->joined = table_do(PIDTAB_JOIN, caller->root, thread->child, 0) == 0;
	caller->unshared = false;
	result = thread->child;
	thread->child = 0;
	return result;
}

/* unshare(2) with CLONE_NEWPID: the next fork is the table's `fork C new`, and a join behind it. */
enum onward enter_unshare(struct thread *thread, struct registers *registers)
{
	uint64_t flags = registers_argument(registers, FLAGS) & ~(uint64_t)CLONE_NEWPID;

	if (thread->process->unshared || thread->process->joined)
		return answer_with(thread, -EINVAL);
	if (!flags) {
		thread->process->unshared = true;
		return answer_with(thread, 0);
	}
	registers_set_argument(registers, FLAGS, flags);
	return watch(thread, registers);
}

int64_t leave_unshare(struct thread *thread, int64_t result)
{
	thread->process->unshared = result == 0;
	return result;
}
