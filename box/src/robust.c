/* robust.c - robust locks: at the end of a thread the kernel marks those that it holds, by the words that have its
 * number. */
#define _GNU_SOURCE
#include "calls.h"

#include <linux/futex.h>
#include <sched.h>
#include <stddef.h>
#include <sys/ptrace.h>
#include <sys/syscall.h>
#include <unistd.h>

/* The kernel's number fits into the low bytes of a word, above which others may set bits meanwhile. */
enum { NUMBER_BYTES = 3 };
_Static_assert(FIRST_THREAD + MOST_REAL <= 1 << 8 * NUMBER_BYTES, "each number fits");

/* Whether anybody could know of a lock that a thread of the process holds at its end: only then its end stops. */
bool end_is_seen(const struct process *process)
{
	return process->is_init || process->had_threads || process->shares_memory;
}

/* Memory that others may have too. */
enum onward enter_share(struct thread *thread, struct registers *registers)
{
	(void)registers;
	thread->process->shares_memory = true;
	set_options(thread);
	return GO;
}

/* ---- a lock's word has the kernel's number of its owner, until the kernel has marked it. Who has that number in the box would take the lock for his
 * own: he is held meanwhile ---- */

enum { MOST_HELD = 8 };

struct held {
	pid_t tid;
	int status;
};

/* A thread at its end. */
struct ending {
	const struct thread *thread;
	uint64_t last; /* the word that the kernel marks last; 0 for none */
	int count;
	struct held held[MOST_HELD];
};

/* One that is stopped, or sleeps until its child has executed, takes no lock. */
static bool may_run(const struct thread *thread)
{
	bool is_in_vfork = (thread->stage == ASKING || thread->stage == MADE) && thread->flags & CLONE_VFORK;

	return !is_in_vfork && !thread->process->exec_waits && thread->stage != HELD;
}

/* Threads beside a main one have numbers above all of the kernel. */
static void hold_mistaken(struct ending *ending)
{
	uint32_t real = (uint32_t)ending->thread->tid;

	for (const struct process *process = processes; process && ending->count < MOST_HELD; process = process->next) {
		const struct thread *main_one = process->ended ? NULL : thread_of_real(process->real);
		struct held *held = &ending->held[ending->count];

		if (!main_one || main_one == ending->thread || main_one->seen != real)
			continue;
		if (!may_run(main_one) || !hold(main_one->tid, &held->status))
			continue;
		held->tid = main_one->tid;
		ending->count++;
	}
}

static void wait_for_mark(const struct ending *ending)
{
	pid_t tid = ending->thread->tid;
	uint32_t word;

	for (int i = 0; i < MOMENTS; i++) {
		if (!read_memory(tid, ending->last, &word, sizeof word) || (word & FUTEX_TID_MASK) != (uint32_t)tid)
			return;
		wait_moment();
	}
}

/* The thread goes on to its end here, where somebody is held, and else by its caller. */
static void let_go_held(const struct ending *ending)
{
	if (!ending->count)
		return;
	trace(PTRACE_CONT, ending->thread->tid, 0);
	wait_for_mark(ending);
	for (int i = 0; i < ending->count; i++)
		handle(ending->held[i].tid, ending->held[i].status);
}

/* ---- the list ---- */

/* A word with the number that the program sees gets the kernel's, who marks it then. */
static void give_real(struct ending *ending, uint64_t at)
{
	const struct thread *thread = ending->thread;
	uint32_t word, real = (uint32_t)thread->tid;

	if (at % sizeof word || !read_memory(thread->tid, at, &word, sizeof word) || (word & FUTEX_TID_MASK) != thread->seen)
		return;
	if (!ending->last)
		hold_mistaken(ending);
	ending->last = at;
	write_memory(thread->tid, at, &real, NUMBER_BYTES);
}

/* The lock that it was about to take or to leave. Another's, whose number is by chance this thread's to the
 * kernel, is none of its. */
static void give_pending(struct ending *ending, const struct robust_list_head *head, uint64_t head_at)
{
	const struct thread *thread = ending->thread;
	uint64_t pending = (uint64_t)head->list_op_pending, at = pending + (uint64_t)head->futex_offset;
	const uint64_t none = 0;
	uint32_t word;

	if (!pending || pending & 1)
		return;
	if (thread->seen != (uint32_t)thread->tid && read_memory(thread->tid, at, &word, sizeof word) &&
		(word & FUTEX_TID_MASK) == (uint32_t)thread->tid)
		write_memory(thread->tid, head_at + offsetof(struct robust_list_head, list_op_pending), &none, sizeof none);
	else
		give_real(ending, at);
}

/* The thread is about to go on to its end, and has its memory yet. The last bit of an entry says that the kernel is to look for
 * another kind of lock. */
void robust_end(const struct thread *thread)
{
	struct ending ending = { .thread = thread };
	struct robust_list_head head;
	uint64_t at, entry, next;
	size_t size;

	if (!thread->seen || syscall(SYS_get_robust_list, thread->tid, &at, &size) || !at || !read_memory(thread->tid, at,
		&head, sizeof head))
		return;
	entry = (uint64_t)head.list.next;
	for (int i = 0; i < ROBUST_LIST_LIMIT && (entry & ~(uint64_t)1) != at; i++) {
		if (!read_memory(thread->tid, entry & ~(uint64_t)1, &next, sizeof next))
			break;
		if (!(entry & 1) && entry != (uint64_t)head.list_op_pending)
			give_real(&ending, entry + (uint64_t)head.futex_offset);
		entry = next;
	}
	give_pending(&ending, &head, at);
	let_go_held(&ending);
}
