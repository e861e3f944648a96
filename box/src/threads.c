/* threads.c - the threads that are traced, and the numbers of those that the table does not have. */
#include "box.h"

#include <stdlib.h>

static struct thread *by_real[MOST_REAL];
static struct thread *by_number[MOST_REAL]; /* from FIRST_THREAD on */

struct thread *thread_of_real(pid_t tid)
{
	return by_real[tid];
}

struct thread *thread_new(pid_t tid, struct process *process)
{
	struct thread *thread = need(calloc(1, sizeof *thread));

	thread->tid = tid;
	thread->process = process;
	thread->behind_reads = thread->content = -1;
	stage_enlist(thread);
	return by_real[tid] = thread;
}

/* A thread beside the main one gets a number as the kernel gives them: the next one that is free. */
void thread_number(struct thread *thread)
{
	static uint32_t cursor;

	if (thread->tid == thread->process->real)
		return;
	while (by_number[cursor])
		cursor = (cursor + 1) % MOST_REAL;
	by_number[cursor] = thread;
	thread->number = FIRST_THREAD + cursor;
	cursor = (cursor + 1) % MOST_REAL;
}

void thread_free(struct thread *thread)
{
	stage_delist(thread);
	if (thread->number)
		by_number[thread->number - FIRST_THREAD] = NULL;
	by_real[thread->tid] = NULL;
	copy_done(thread);
	data_end(thread->data);
	free(thread->lent);
	kill_all_over(thread);
	if (thread->process)
		room_give_back(thread);
	free(thread);
}

struct thread *thread_numbered(uint32_t number)
{
	return number >= FIRST_THREAD && number - FIRST_THREAD < MOST_REAL ? by_number[number - FIRST_THREAD] : NULL;
}

/* The thread beside a main one that the caller means by the number; none if it means a process, or nobody. */
const struct thread *thread_named(const struct process *caller, int64_t number)
{
	const struct thread *thread = number >= FIRST_THREAD ? thread_numbered((uint32_t)number) : NULL;

	return thread && number_of(thread->process->name, caller) ? thread : NULL;
}

/* The number by which it sees itself. */
uint32_t thread_seen(const struct thread *thread)
{
	return thread->number ? thread->number : number_of(thread->process->name, thread->process);
}
