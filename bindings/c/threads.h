/* The lock of a table that has threads, for the files of this folder alone. threads.c says how it works. */
#ifndef PIDTAB_THREADS_H
#define PIDTAB_THREADS_H

#include "proved.h"

#include <pthread.h>

/* Beside the number of queries: a change waits for them, or is under way. */
#define CHANGE 0x80000000u

struct threads {
	pthread_mutex_t lock;
	struct pidtab table;     /* what the lock is around, which has none */
	uint32_t queries;        /* so many are under way, and whether there is a change of the table */
	uint32_t saving;         /* the status of the saver's last turn */
	pthread_mutex_t gate;    /* of who goes before the calls */
	pthread_cond_t told;     /* a saver has told how far it is */
	pthread_cond_t recorded; /* a call was recorded while somebody slept */
	pthread_mutex_t drain;   /* of a change that waits for queries */
	pthread_cond_t drained;  /* they have ended */
	uint64_t saved;          /* so many calls a saver has saved, as it has told */
	uint64_t most;           /* as many calls may be recorded and not saved; 0: any number */
	int error;               /* the errno of what was PIDTAB_DEVICE */
	bool is_awaited;         /* somebody at the gate waits for the lock */
	bool sleeps;             /* a saver, or another, waits for a call */
	bool is_over;            /* nobody waits for a call any more, but a saver */
};

static inline struct threads *threads_of(const struct pidtab *table)
{
	return __atomic_load_n(&table->threads, __ATOMIC_ACQUIRE);
}

/* Gives the table a lock around what is held: PIDTAB_DONE or PIDTAB_NO_MEMORY. */
uint32_t begin_threads(struct pidtab *table, const struct pidtab *held);
/* Closes what the lock is around, and frees it. */
void end_threads(struct threads *threads);

/* What waits, and what wakes it. */
void wait_at_gate(struct threads *threads);
void wait_for_queries(struct threads *threads);
uint32_t wait_for_saver(struct threads *threads, size_t count);
void wait_as_call(struct threads *threads);
void wait_before_calls(struct threads *threads);
void wake_change(struct threads *threads);
void wake_sleepers(struct threads *threads);
/* Sleeps until it is told, without the lock, which this thread has. */
void sleep_until_told(struct threads *threads, pthread_cond_t *told);

/* This thread has the mutex, and so is the only one that changes. */
static inline void keep_queries_out(struct threads *threads)
{
	if (__atomic_add_fetch(&threads->queries, CHANGE, __ATOMIC_ACQUIRE) != CHANGE)
		wait_for_queries(threads);
}

static inline void let_queries_in(struct threads *threads)
{
	__atomic_store_n(&threads->queries, 0, __ATOMIC_RELEASE);
}

/* The mutex for a call, which gives way to who is at the gate. */
static inline void lock_for_call(struct threads *threads)
{
	if (__atomic_load_n(&threads->is_awaited, __ATOMIC_RELAXED))
		wait_at_gate(threads);
	pthread_mutex_lock(&threads->lock);
}

/* The lock for so many calls; or why they are not to be made, and no lock. */
static inline uint32_t lock_for_calls(struct threads *threads, size_t count)
{
	uint32_t status;

	lock_for_call(threads);
	status = threads->most == 0 ? (uint32_t)PIDTAB_DONE : wait_for_saver(threads, count);
	if (status == PIDTAB_DONE)
		keep_queries_out(threads);
	else
		pthread_mutex_unlock(&threads->lock);
	return status;
}

/* Calls may have been recorded. */
static inline void unlock_changed(struct threads *threads)
{
	if (threads->sleeps)
		wake_sleepers(threads);
	let_queries_in(threads);
	pthread_mutex_unlock(&threads->lock);
}

/* Counts a query more, unless there is a change. */
static inline bool joins_queries(struct threads *threads)
{
	uint32_t queries = __atomic_load_n(&threads->queries, __ATOMIC_RELAXED);

	while ((queries & CHANGE) == 0)
		if (__atomic_compare_exchange_n(&threads->queries, &queries, queries + 1, true, __ATOMIC_ACQUIRE, __ATOMIC_RELAXED))
			return true;
	return false;
}

/* The lock that queries share: that of a question, which gives way as a call does, and that of another query. */
static inline const struct pidtab *share_as_call(struct threads *threads)
{
	if (!joins_queries(threads))
		wait_as_call(threads);
	return &threads->table;
}

static inline const struct pidtab *share_before_calls(struct threads *threads)
{
	if (!joins_queries(threads))
		wait_before_calls(threads);
	return &threads->table;
}

/* The last query wakes the change that waits. */
static inline uint32_t end_shared(struct threads *threads, uint32_t status)
{
	if (__atomic_sub_fetch(&threads->queries, 1, __ATOMIC_RELEASE) == CHANGE)
		wake_change(threads);
	return status;
}

#endif
