/* What stands around each proved function: a mark of who works on a table, and, where its settings ask for more, a lock or a bound. For the files of
 * this folder alone. */
#ifndef PIDTAB_GUARD_H
#define PIDTAB_GUARD_H

#include "threads.h"

/* The mark is ALONE in a call, and else the number of queries. One more than the most waits until one ends. */
#define ALONE UINT8_MAX
#ifndef PIDTAB_MOST_QUERIES
#define PIDTAB_MOST_QUERIES (ALONE - 1)
#endif

/* Marks for a call. */
static inline bool enter(uint8_t *in_use)
{
	uint8_t unused = 0;

	return __atomic_compare_exchange_n(in_use, &unused, ALONE, false, __ATOMIC_ACQUIRE, __ATOMIC_RELAXED);
}

/* Takes the mark away. */
static inline uint32_t leave(uint8_t *in_use, uint32_t status)
{
	__atomic_store_n(in_use, 0, __ATOMIC_RELEASE);
	return status;
}

/* Counts one query more. The mark is all that a query changes. */
static inline bool enter_query(const uint8_t *mark)
{
	uint8_t *in_use = (uint8_t *)mark, count;

	do {
		count = __atomic_load_n(in_use, __ATOMIC_RELAXED);
		if (count == ALONE)
			return false;
	} while (count == PIDTAB_MOST_QUERIES || !__atomic_compare_exchange_n(in_use, &count, count + 1, false, __ATOMIC_ACQUIRE, __ATOMIC_RELAXED));
	return true;
}

static inline uint32_t leave_query(const uint8_t *mark, uint32_t status)
{
	__atomic_sub_fetch((uint8_t *)mark, 1, __ATOMIC_RELEASE);
	return status;
}

/* What leads to the table, as the proved functions know it. Each query has a copy; and what opens or closes, which assigns more than these two. No other
 * proved function writes any of it. */
static inline void copy_held(const struct pidtab *table, struct pidtab *held)
{
	held->at = table->at;
	held->is_open = table->is_open;
}

/* Which way the calls of a table go: with neither a bound nor threads, with a bound, or with threads. */
enum { QUICK, KEEPING, LOCKED };

static inline uint8_t way_of(const struct pidtab *table)
{
	return __atomic_load_n(&table->way, __ATOMIC_RELAXED);
}

static inline bool has_threads(const struct pidtab *table)
{
	return threads_of(table) != NULL;
}

/* Why a table has no lock, or PIDTAB_DONE where it has one. */
static inline uint32_t unless_threads(const struct pidtab *table)
{
	return has_threads(table) ? PIDTAB_DONE : table->is_open ? PIDTAB_NO_THREADS : PIDTAB_CLOSED;
}

/* Begins so many calls: `held` is what the proved function works on, the table itself or the one that its lock is around. Where the status is not
 * PIDTAB_DONE, it does not work, and nothing is ended. */
static inline uint32_t begin_calls(struct pidtab *table, size_t count, struct pidtab **held)
{
	struct threads *threads = threads_of(table);

	*held = threads != NULL ? &threads->table : table;
	if (threads != NULL)
		return lock_for_calls(threads, count);
	return enter(&table->in_use) ? PIDTAB_DONE : PIDTAB_BUSY;
}

/* Begins a change that is no call: it goes before the calls, and waits for no saver. */
static inline uint32_t begin_change(struct pidtab *table, struct pidtab **held)
{
	*held = has_threads(table) ? pidtab_lock(table) : table;
	return *held != table || enter(&table->in_use) ? PIDTAB_DONE : PIDTAB_BUSY;
}

static inline uint32_t end_change(struct pidtab *table, const struct pidtab *held, uint32_t status)
{
	if (held == table)
		return leave(&table->in_use, status);
	unlock_changed(threads_of(table));
	return status;
}

/* Keeps the bound, and ends one call, or any number of calls. A call that was not made has left none too many, so nothing is cut. */
static inline uint32_t end_call(struct pidtab *table, struct pidtab *held, uint32_t status)
{
	if (held->keep != 0)
		proved_keep(held, held->keep);
	return end_change(table, held, status);
}

/* Of settings.c. */
uint32_t end_calls(struct pidtab *table, struct pidtab *held, uint32_t status);
/* The settings with what 0 stands for. */
struct pidtab_settings with_defaults(const struct pidtab_settings *settings);

#endif
