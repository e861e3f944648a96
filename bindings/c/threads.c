/* The lock around a table that has threads. Mutexes of the default type: to lock and to unlock them in turn cannot fail.
 *
 * Queries are counted, and share the table. Who changes it, or the fields beside it, has the mutex. A change of the table is told where the
 * queries are counted, and waits until there are none: none passes it, as who finds it there waits for the mutex. pthread has such locks too,
 * but those of glibc 2.34 and later ask for that version.
 *
 * A mutex is for whoever comes first when it is free, which is a busy thread that has just given it back, and not one that has to
 * wake up. So who is no call, ask or stat goes by a gate: it is seen there by the next one of each thread, which waits until it has the
 * mutex. */
#include "guard.h"

#include <stdlib.h>
#include <time.h>

/* So many are a second. */
#define NANOSECONDS 1000000000

/* So often somebody looks again before he sleeps: most changes and queries take less than a sleep. */
#define LOOKS 100

static void look_again(void)
{
#if defined(__x86_64__) || defined(__i386__)
	__builtin_ia32_pause();
#endif
}

uint32_t begin_threads(struct pidtab *table, const struct pidtab *held)
{
	struct threads *threads = malloc(sizeof *threads);

	if (threads == NULL)
		return PIDTAB_NO_MEMORY;
	*threads = (struct threads){
		.lock = PTHREAD_MUTEX_INITIALIZER, .table = *held,
		.gate = PTHREAD_MUTEX_INITIALIZER, .told = PTHREAD_COND_INITIALIZER, .recorded = PTHREAD_COND_INITIALIZER,
		.drain = PTHREAD_MUTEX_INITIALIZER, .drained = PTHREAD_COND_INITIALIZER
	};
	table->is_open = true;
	__atomic_store_n(&table->way, LOCKED, __ATOMIC_RELAXED);
	__atomic_store_n(&table->threads, threads, __ATOMIC_RELEASE);
	return PIDTAB_DONE;
}

static void lock_before_calls(struct threads *threads)
{
	pthread_mutex_lock(&threads->gate);
	__atomic_store_n(&threads->is_awaited, true, __ATOMIC_RELAXED);
	pthread_mutex_lock(&threads->lock);
	__atomic_store_n(&threads->is_awaited, false, __ATOMIC_RELAXED);
	pthread_mutex_unlock(&threads->gate);
}

void end_threads(struct threads *threads)
{
	lock_before_calls(threads);
	keep_queries_out(threads);
	proved_close(&threads->table);
	pthread_mutex_unlock(&threads->lock);
	pthread_cond_destroy(&threads->drained);
	pthread_mutex_destroy(&threads->drain);
	pthread_cond_destroy(&threads->recorded);
	pthread_cond_destroy(&threads->told);
	pthread_mutex_destroy(&threads->gate);
	pthread_mutex_destroy(&threads->lock);
	free(threads);
}

struct pidtab *pidtab_lock(struct pidtab *table)
{
	struct threads *threads = threads_of(table);

	if (threads == NULL)
		return NULL;
	lock_before_calls(threads);
	keep_queries_out(threads);
	return &threads->table;
}

void pidtab_unlock(struct pidtab *table)
{
	unlock_changed(threads_of(table));
}

void wait_at_gate(struct threads *threads)
{
	pthread_mutex_lock(&threads->gate);
	pthread_mutex_unlock(&threads->gate);
}

static bool is_drained(const struct threads *threads)
{
	return __atomic_load_n(&threads->queries, __ATOMIC_ACQUIRE) == CHANGE;
}

void wait_for_queries(struct threads *threads)
{
	for (int i = 0; i < LOOKS && !is_drained(threads); i++)
		look_again();
	if (is_drained(threads))
		return;
	pthread_mutex_lock(&threads->drain);
	while (!is_drained(threads))
		pthread_cond_wait(&threads->drained, &threads->drain);
	pthread_mutex_unlock(&threads->drain);
}

void wake_change(struct threads *threads)
{
	pthread_mutex_lock(&threads->drain);
	pthread_cond_signal(&threads->drained);
	pthread_mutex_unlock(&threads->drain);
}

static bool joins_soon(struct threads *threads)
{
	for (int i = 0; i < LOOKS; i++) {
		look_again();
		if (joins_queries(threads))
			return true;
	}
	return false;
}

/* While this thread has the mutex, there is no change. */
static void join_behind_change(struct threads *threads)
{
	__atomic_fetch_add(&threads->queries, 1, __ATOMIC_ACQUIRE);
	pthread_mutex_unlock(&threads->lock);
}

/* A query that waits for a change lets those go before that a call lets go. */
void wait_as_call(struct threads *threads)
{
	if (joins_soon(threads))
		return;
	lock_for_call(threads);
	join_behind_change(threads);
}

void wait_before_calls(struct threads *threads)
{
	if (joins_soon(threads))
		return;
	lock_before_calls(threads);
	join_behind_change(threads);
}

/* All that sleep look, which are a saver, and who waits for a call. */
void wake_sleepers(struct threads *threads)
{
	threads->sleeps = false;
	pthread_cond_broadcast(&threads->recorded);
}

void sleep_until_told(struct threads *threads, pthread_cond_t *told)
{
	let_queries_in(threads);
	pthread_cond_wait(told, &threads->lock);
	keep_queries_out(threads);
}

/* Sleeps until calls may have been recorded. Whether the deadline has come. */
static bool sleep_until(struct threads *threads, const struct timespec *until)
{
	threads->sleeps = true;
	if (until != NULL)
		return pthread_cond_timedwait(&threads->recorded, &threads->lock, until) != 0;
	pthread_cond_wait(&threads->recorded, &threads->lock);
	return false;
}

/* The lock is held, and queries go on. */
static uint32_t await_call(struct threads *threads, uint64_t ordinal, const struct timespec *until, uint64_t *recorded)
{
	uint64_t first_kept;
	bool is_late = false;
	uint32_t status;

	/* One look more after the deadline. */
	while ((status = pidtab_counts(&threads->table, &first_kept, recorded)) == PIDTAB_DONE && *recorded <= ordinal
	       && !threads->is_over && !is_late)
		is_late = sleep_until(threads, until);
	return status == PIDTAB_DONE && *recorded <= ordinal && threads->is_over ? (uint32_t)PIDTAB_CLOSED : status;
}

uint32_t pidtab_await(struct pidtab *table, uint64_t ordinal, const struct timespec *until, uint64_t *recorded)
{
	struct threads *threads = threads_of(table);
	uint32_t status = unless_threads(table);

	if (status != PIDTAB_DONE)
		return status;
	if (until != NULL && (until->tv_nsec < 0 || until->tv_nsec >= NANOSECONDS))
		return PIDTAB_OUT_OF_RANGE;
	lock_before_calls(threads);
	status = await_call(threads, ordinal, until, recorded);
	pthread_mutex_unlock(&threads->lock);
	return status;
}

uint32_t pidtab_end(struct pidtab *table)
{
	struct threads *threads = threads_of(table);
	uint32_t status = unless_threads(table);

	if (status != PIDTAB_DONE)
		return status;
	lock_before_calls(threads);
	threads->is_over = true;
	if (threads->sleeps)
		wake_sleepers(threads);
	pthread_mutex_unlock(&threads->lock);
	return PIDTAB_DONE;
}

/* For more calls than the bound, until it has saved all. A saver that cannot save lets no call go on. */
uint32_t wait_for_saver(struct threads *threads, size_t count)
{
	uint64_t first_kept, recorded;

	while (threads->most != 0 && pidtab_counts(&threads->table, &first_kept, &recorded) == PIDTAB_DONE) {
		if (recorded <= threads->saved || recorded - threads->saved + count <= threads->most)
			break;
		if (threads->saving != PIDTAB_DONE)
			return threads->saving;
		pthread_cond_wait(&threads->told, &threads->lock);
	}
	return PIDTAB_DONE;
}
