/* The saver of a table with threads: who waits for it, whom it holds up, and that busy threads let it have the lock. */
#include "test_saved.h"

#include <errno.h>
#include <sched.h>
#include <signal.h>
#include <stdatomic.h>
#include <sys/stat.h>
#include <unistd.h>

#define THREADS 8
#define EACH 300
#define KEEP 256
#define BOUND 16

static const struct pidtab_saved_head head = { .pid_max = 32768, .workers = THREADS, .first_stamp = 1 };
static struct pidtab shared;
static struct pidtab_saved saved;
static int file;

static void begin(void)
{
	file = new_file();
	CHECK(open_threads(&shared, head.pid_max, head.first_stamp, head.workers, PIDTAB_KEEP_ALL) == PIDTAB_DONE);
	CHECK(pidtab_saved_begin(&saved, file, &head) == PIDTAB_DONE);
}

static void end(void)
{
	pidtab_close(&shared);
	CHECK(close(file) == 0);
}

/* A getpid of the worker: its status, and its ordinal where it was made. */
static uint32_t asks(uint32_t worker, uint64_t *ordinal)
{
	const struct pidtab_call call = { .operation = PIDTAB_GETPID, .caller = 1 };
	struct pidtab_reply reply;

	return pidtab_call_by(&shared, worker, &call, &reply, ordinal);
}

static uint64_t count_recorded(void)
{
	uint64_t first_kept, recorded;

	CHECK(pidtab_counts(&shared, &first_kept, &recorded) == PIDTAB_DONE);
	return recorded;
}

/* How many calls the file has: each of them is one block. */
static uint64_t count_in_file(void)
{
	struct stat about;

	CHECK(fstat(file, &about) == 0);
	return (uint64_t)about.st_size / PIDTAB_SAVED_BLOCK - 1;
}

static void *serves(void *keep)
{
	CHECK(pidtab_saved_serve(&saved, &shared, *(uint64_t *)keep, true) == PIDTAB_DONE);
	return NULL;
}

/* The threads do it at once, and after them the saver ends. */
static void beside_the_saver(void *(*does)(void *), uint64_t keep)
{
	pthread_t threads[THREADS], saver;

	CHECK(pthread_create(&saver, NULL, serves, &keep) == 0);
	for (int i = 0; i < THREADS; i++)
		CHECK(pthread_create(&threads[i], NULL, does, NULL) == 0);
	for (int i = 0; i < THREADS; i++)
		CHECK(pthread_join(threads[i], NULL) == 0);
	pidtab_saved_end(&shared);
	CHECK(pthread_join(saver, NULL) == 0);
}

/* Each call is in the file when it is answered. */
static void *answers_what_is_saved(void *unused)
{
	uint32_t worker;
	uint64_t ordinal;

	CHECK(pidtab_seat(&shared, &worker) == PIDTAB_DONE);
	for (int i = 0; i < EACH; i++) {
		CHECK(asks(worker, &ordinal) == PIDTAB_DONE && pidtab_saved_wait(&shared, ordinal) == PIDTAB_DONE);
		CHECK(count_in_file() > ordinal);
	}
	return unused;
}

/* No thread has more than one call that is not saved, so a cut leaves as many as there are threads. */
static void all_is_saved_and_cut(void)
{
	static struct pidtab again;
	uint64_t first_kept, recorded;

	begin();
	beside_the_saver(answers_what_is_saved, KEEP);
	CHECK(saved.next == THREADS * EACH && count_in_file() == saved.next);
	CHECK(pidtab_counts(&shared, &first_kept, &recorded) == PIDTAB_DONE && recorded == saved.next);
	CHECK(recorded - first_kept < KEEP + THREADS);
	CHECK(pidtab_saved_load(&saved, file, &again, &of_many) == PIDTAB_DONE && saved.next == recorded);
	/* What was loaded is saved. */
	CHECK(pidtab_saved_wait(&again, recorded - 1) == PIDTAB_DONE);
	pidtab_close(&again);
	end();
}

/* The call was made when at most so many were not saved; by now the file may have more. */
static void *keeps_the_bound(void *unused)
{
	uint32_t worker;
	uint64_t ordinal;

	CHECK(pidtab_seat(&shared, &worker) == PIDTAB_DONE);
	for (int i = 0; i < EACH; i++)
		CHECK(asks(worker, &ordinal) == PIDTAB_DONE && ordinal < count_in_file() + BOUND);
	return unused;
}

static void never_too_far(void)
{
	begin();
	pidtab_saved_bound(&shared, BOUND);
	beside_the_saver(keeps_the_bound, 0);
	CHECK(saved.next == THREADS * EACH);
	end();
}

/* Turns, of which some are longer than the bound: those are made where all is saved. */
static void *keeps_the_bound_by_turns(void *unused)
{
	struct pidtab_call calls[2 * BOUND];
	struct pidtab_reply replies[2 * BOUND];
	uint32_t worker;
	uint64_t ordinal;

	for (size_t i = 0; i < 2 * BOUND; i++)
		calls[i] = (struct pidtab_call){ .operation = PIDTAB_GETPID, .caller = 1 };
	CHECK(pidtab_seat(&shared, &worker) == PIDTAB_DONE);
	for (size_t left = EACH, count = 1, made; left > 0; left -= made, count = count * 5 % (2 * BOUND) + 1) {
		count = count < left ? count : left;
		CHECK(pidtab_calls(&shared, worker, calls, count, replies, count, &made, &ordinal) == PIDTAB_DONE && made == count);
		CHECK(ordinal < count_in_file() + (count < BOUND ? BOUND : count));
	}
	return unused;
}

static void no_turn_too_far(void)
{
	begin();
	pidtab_saved_bound(&shared, BOUND);
	beside_the_saver(keeps_the_bound_by_turns, 0);
	CHECK(saved.next == THREADS * EACH);
	end();
}

/* As many calls as the bound. */
static void reaches_the_bound(void)
{
	uint64_t ordinal;

	for (uint64_t i = 0; i < BOUND; i++)
		CHECK(asks(0, &ordinal) == PIDTAB_DONE && ordinal == i);
}

/* One more, by a line. */
static void *makes_one_too_many(void *unused)
{
	char answer[PIDTAB_LONGEST_ANSWER];
	uint64_t ordinal;
	size_t size;

	reaches_the_bound();
	CHECK(pidtab_line_by(&shared, 0, "getpid 1", 8, answer, sizeof answer, &size, &ordinal) == PIDTAB_DONE && ordinal == BOUND);
	return unused;
}

/* One more, which tells its effects. */
static void *tells_one_too_many(void *unused)
{
	const struct pidtab_call call = { .operation = PIDTAB_GETPID, .caller = 1 };
	struct pidtab_effect effects[1];
	struct pidtab_reply reply;
	uint64_t ordinal, count;

	reaches_the_bound();
	CHECK(pidtab_call_told_by(&shared, 0, &call, &reply, &ordinal, effects, 0, &count) == PIDTAB_DONE && ordinal == BOUND && count == 0);
	return unused;
}

/* A call that waits is let go by an append, and by another bound. */
static void let_go(void *(*makes)(void *), bool by_append)
{
	pthread_t thread;

	begin();
	pidtab_saved_bound(&shared, BOUND);
	CHECK(pthread_create(&thread, NULL, makes, NULL) == 0);
	while (count_recorded() < BOUND)
		sched_yield();
	if (by_append)
		CHECK(pidtab_saved_append(&saved, &shared) == PIDTAB_DONE && saved.next == BOUND);
	else
		pidtab_saved_bound(&shared, 0);
	CHECK(pthread_join(thread, NULL) == 0 && count_recorded() == BOUND + 1);
	end();
}

static void *waits_for_the_first(void *wanted)
{
	uint32_t status = pidtab_saved_wait(&shared, 0);

	CHECK(status == *(uint32_t *)wanted && (status != PIDTAB_DEVICE || errno == EPIPE));
	return NULL;
}

/* The descriptor leads elsewhere for a while: to a pipe without a reader. */
static void fails_and_goes_on(void)
{
	uint32_t wanted = PIDTAB_DEVICE;
	uint64_t ordinal;
	pthread_t waiter;
	int ends[2], kept;

	begin();
	pidtab_saved_bound(&shared, 1);
	CHECK(asks(0, &ordinal) == PIDTAB_DONE && pthread_create(&waiter, NULL, waits_for_the_first, &wanted) == 0);
	CHECK((kept = dup(file)) >= 0 && pipe(ends) == 0 && dup2(ends[1], file) == file && close(ends[0]) == 0 && close(ends[1]) == 0);
	CHECK(pidtab_saved_serve(&saved, &shared, 0, true) == PIDTAB_DEVICE && saved.error == EPIPE && saved.next == 0);
	CHECK(pthread_join(waiter, NULL) == 0);
	/* As long as no turn does better, nobody waits, and nothing is made that is too far. */
	errno = 0;
	CHECK(pidtab_saved_wait(&shared, 0) == PIDTAB_DEVICE && errno == EPIPE);
	CHECK(asks(0, &ordinal) == PIDTAB_DEVICE && count_recorded() == 1);
	CHECK(dup2(kept, file) == file && close(kept) == 0 && pidtab_saved_append(&saved, &shared) == PIDTAB_DONE);
	CHECK(pidtab_saved_wait(&shared, 0) == PIDTAB_DONE && asks(0, &ordinal) == PIDTAB_DONE && ordinal == 1);
	end();
}

/* A disk that cannot be synced, as a pipe: the call is in it, and counts as not saved. */
static void not_on_the_disk(void)
{
	uint64_t ordinal;
	int ends[2];

	CHECK(pipe(ends) == 0);
	CHECK(open_threads(&shared, head.pid_max, head.first_stamp, head.workers, PIDTAB_KEEP_ALL) == PIDTAB_DONE);
	CHECK(pidtab_saved_begin(&saved, ends[1], &head) == PIDTAB_DONE && asks(0, &ordinal) == PIDTAB_DONE);
	CHECK(pidtab_saved_serve(&saved, &shared, 0, true) == PIDTAB_DEVICE && saved.error == EINVAL && saved.next == 1);
	CHECK(pidtab_saved_wait(&shared, 0) == PIDTAB_DEVICE && errno == EINVAL);
	CHECK(pidtab_saved_append(&saved, &shared) == PIDTAB_DONE && pidtab_saved_wait(&shared, 0) == PIDTAB_DONE);
	pidtab_close(&shared);
	CHECK(close(ends[0]) == 0 && close(ends[1]) == 0);
}

/* A saver that has ended has one turn, and then nobody waits for it. */
static void ended(void)
{
	uint32_t wanted = PIDTAB_ENDED;
	uint64_t ordinal;
	pthread_t waiter;

	begin();
	pidtab_saved_bound(&shared, 1);
	CHECK(asks(0, &ordinal) == PIDTAB_DONE && pthread_create(&waiter, NULL, waits_for_the_first, &wanted) == 0);
	pidtab_saved_end(&shared);
	CHECK(pthread_join(waiter, NULL) == 0 && asks(0, &ordinal) == PIDTAB_ENDED && count_recorded() == 1);
	CHECK(pidtab_saved_serve(&saved, &shared, 0, true) == PIDTAB_DONE && saved.next == 1);
	CHECK(pidtab_saved_wait(&shared, 0) == PIDTAB_DONE && pidtab_saved_wait(&shared, 1) == PIDTAB_ENDED);
	end();
}

static atomic_bool is_over;
static atomic_int tasks[THREADS + 1];

/* Whether the thread of the task sleeps, as /proc says. */
static bool is_asleep(int task)
{
	char name[64], state = 0;

	snprintf(name, sizeof name, "/proc/self/task/%d/stat", task);
	FILE *stat = fopen(name, "r");
	CHECK(stat && fscanf(stat, "%*d (%*[^)]) %c", &state) == 1 && fclose(stat) == 0);
	return state == 'S';
}

static void wait_until_asleep(atomic_int *task)
{
	while (atomic_load(task) == 0 || !is_asleep(atomic_load(task)))
		sched_yield();
}

static void wait_for_seats(void)
{
	for (int i = 0; i < THREADS; i++)
		while (atomic_load(&tasks[i]) == 0)
			sched_yield();
}

static void *is_busy(void *unused)
{
	uint32_t worker;
	uint64_t ordinal;

	CHECK(pidtab_seat(&shared, &worker) == PIDTAB_DONE);
	atomic_store(&tasks[worker], gettid());
	while (!atomic_load(&is_over))
		CHECK(asks(worker, &ordinal) == PIDTAB_DONE);
	return unused;
}

static void *counts(void *found)
{
	atomic_store(&tasks[THREADS], gettid());
	*(uint64_t *)found = count_recorded();
	return NULL;
}

/* All busy threads wait for the lock, and after them one that counts: how many calls come before it. */
static uint64_t calls_before_the_count(void)
{
	struct pidtab *table = pidtab_lock(&shared);
	uint64_t first_kept, before, found;
	pthread_t thread;

	for (int i = 0; i < THREADS; i++)
		wait_until_asleep(&tasks[i]);
	CHECK(pidtab_counts(table, &first_kept, &before) == PIDTAB_DONE);
	atomic_store(&tasks[THREADS], 0);
	CHECK(pthread_create(&thread, NULL, counts, &found) == 0);
	wait_until_asleep(&tasks[THREADS]);
	pidtab_unlock(&shared);
	CHECK(pthread_join(thread, NULL) == 0);
	return found - before;
}

/* Each of the busy threads makes one call at most, and then waits until the other has counted. */
static void goes_before_busy_threads(void)
{
	pthread_t threads[THREADS];

	begin();
	for (int i = 0; i < THREADS; i++)
		CHECK(pthread_create(&threads[i], NULL, is_busy, NULL) == 0);
	wait_for_seats();
	for (int i = 0; i < 50; i++)
		CHECK(calls_before_the_count() <= THREADS);
	atomic_store(&is_over, true);
	for (int i = 0; i < THREADS; i++)
		CHECK(pthread_join(threads[i], NULL) == 0);
	end();
}

int main(void)
{
	CHECK(signal(SIGPIPE, SIG_IGN) != SIG_ERR);
	all_is_saved_and_cut();
	never_too_far();
	no_turn_too_far();
	let_go(makes_one_too_many, true);
	let_go(makes_one_too_many, false);
	let_go(tells_one_too_many, true);
	let_go(tells_one_too_many, false);
	fails_and_goes_on();
	not_on_the_disk();
	ended();
	goes_before_busy_threads();
	return 0;
}
