/* Threads at one table of the library for C, by the clock: threads N KEEP.
 *
 * Sixteen threads make N calls each: in turn a fork, a getpid, an exit and a wait. First at a table with threads that keeps KEEP entries
 * (0: all), then at one without a history and without threads, which a pthread_mutex is around. It prints the calls
 * a second of both, each the median of five runs in turn. The calls are the same, so the difference is the history's.
 *
 *   cc -O2 -Iout loads/threads.c out/libpidtab.a -pthread -o out/threads
 *   out/threads 20000 16384
 */
#include "pidtab.h"

#include <pthread.h>
#include <stdio.h>
#include <stdlib.h>
#include <time.h>

#define THREADS 16
#define RUNS 5

static struct pidtab plain;
static struct pidtab joint;
static pthread_mutex_t lock = PTHREAD_MUTEX_INITIALIZER;
static long calls;
static uint64_t keep;

typedef uint32_t make_call(uint32_t worker, const struct pidtab_call *call, struct pidtab_reply *reply);

static uint32_t on_plain(uint32_t worker, const struct pidtab_call *call, struct pidtab_reply *reply)
{
	(void)worker;
	pthread_mutex_lock(&lock);
	uint32_t status = pidtab_call(&plain, call, reply);
	pthread_mutex_unlock(&lock);
	return status;
}

static uint32_t with_threads(uint32_t worker, const struct pidtab_call *call, struct pidtab_reply *reply)
{
	uint64_t ordinal;
	return pidtab_call_by(&joint, worker, call, reply, &ordinal);
}

struct work {
	make_call *make;
	uint32_t worker;
	uint32_t status;
};

/* The calls of one worker: its children are its own, since each wait names the child. */
static void *work_through(void *given)
{
	struct work *work = given;
	const struct pidtab_call forks = { .operation = PIDTAB_FORK, .caller = 1 };
	struct pidtab_reply reply;

	for (long left = calls / 4; left > 0; left--) {
		work->status |= work->make(work->worker, &forks, &reply);
		uint32_t child = (uint32_t)reply.second;
		const struct pidtab_call asks = { .operation = PIDTAB_GETPID, .caller = child };
		const struct pidtab_call exits = { .operation = PIDTAB_EXIT, .caller = child };
		const struct pidtab_call waits = { .operation = PIDTAB_WAIT, .caller = 1, .choice = PIDTAB_CHILD, .number = child };
		work->status |= work->make(work->worker, &asks, &reply);
		work->status |= work->make(work->worker, &exits, &reply);
		work->status |= work->make(work->worker, &waits, &reply);
	}
	return NULL;
}

static double now(void)
{
	struct timespec time;
	clock_gettime(CLOCK_MONOTONIC, &time);
	return (double)time.tv_sec + 1e-9 * (double)time.tv_nsec;
}

/* The calls a second of sixteen threads, or 0 where one of them failed. */
static double measured(make_call *make)
{
	pthread_t threads[THREADS];
	struct work works[THREADS];
	uint32_t status = PIDTAB_DONE;
	double start = now();

	for (uint32_t worker = 0; worker < THREADS; worker++) {
		works[worker] = (struct work){ make, worker, PIDTAB_DONE };
		if (pthread_create(&threads[worker], NULL, work_through, &works[worker]) != 0)
			return 0;
	}
	for (uint32_t worker = 0; worker < THREADS; worker++) {
		pthread_join(threads[worker], NULL);
		status |= works[worker].status;
	}
	return status == PIDTAB_DONE ? (double)(THREADS * (calls / 4) * 4) / (now() - start) : 0;
}

static double on_new_threads(void)
{
	const struct pidtab_settings settings = { .workers = THREADS, .keep = keep == 0 ? PIDTAB_KEEP_ALL : keep, .threads = true };

	if (pidtab_open_with(&joint, &settings) != PIDTAB_DONE)
		return 0;
	double rate = measured(with_threads);
	pidtab_close(&joint);
	return rate;
}

static double on_new_plain(void)
{
	if (pidtab_open(&plain, 32768) != PIDTAB_DONE)
		return 0;
	double rate = measured(on_plain);
	pidtab_close(&plain);
	return rate;
}

static int by_size(const void *one, const void *other)
{
	double a = *(const double *)one, b = *(const double *)other;
	return (a > b) - (a < b);
}

int main(int count, char **words)
{
	double with_history[RUNS], without[RUNS];

	calls = count == 3 ? atol(words[1]) : 0;
	if (calls < 4) {
		fprintf(stderr, "threads N KEEP, for N calls of each thread, at least 4\n");
		return 2;
	}
	keep = strtoull(words[2], NULL, 10);
	for (int run = 0; run < RUNS; run++) {
		with_history[run] = on_new_threads();
		without[run] = on_new_plain();
	}
	qsort(with_history, RUNS, sizeof(double), by_size);
	qsort(without, RUNS, sizeof(double), by_size);
	if (with_history[0] == 0 || without[0] == 0)
		return 1;
	printf("threads, with a history: %.0f calls a second\n", with_history[RUNS / 2]);
	printf("plain, behind a mutex: %.0f calls a second\n", without[RUNS / 2]);
	printf("ratio %.2f\n", with_history[RUNS / 2] / without[RUNS / 2]);
	return 0;
}
