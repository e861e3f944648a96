/* The longest calls of a table with threads that bounds its history, by the clock: pause LIVE KEEP CALLS.
 *
 * LIVE forks are made, and then CALLS getpid, each timed, at a table with threads that keeps KEEP entries (0: all). It prints the seconds of the
 * forks, the calls a second, the median and the longest call, and the peak of resident memory. With one word, pause LIVE, it prints what
 * the load of a text with so many tasks costs: without a history, and with one, which makes two tables of the text.
 *
 *   cc -O2 -Iout loads/pause.c out/libpidtab.a -pthread -o out/pause
 *   out/pause 1000000 16384 1000000
 *   out/pause 1000000
 */
#define _POSIX_C_SOURCE 200809L
#include "pidtab.h"

#include <stdio.h>
#include <stdlib.h>
#include <sys/resource.h>
#include <time.h>

static struct pidtab table;

static double now(void)
{
	struct timespec at;

	clock_gettime(CLOCK_MONOTONIC, &at);
	return (double)at.tv_sec + 1e-9 * (double)at.tv_nsec;
}

static long peak_megabytes(void)
{
	struct rusage used;

	getrusage(RUSAGE_SELF, &used);
	return used.ru_maxrss / 1024;
}

static int by_length(const void *one, const void *other)
{
	double x = *(const double *)one, y = *(const double *)other;

	return (x > y) - (x < y);
}

static void must(uint32_t status)
{
	if (status != PIDTAB_DONE) {
		fprintf(stderr, "pause: status %u\n", status);
		exit(1);
	}
}

/* Opens the table with threads: so many entries are kept, or all. */
static void open_table(uint64_t keep)
{
	const struct pidtab_settings settings = { .pid_max = 4194304, .keep = keep == 0 ? PIDTAB_KEEP_ALL : keep, .threads = true };

	must(pidtab_open_with(&table, &settings));
}

/* The seconds that so many calls took; where there is a list, of each too. */
static double make(struct pidtab_call call, long count, double *each)
{
	struct pidtab_reply reply;
	uint64_t ordinal;
	double begin = now();

	for (long i = 0; i < count; i++) {
		double before = each ? now() : 0;
		must(pidtab_call_by(&table, 0, &call, &reply, &ordinal));
		if (each)
			each[i] = now() - before;
	}
	return now() - begin;
}

static void time_calls(long live, uint64_t keep, long calls)
{
	double *each = malloc((size_t)calls * sizeof *each);

	must(each == NULL ? (uint32_t)PIDTAB_NO_MEMORY : (uint32_t)PIDTAB_DONE);
	open_table(keep);
	double forks = make((struct pidtab_call){ .operation = PIDTAB_FORK, .caller = 1 }, live, NULL);
	double asks = make((struct pidtab_call){ .operation = PIDTAB_GETPID, .caller = 1 }, calls, each);
	qsort(each, (size_t)calls, sizeof *each, by_length);
	printf("forks %.2f s, %.2f M getpid a second, median %.2f us, longest %.0f us, peak %ld MB\n", forks, (double)calls / asks / 1e6,
	       each[calls / 2] * 1e6, each[calls - 1] * 1e6, peak_megabytes());
	free(each);
}

/* The seconds that the load of a text takes, of a history or without one. */
static double load(const char *text, size_t size, uint64_t recorded, uint64_t keep)
{
	const struct pidtab_settings settings = { .keep = keep };
	struct pidtab loaded = PIDTAB_INIT;
	struct pidtab_fault fault;
	double begin = now(), took;

	must(pidtab_load_with(&loaded, text, size, &settings, &recorded, &fault));
	took = now() - begin;
	pidtab_close(&loaded);
	return took;
}

static void time_loads(long live)
{
	size_t size = 0;

	open_table(1);
	double forks = make((struct pidtab_call){ .operation = PIDTAB_FORK, .caller = 1 }, live, NULL);
	pidtab_dump(&table, NULL, 0, &size);
	char *text = malloc(size);
	double begin = now();
	must(text == NULL ? (uint32_t)PIDTAB_NO_MEMORY : pidtab_dump(&table, text, size, &size));
	double dump = now() - begin;
	pidtab_close(&table);
	double bare = load(text, size, 0, 0), recorded = load(text, size, (uint64_t)live, PIDTAB_KEEP_ALL);
	printf("forks %.2f s, dump %.2f s, load without a history %.2f s, with one %.2f s, peak %ld MB\n", forks, dump, bare, recorded, peak_megabytes());
	free(text);
}

int main(int words, char **word)
{
	if (words != 2 && words != 4) {
		fputs("pause LIVE [KEEP CALLS]\n", stderr);
		return 2;
	}
	if (words == 2)
		time_loads(atol(word[1]));
	else
		time_calls(atol(word[1]), strtoull(word[2], NULL, 10), atol(word[3]));
	return 0;
}
