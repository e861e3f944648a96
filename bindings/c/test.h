/* What the tests share. */
#include "pidtab.h"

#include <pthread.h>
#include <stdio.h>
#include <stdlib.h>
#include <string.h>
#include <time.h>

#define CHECK(what) check((what), #what, __FILE__, __LINE__)

static inline void check(bool holds, const char *what, const char *file, int line)
{
	if (holds)
		return;
	fprintf(stderr, "%s:%d: not so: %s\n", file, line, what);
	exit(1);
}

/* Opens a table with a history: of so many entries, for any number of threads; or all of it, for one. */
static inline uint32_t open_threads(struct pidtab *table, uint32_t pid_max, uint64_t first_stamp, uint32_t workers, uint64_t keep)
{
	const struct pidtab_settings settings = { pid_max, workers, first_stamp, keep, true };
	return pidtab_open_with(table, &settings);
}

static inline uint32_t open_history(struct pidtab *table, uint32_t pid_max, uint64_t first_stamp, uint32_t workers)
{
	const struct pidtab_settings settings = { pid_max, workers, first_stamp, PIDTAB_KEEP_ALL, false };
	return pidtab_open_with(table, &settings);
}

/* The same of a text. */
static inline uint32_t load_threads(struct pidtab *table, const void *text, size_t length, const uint64_t *counts, uint32_t workers, uint64_t keep, struct pidtab_fault *fault)
{
	const struct pidtab_settings settings = { .workers = workers, .keep = keep, .threads = true };
	return pidtab_load_with(table, text, length, &settings, counts, fault);
}

static inline uint32_t load_history(struct pidtab *table, const void *text, size_t length, const uint64_t *counts, uint32_t workers, struct pidtab_fault *fault)
{
	const struct pidtab_settings settings = { .workers = workers, .keep = PIDTAB_KEEP_ALL };
	return pidtab_load_with(table, text, length, &settings, counts, fault);
}

/* The answer to a line, with a zero byte after it. */
static inline uint32_t ask(struct pidtab *table, const char *line, char answer[PIDTAB_LONGEST_ANSWER + 1])
{
	size_t size = 0;
	uint32_t status = pidtab_line(table, line, strlen(line), answer, PIDTAB_LONGEST_ANSWER, &size);
	answer[size] = 0;
	return status;
}

static inline bool answers(struct pidtab *table, const char *line, const char *wanted)
{
	char answer[PIDTAB_LONGEST_ANSWER + 1];
	return ask(table, line, answer) == PIDTAB_DONE && strcmp(answer, wanted) == 0;
}

/* Numbers that look random, the same in each run. */
static inline uint32_t random_below(uint32_t most)
{
	static uint64_t state = 1;

	state = state * 6364136223846793005u + 1442695040888963407u;
	return (uint32_t)(state >> 33) % most;
}

/* After the levels is room that no function writes. */
static inline bool is_same_reply(const struct pidtab_reply *a, const struct pidtab_reply *b)
{
	return memcmp(a, b, offsetof(struct pidtab_reply, levels) + sizeof a->levels) == 0;
}
