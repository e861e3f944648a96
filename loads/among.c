/* Calls of the library for C by numbers beside 1,000 tasks, for callgrind: among plain|history CALL LEVEL N.
 *
 * CALL is getpid, getppid, getpgid, nspid, next, count or wait, where no child has ended; or cycle: a fork, an exit and a wait; or shell: a fork, a
 * setpgid, an exec, six queries, an exit and a wait. The tasks are children of one that is in a namespace at the level, 0 to 32, and one of them makes
 * the calls, or starts those that do; nspid, next and wait are the root init's. The difference of the instructions at two N, divided by that of
 * the N, is the cost of one, three or eleven calls; the loop is in it.
 *
 *   cc -O2 -Iout loads/among.c out/libpidtab.a -pthread -o out/among
 *   valgrind --tool=callgrind --callgrind-out-file=/dev/null out/among history getpid 0 12000
 */
#include "tables.h"

#include <stdio.h>
#include <stdlib.h>

#define LIVE 1000
#define DEEPEST 32

static make_call *opened(const char *word)
{
	const struct pidtab_settings settings = { .keep = is_word(word, "history") ? PIDTAB_KEEP_ALL : 0 };

	if (!is_word(word, "plain") && !is_word(word, "history"))
		return NULL;
	return pidtab_open_with(&table, &settings) != PIDTAB_DONE ? NULL : settings.keep == 0 ? by_worker_0 : by_worker;
}

/* Forks a child, and answers its root number; 0 where it is not made. */
static uint32_t forked(make_call *make, uint32_t parent, bool in_space)
{
	const struct pidtab_call fork = { .operation = PIDTAB_FORK, .caller = parent, .choice = in_space };
	struct pidtab_reply reply = { .second = 0 };

	return make(&fork, &reply) == PIDTAB_DONE && reply.kind == PIDTAB_FORKED ? (uint32_t)reply.second : 0;
}

/* Makes the tasks, and answers the root number of the last one; 0 where that is not made. */
static uint32_t live_task(make_call *make, long level)
{
	uint32_t parent = 1, last = 0;

	for (; level > 0; level--)
		parent = forked(make, parent, true);
	for (int child = 0; child <= LIVE; child++)
		last = forked(make, parent, false);
	return last;
}

/* The call that the word names. Its operation is a fork where it names none. */
static struct pidtab_call named(const char *word, uint32_t task)
{
	const struct {
		const char *word;
		struct pidtab_call call;
	} calls[] = {
		{ "getpid", { .operation = PIDTAB_GETPID, .caller = task } },
		{ "getppid", { .operation = PIDTAB_GETPPID, .caller = task } },
		{ "getpgid", { .operation = PIDTAB_GETPGID, .caller = task } },
		{ "nspid", { .operation = PIDTAB_NSPID, .caller = 1, .number = task } },
		{ "next", { .operation = PIDTAB_NEXT, .caller = 1, .choice = PIDTAB_TASKS, .number = 2 } },
		{ "count", { .operation = PIDTAB_COUNT } },
		{ "wait", { .operation = PIDTAB_WAIT, .caller = 1, .choice = PIDTAB_ANY } },
	};

	for (size_t i = 0; i < sizeof calls / sizeof *calls; i++)
		if (is_word(word, calls[i].word))
			return calls[i].call;
	return (struct pidtab_call){ .operation = PIDTAB_FORK };
}

static uint32_t call_once(make_call *make, uint32_t operation, uint32_t caller)
{
	const struct pidtab_call call = { .operation = operation, .caller = caller };
	struct pidtab_reply reply;

	return make(&call, &reply);
}

/* The child ends, and its parent waits. */
static uint32_t reap(make_call *make, uint32_t parent, uint32_t child)
{
	return call_once(make, PIDTAB_EXIT, child) | call_once(make, PIDTAB_WAIT, parent);
}

static uint32_t cycle_once(make_call *make, uint32_t parent)
{
	return reap(make, parent, forked(make, parent, false));
}

static uint32_t shell_once(make_call *make, uint32_t parent)
{
	const uint32_t child = forked(make, parent, false);
	uint32_t status = call_once(make, PIDTAB_SETPGID, child) | call_once(make, PIDTAB_EXEC, child);

	for (int query = 0; query < 3; query++)
		status |= call_once(make, PIDTAB_GETPID, child) | call_once(make, PIDTAB_GETPPID, child);
	return status | reap(make, parent, child);
}

/* Makes the calls so many times, or once where that is refused. */
static uint32_t repeat(make_call *make, const char *word, uint32_t task, long left)
{
	const struct pidtab_call call = named(word, task);
	uint32_t (*const once)(make_call *, uint32_t) = is_word(word, "cycle") ? cycle_once : is_word(word, "shell") ? shell_once : NULL;
	struct pidtab_reply reply;
	uint32_t status = PIDTAB_DONE;

	if (!once && (make(&call, &reply) != PIDTAB_DONE || reply.kind == PIDTAB_REFUSED))
		return PIDTAB_OUT_OF_RANGE;
	for (; once && left > 0; left--)
		status |= once(make, task);
	for (; left > 0; left--)
		status |= make(&call, &reply);
	return status;
}

static bool is_load(const char *word)
{
	return is_word(word, "cycle") || is_word(word, "shell") || named(word, 1).operation != PIDTAB_FORK;
}

int main(int count, char **words)
{
	const long level = count == 5 ? atol(words[3]) : -1;
	make_call *make = level >= 0 && level <= DEEPEST && is_load(words[2]) ? opened(words[1]) : NULL;

	if (!make) {
		fprintf(stderr, "among plain|history getpid|getppid|getpgid|nspid|next|count|wait|cycle|shell LEVEL N\n");
		return 2;
	}

	const uint32_t task = live_task(make, level);

	if (task == 0 || repeat(make, words[2], task, atol(words[4])) != PIDTAB_DONE) {
		fprintf(stderr, "among: a call was refused, or there is no memory\n");
		return 1;
	}
	return 0;
}
