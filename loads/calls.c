/* Calls of the library for C by numbers, for callgrind: calls TABLE LOAD N.
 *
 * TABLE is plain; history; bounded, which keeps 1,000 entries; or threads, with a history and its lock taken for each call. LOAD is getpid; ask, the same
 * as a query that is no call; turns, the same with 100 in one go, where N is how many such, of history or threads alone; number, the same by
 * pidtab_getpid_of; nspid, of a task at level 8; or cycle: a fork, an exit and a wait. The difference of the instructions at two
 * lengths, divided by that of the lengths, is the cost; the loop is in it. A history doubles its room as it grows, so the lengths are two between which it
 * does not, as 12,000 and 16,000.
 *
 *   cc -O2 -Iout loads/calls.c out/libpidtab.a -pthread -o out/calls
 *   valgrind --tool=callgrind --callgrind-out-file=/dev/null out/calls history getpid 12000
 */
#include "tables.h"

#include <stdio.h>
#include <stdlib.h>

/* So many calls are made in one go. */
#define A_TURN 100

static uint32_t in_turns(const struct pidtab_call *calls, struct pidtab_reply *replies)
{
	uint64_t ordinal;
	size_t made;
	return pidtab_calls(&table, 0, calls, A_TURN, replies, A_TURN, &made, &ordinal);
}

static uint32_t by_ask(const struct pidtab_call *call, struct pidtab_reply *reply)
{
	return pidtab_ask(&table, call, reply);
}

static uint32_t by_number(const struct pidtab_call *call, struct pidtab_reply *reply)
{
	return pidtab_getpid_of(&table, call->caller, &reply->first);
}

/* How the calls of a load are made on the table of the word, which is opened; a plain one has no turns. */
static make_call *opened(const char *word, const char *load)
{
	static const struct {
		const char *word;
		make_call *make;
		struct pidtab_settings settings;
	} tables[] = {
		{ "plain", by_worker_0, { .keep = 0 } },
		{ "history", by_worker, { .workers = 16, .keep = PIDTAB_KEEP_ALL } },
		{ "bounded", by_worker, { .workers = 16, .keep = 1000 } },
		{ "threads", by_worker, { .workers = 16, .keep = PIDTAB_KEEP_ALL, .threads = true } },
	};

	for (size_t i = is_word(load, "turns"); i < sizeof tables / sizeof *tables; i++)
		if (is_word(word, tables[i].word))
			return pidtab_open_with(&table, &tables[i].settings) != PIDTAB_DONE ? NULL
				: is_word(load, "turns") ? in_turns : is_word(load, "ask") ? by_ask : is_word(load, "number") ? by_number : tables[i].make;
	return NULL;
}

static uint32_t getpid_once(make_call *make)
{
	const struct pidtab_call call = { .operation = PIDTAB_GETPID, .caller = 1 };
	struct pidtab_reply reply;
	return make(&call, &reply);
}

/* So many turns of getpid. */
static uint32_t take_turns(make_call *make, long left)
{
	static struct pidtab_call calls[A_TURN];
	static struct pidtab_reply replies[A_TURN];
	uint32_t status = 0;

	for (int i = 0; i < A_TURN; i++)
		calls[i] = (struct pidtab_call){ .operation = PIDTAB_GETPID, .caller = 1 };
	for (; left > 0; left--)
		status |= make(calls, replies);
	return status;
}

/* The root number of a task at level 8. */
static uint32_t deep_task(make_call *make)
{
	struct pidtab_call fork = { .operation = PIDTAB_FORK, .caller = 1, .choice = 1 };
	struct pidtab_reply reply = { .second = 0 };

	for (int level = 1; level <= 8 && make(&fork, &reply) == PIDTAB_DONE; level++)
		fork.caller = (uint32_t)reply.second;
	return fork.caller;
}

/* So many times the numbers of that task. */
static uint32_t tell_numbers(make_call *make, long left)
{
	const struct pidtab_call call = { .operation = PIDTAB_NSPID, .caller = 1, .number = deep_task(make) };
	struct pidtab_reply reply;
	uint32_t status = 0;

	for (; left > 0; left--)
		status |= make(&call, &reply);
	return status;
}

static uint32_t cycle_once(make_call *make)
{
	const struct pidtab_call forks = { .operation = PIDTAB_FORK, .caller = 1 };
	const struct pidtab_call waits = { .operation = PIDTAB_WAIT, .caller = 1, .choice = PIDTAB_ANY };
	struct pidtab_call exits = { .operation = PIDTAB_EXIT };
	struct pidtab_reply reply;
	uint32_t status = make(&forks, &reply);

	exits.caller = (uint32_t)reply.second;
	return status | make(&exits, &reply) | make(&waits, &reply);
}

int main(int count, char **words)
{
	make_call *make = count == 4 ? opened(words[1], words[2]) : NULL;
	uint32_t status = 0;

	if (!make) {
		fprintf(stderr, "calls plain|history|bounded|threads getpid|ask|turns|number|nspid|cycle N\n");
		return 2;
	}
	if (is_word(words[2], "turns"))
		return take_turns(make, atol(words[3])) != PIDTAB_DONE;
	if (is_word(words[2], "nspid"))
		return tell_numbers(make, atol(words[3])) != PIDTAB_DONE;
	for (long left = atol(words[3]); left > 0; left--)
		status |= is_word(words[2], "cycle") ? cycle_once(make) : getpid_once(make);
	return status != PIDTAB_DONE;
}
