/* Tests of the queries with arguments of their own: beside the same calls by pidtab_call, with each answer, and at the last stamp. */
#include "test_dump.h"

#include <errno.h>

#define CALLS 20000
#define UNTOLD 0x5555555555555555u

static struct pidtab table, other;

/* What a query by its own function answers, and the number that it leaves. */
struct answer {
	uint32_t status;
	uint64_t number;
};

static struct answer by_its_function(struct pidtab *of, const struct pidtab_call *it)
{
	struct answer told = { 0, UNTOLD };

	switch (it->operation) {
	case PIDTAB_GETPID: told.status = pidtab_getpid_of(of, it->caller, &told.number); break;
	case PIDTAB_GETPPID: told.status = pidtab_getppid_of(of, it->caller, &told.number); break;
	case PIDTAB_GETPGID: told.status = pidtab_getpgid_of(of, it->caller, it->number, &told.number); break;
	case PIDTAB_GETSID: told.status = pidtab_getsid_of(of, it->caller, it->number, &told.number); break;
	case PIDTAB_NEXT: told.status = pidtab_next_of(of, it->caller, it->choice, it->number, &told.number); break;
	case PIDTAB_COUNT: told.status = pidtab_count_of(of, it->id, &told.number); break;
	default: CHECK(false);
	}
	return told;
}

static bool has_function(uint32_t operation)
{
	return operation == PIDTAB_GETPID || operation == PIDTAB_GETPPID || operation == PIDTAB_GETPGID || operation == PIDTAB_GETSID ||
		operation == PIDTAB_NEXT || operation == PIDTAB_COUNT;
}

/* The answer that the call by numbers would have. */
static struct answer by_numbers(struct pidtab *of, const struct pidtab_call *it)
{
	struct pidtab_reply reply;
	uint32_t status = pidtab_call(of, it, &reply);

	if (status != PIDTAB_DONE)
		return (struct answer){ status, UNTOLD };
	return reply.kind == PIDTAB_REFUSED ? (struct answer){ reply.error, UNTOLD } : (struct answer){ PIDTAB_DONE, reply.first };
}

static struct pidtab_call random_call(void)
{
	uint32_t queries[] = { PIDTAB_GETPID, PIDTAB_GETPPID, PIDTAB_GETPGID, PIDTAB_GETSID, PIDTAB_NEXT, PIDTAB_COUNT };

	return (struct pidtab_call){ .operation = random_below(2) ? queries[random_below(6)] : random_below(PIDTAB_SUBREAPER + 1),
		.caller = random_below(12), .id = random_below(6), .number = random_below(12), .choice = random_below(4),
		.pid = (int32_t)random_below(9), .pgid = (int32_t)random_below(9) };
}

/* Each query by its function on the one table, and by numbers on the other. Both are the same in the end, the stamp too. */
static void as_calls(void)
{
	static char texts[2][1 << 16];
	size_t sizes[2] = { 0, 1 };
	uint32_t numbers = 0, refused[200] = { 0 };

	CHECK(pidtab_open(&table, 301) == PIDTAB_DONE && pidtab_open(&other, 301) == PIDTAB_DONE);
	for (int i = 0; i < CALLS; i++) {
		struct pidtab_call it = random_call();

		if (!has_function(it.operation)) {
			by_numbers(&table, &it);
			by_numbers(&other, &it);
			continue;
		}
		struct answer one = by_its_function(&table, &it), two = by_numbers(&other, &it);

		CHECK(one.status == two.status && one.number == two.number);
		numbers += one.status == PIDTAB_DONE && one.number > 1;
		refused[one.status]++;
	}
	CHECK(numbers > 100 && refused[ESRCH] > 100 && refused[ENOENT] > 100 && refused[PIDTAB_OUT_OF_RANGE] > 100);
	CHECK(pidtab_dump(&table, texts[0], sizeof texts[0], &sizes[0]) == PIDTAB_DONE && pidtab_dump(&other, texts[1], sizeof texts[1], &sizes[1]) == PIDTAB_DONE);
	CHECK(sizes[0] == sizes[1] && memcmp(texts[0], texts[1], sizes[0]) == 0);
	CHECK(pidtab_close(&table) == PIDTAB_DONE && pidtab_close(&other) == PIDTAB_DONE);
}

/* Every function has this answer, and leaves the number. */
static void all_answer(uint32_t status)
{
	static const uint32_t queries[] = { PIDTAB_GETPID, PIDTAB_GETPPID, PIDTAB_GETPGID, PIDTAB_GETSID, PIDTAB_NEXT, PIDTAB_COUNT };

	for (size_t i = 0; i < sizeof queries / sizeof queries[0]; i++) {
		struct answer told = by_its_function(&table, &(struct pidtab_call){ .operation = queries[i], .caller = 1 });

		CHECK(told.status == status && told.number == UNTOLD);
	}
}

/* The numbers of a small table, by hand: process 2 is the init of a namespace, where it is process 1. */
static void by_hand(void)
{
	uint64_t number = UNTOLD;

	all_answer(PIDTAB_CLOSED);
	CHECK(pidtab_open(&table, 32768) == PIDTAB_DONE);
	CHECK(pidtab_fork(&table, 1, 1, NULL) == 2 && pidtab_fork(&table, 1, 0, NULL) == 3 && pidtab_setsid(&table, 3) == 3);
	CHECK(pidtab_getpid_of(&table, 2, &number) == PIDTAB_DONE && number == 1);
	CHECK(pidtab_getppid_of(&table, 2, &number) == PIDTAB_DONE && number == 0);
	CHECK(pidtab_getppid_of(&table, 3, &number) == PIDTAB_DONE && number == 1);
	CHECK(pidtab_getpgid_of(&table, 1, 3, &number) == PIDTAB_DONE && number == 3);
	CHECK(pidtab_getpgid_of(&table, 3, 0, &number) == PIDTAB_DONE && number == 3);
	CHECK(pidtab_getsid_of(&table, 1, 3, &number) == PIDTAB_DONE && number == 3);
	CHECK(pidtab_next_of(&table, 1, PIDTAB_SESSIONS, 2, &number) == PIDTAB_DONE && number == 3);
	CHECK(pidtab_count_of(&table, 0, &number) == PIDTAB_DONE && number == 3);
	CHECK(pidtab_next_of(&table, 1, PIDTAB_TASKS, 4, &number) == PIDTAB_DONE && number == 0);
	number = UNTOLD;
	CHECK(pidtab_getpid_of(&table, 9, &number) == ESRCH && pidtab_getpgid_of(&table, 2, 3, &number) == ESRCH && number == UNTOLD);
	CHECK(pidtab_count_of(&table, 7, &number) == ENOENT && pidtab_next_of(&table, 1, 3, 1, &number) == PIDTAB_OUT_OF_RANGE && number == UNTOLD);
	CHECK(pidtab_getpid(&table, 2) == 1 && pidtab_getpid(&table, 9) == -ESRCH && pidtab_count(&table, 7) == -ENOENT);
	table.in_use = 1;
	all_answer(PIDTAB_BUSY);
	table.in_use = 0;
	CHECK(pidtab_close(&table) == PIDTAB_DONE);
	all_answer(PIDTAB_CLOSED);
}

/* A query takes a stamp, and after the last one there is none. */
static void the_last_stamp(void)
{
	struct text last = first_text("18446744073709551614");
	struct pidtab_fault fault;
	uint64_t number = UNTOLD;

	CHECK(pidtab_load(&table, last.bytes, last.size, &fault) == PIDTAB_DONE);
	CHECK(pidtab_next_of(&table, 1, 3, 1, &number) == PIDTAB_OUT_OF_RANGE && pidtab_getpid_of(&table, 1, &number) == PIDTAB_DONE && number == 1);
	all_answer(PIDTAB_SPENT);
	number = UNTOLD;
	CHECK(pidtab_next_of(&table, 1, 3, 1, &number) == PIDTAB_OUT_OF_RANGE && pidtab_getpid(&table, 1) == -PIDTAB_SPENT && number == UNTOLD);
	CHECK(pidtab_close(&table) == PIDTAB_DONE);
	free(last.bytes);
}

int main(void)
{
	as_calls();
	by_hand();
	the_last_stamp();
	return 0;
}
