/* A table of calls that look random, and its tasks, for tests that compare what is read of it. A test takes this in after test.h. */
#include "test_text.h"

#define HELD_TASKS 40

/* The root init, and tasks that were forked, by their root numbers. Who gives place to another one ends. */
static uint32_t held[HELD_TASKS] = { 1 };

static uint32_t random_task(void)
{
	uint32_t it = held[random_below(4) == 0 ? 0 : random_below(HELD_TASKS)];

	return it == 0 ? 1 : it;
}

static void hold_none(void)
{
	memset(held + 1, 0, sizeof held - sizeof held[0]);
}

/* 0, which is the caller itself, or the number of a task in a namespace as deep as the caller's, perhaps in that. */
static uint32_t random_number(uint32_t caller)
{
	struct pidtab_task own, other;

	CHECK(pidtab_stat(&table, 1, caller, &own) == PIDTAB_DONE && pidtab_stat(&table, 1, random_task(), &other) == PIDTAB_DONE);
	return random_below(4) == 0 || own.count == 0 || other.count < own.count ? 0 : other.levels[own.count - 1];
}

/* Holds the child that a fork has answered, in the place of another task, which ends. The root init then waits so often: it reaps most zombies at last. */
static inline void hold_forked(const struct pidtab_reply *reply, int waits)
{
	uint32_t place = 1 + random_below(HELD_TASKS - 1);

	if (held[place] != 0)
		pidtab_exit(&table, held[place], 0);
	held[place] = (uint32_t)reply->second;
	for (int i = 0; i < waits; i++)
		pidtab_wait(&table, 1, PIDTAB_ANY, 0, NULL);
}
