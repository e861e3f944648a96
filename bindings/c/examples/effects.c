/* Tells what an exit did, then what that of a namespace's init did, and then what the wait for that did. Built by `cc effects.c -Iout out/libpidtab.a`. */
#include "example.h"

#include <stdlib.h>

#define ROOM 4

/* How a task ended. */
static void tell_end(const struct pidtab_effect *it)
{
	if (it->value == PIDTAB_KILLED)
		printf("  %u was killed\n", it->number);
	else
		printf("  %u ended with status %" PRIu64 "\n", it->number, it->value);
}

static void tell_effect(const struct pidtab_effect *it)
{
	switch (it->what) {
	case PIDTAB_TASK_ENDED:
		tell_end(it);
		break;
	case PIDTAB_TASK_ADOPTED:
		printf("  %u is a child of %" PRIu64 "\n", it->number, it->value);
		break;
	case PIDTAB_TASK_GONE:
		printf("  %u is gone\n", it->number);
		break;
	case PIDTAB_GROUP_GONE:
		printf("  the process group %u is gone\n", it->number);
		break;
	case PIDTAB_SESSION_GONE:
		printf("  the session %u is gone\n", it->number);
		break;
	case PIDTAB_SPACE_FELL:
		printf("  the namespace %" PRIu64 " has fallen\n", it->value);
		break;
	case PIDTAB_SPACE_GONE:
		printf("  the namespace %" PRIu64 " is gone\n", it->value);
	}
}

/* Makes the call, and tells its effects. Where there is little room, the call is not made, and says how much it takes. */
static uint32_t tell_call(struct pidtab *table, const struct pidtab_call *call)
{
	struct pidtab_effect few[ROOM], *effects = few;
	struct pidtab_reply reply;
	uint64_t count = 0;
	uint32_t status = pidtab_call_told(table, call, &reply, few, ROOM, &count);

	if (status == PIDTAB_NO_ROOM) {
		effects = calloc((size_t)count, sizeof *effects);
		status = effects ? pidtab_call_told(table, call, &reply, effects, (size_t)count, &count) : PIDTAB_NO_MEMORY;
	}
	for (uint64_t i = 0; status == PIDTAB_DONE && i < count; i++)
		tell_effect(&effects[i]);
	if (effects != few)
		free(effects);
	return status;
}

static uint32_t run(struct pidtab *table)
{
	static const struct pidtab_call calls[] = { { .operation = PIDTAB_EXIT, .caller = 3, .number = 1 }, { .operation = PIDTAB_EXIT, .caller = 2 },
		{ .operation = PIDTAB_WAIT, .caller = 1, .choice = PIDTAB_ANY } };
	static const char *const names[] = { "the exit of 3", "the exit of 2", "the wait of 1" };
	uint32_t status = PIDTAB_DONE;

	/* 2 is the init of a namespace, in which is its child 3, whose children are 4, which leads a session, and 5. */
	pidtab_fork(table, 1, true, NULL);
	pidtab_fork(table, 2, false, NULL);
	pidtab_fork(table, 3, false, NULL);
	pidtab_fork(table, 3, false, NULL);
	pidtab_setsid(table, 4);
	for (int i = 0; i < 3 && status == PIDTAB_DONE; i++) {
		puts(names[i]);
		status = tell_call(table, &calls[i]);
	}
	return status;
}

/* It prints
 *
 *     the exit of 3
 *       3 ended with status 1
 *       4 is a child of 2
 *       5 is a child of 2
 *     the exit of 2
 *       2 ended with status 0
 *       3 is gone
 *       4 was killed
 *       4 is gone
 *       5 was killed
 *       5 is gone
 *       the process group 4 is gone
 *       the session 4 is gone
 *       the namespace 1 has fallen
 *     the wait of 1
 *       2 is gone
 *       the namespace 1 is gone
 */
