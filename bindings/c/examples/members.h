/* What the examples that tell members share: those of a page that live, by their root numbers. */
#include "example.h"

#define ROOM 2

/* Tells the task with the number in the caller's namespace, if it lives and is another one. */
static uint32_t tell_other(const struct pidtab *table, uint32_t caller, uint32_t number)
{
	struct pidtab_task task;
	uint32_t status = pidtab_stat(table, caller, number, &task);

	if (status == PIDTAB_DONE && !task.error && !task.ended && task.root != caller)
		printf(" %u", task.root);
	return status;
}

/* Tells the members from a number on, or why there are none to tell. */
static uint32_t tell_others(const struct pidtab *table, uint32_t caller, enum pidtab_whom whom, uint32_t number, uint32_t from)
{
	uint32_t numbers[ROOM], status;
	struct pidtab_reply reply;

	do {
		status = pidtab_page(table, caller, whom, number, from, numbers, ROOM, &reply);
		for (size_t i = 0; status == PIDTAB_DONE && i < ROOM && i < reply.first; i++) {
			from = numbers[i] + 1;
			status = tell_other(table, caller, numbers[i]);
		}
	} while (status == PIDTAB_DONE && reply.first > ROOM);
	if (status == PIDTAB_DONE && reply.kind == PIDTAB_REFUSED)
		printf(" %s", pidtab_word(reply.refusal));
	printf("\n");
	return status;
}
