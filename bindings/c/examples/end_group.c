/* Ends a process group with all that come from its members, also those that have left it. Built by `cc end_group.c -Iout out/libpidtab.a`. */
#include "example.h"

#define ROOM 2

/* Ends those of the page, and first the children of each. The root init sees all by their root numbers. */
static uint32_t end_all(struct pidtab *table, enum pidtab_whom whom, uint32_t number)
{
	uint32_t numbers[ROOM], from = 0, status;
	struct pidtab_reply reply;

	do {
		status = pidtab_page(table, 1, whom, number, from, numbers, ROOM, &reply);
		for (size_t i = 0; status == PIDTAB_DONE && i < ROOM && i < reply.first; i++) {
			from = numbers[i] + 1;
			status = end_all(table, PIDTAB_CHILDREN, numbers[i]);
			/* Who has ended already is no caller. */
			if (pidtab_exit(table, numbers[i], 0) == 0)
				printf("%u ends\n", numbers[i]);
		}
	} while (status == PIDTAB_DONE && reply.first > ROOM);
	return status;
}

/* 2 leads a group, in which are its child 3 and 5, a child of that. The other child 4 leads a session of its own, and 6 is a child of 4. */
static void make_job(struct pidtab *table)
{
	pidtab_fork(table, 1, false, NULL);
	pidtab_setpgid(table, 1, 2, 2);
	pidtab_fork(table, 2, false, NULL);
	pidtab_fork(table, 2, false, NULL);
	pidtab_fork(table, 3, false, NULL);
	pidtab_setsid(table, 4);
	pidtab_fork(table, 4, false, NULL);
}

static uint32_t run(struct pidtab *table)
{
	make_job(table);
	return end_all(table, PIDTAB_GROUP_MEMBERS, 2);
}

/* It prints
 *
 *     5 ends
 *     3 ends
 *     6 ends
 *     4 ends
 *     2 ends
 */
