/* Tells whom the end of a session's leader reaches by its terminal (exit(3)): the foreground process group gets a SIGHUP, and all of the session lose
 * the terminal. The table has no terminals: which group is in the foreground, tcgetpgrp(3) says. Built by `cc hang_up.c -Iout out/libpidtab.a`. */
#include "members.h"

/* The group has its number in the namespace of the leader, whose own session is 0. */
static uint32_t tell_hang_up(const struct pidtab *table, uint32_t leader, uint32_t foreground)
{
	struct pidtab_task task;
	uint32_t status = pidtab_stat(table, leader, 0, &task);

	if (status != PIDTAB_DONE)
		return status;
	if (task.error || task.session != task.levels[0]) {
		printf("%u leads no session\n", leader);
		return PIDTAB_DONE;
	}
	printf("%u ends\n  a SIGHUP for:", leader);
	status = tell_others(table, leader, PIDTAB_GROUP_MEMBERS, foreground, 1);
	if (status != PIDTAB_DONE)
		return status;
	printf("  no terminal for:");
	return tell_others(table, leader, PIDTAB_SESSION_MEMBERS, 0, 1);
}

static uint32_t run(struct pidtab *table)
{
	uint32_t status;

	/* 2 leads a session. Its children 3 and 4 are in the foreground, in the group 3, and 5 is in its own. 6, a child of 5, leads another session. */
	pidtab_fork(table, 1, false, NULL);
	pidtab_setsid(table, 2);
	for (int i = 0; i < 3; i++)
		pidtab_fork(table, 2, false, NULL);
	pidtab_setpgid(table, 2, 3, 3);
	pidtab_setpgid(table, 2, 4, 3);
	pidtab_setpgid(table, 2, 5, 5);
	pidtab_fork(table, 5, false, NULL);
	pidtab_setsid(table, 6);
	status = tell_hang_up(table, 2, 3);
	return status == PIDTAB_DONE ? tell_hang_up(table, 5, 5) : status;
}

/* It prints
 *
 *     2 ends
 *       a SIGHUP for: 3 4
 *       no terminal for: 3 4 5
 *     5 leads no session
 */
