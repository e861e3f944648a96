/* Tells the control groups of a table from the root inwards, each with its live tasks, as systemd-cgls does. Built by
 * `cc controls.c -Iout out/libpidtab.a`. */
#include "tree.h"

/* The live tasks that are directly in the control group. */
static uint32_t read_live(const struct pidtab *table, uint64_t control, uint32_t from, uint32_t *tasks, struct pidtab_reply *reply)
{
	return pidtab_control_tasks(table, 1, control, from, tasks, ROOM, reply);
}

static uint32_t tell_control(const struct pidtab *table, uint64_t id, int level)
{
	uint32_t status;

	printf("%*scontrol group %" PRIu64 ":", 2 * level, "", id);
	status = tell_tasks(table, read_live, id);
	return status == PIDTAB_DONE ? tell_inside(table, PIDTAB_CONTROLS, id, tell_control, level) : status;
}

static uint32_t run(struct pidtab *table)
{
	/* A service has a control group, and two workers one inside it each. A child is in the control group of its parent, until it is moved. */
	uint64_t service = (uint64_t)pidtab_mk(table, 0), first = (uint64_t)pidtab_mk(table, service), second = (uint64_t)pidtab_mk(table, service);

	pidtab_fork(table, 1, false, NULL);
	pidtab_move(table, 2, service);
	for (int i = 0; i < 5; i++)
		pidtab_fork(table, 2, false, NULL);
	pidtab_move(table, 4, first);
	pidtab_move(table, 5, second);
	/* 6 is a zombie until 2 waits for it: it counts, and is no live task. */
	pidtab_exit(table, 6, 0);
	return tell_control(table, 0, 0);
}

/* It prints
 *
 *     control group 0: 1
 *       control group 1: 2 3 7
 *         control group 2: 4
 *         control group 3: 5
 */
