/* Tells the namespaces of a table from the root inwards, each with its own tasks. Built by `cc spaces.c -Iout out/libpidtab.a`. */
#include "tree.h"

/* The tasks that are in the namespace of the init, and in none inside it. */
static uint32_t read_own(const struct pidtab *table, uint64_t init, uint32_t from, uint32_t *tasks, struct pidtab_reply *reply)
{
	return pidtab_page(table, 1, PIDTAB_NAMESPACE_OWN, (uint32_t)init, from, tasks, ROOM, reply);
}

/* Where the init was reaped, nobody is left but zombies whose parents are outside. */
static uint32_t tell_space(const struct pidtab *table, uint64_t id, int level)
{
	struct pidtab_space space = { 0 };
	uint32_t status = pidtab_space(table, id, &space);

	if (status != PIDTAB_DONE)
		return status;
	printf("%*snamespace %" PRIu64 "%s:", 2 * level, "", id, space.fallen ? ", fallen" : "");
	if (space.init != 0)
		status = tell_tasks(table, read_own, space.init);
	else
		printf("\n");
	return status == PIDTAB_DONE ? tell_inside(table, PIDTAB_SPACES, id, tell_space, level) : status;
}

static uint32_t run(struct pidtab *table)
{
	/* 2 is the init of a namespace, in which is its child 3, and 4 that of one within it. 5 is the init of another one, which ends. */
	pidtab_fork(table, 1, true, NULL);
	pidtab_fork(table, 2, false, NULL);
	pidtab_fork(table, 3, true, NULL);
	pidtab_fork(table, 1, true, NULL);
	pidtab_exit(table, 5, 0);
	return tell_space(table, 0, 0);
}

/* It prints
 *
 *     namespace 0: 1
 *       namespace 1: 2 3
 *         namespace 3: 4
 *       namespace 4, fallen: 5
 */
