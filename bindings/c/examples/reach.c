/* Tells whom kill(2) of -1 reaches: all whom its caller's namespace sees, but the init there and the caller. To a zombie it does nothing.
 * Built by `cc reach.c -Iout out/libpidtab.a`. */
#include "members.h"

static uint32_t run(struct pidtab *table)
{
	uint32_t status = PIDTAB_DONE;

	/* 2 is the init of a namespace, and 3, 4 and 5 are its children. 4 is a zombie, and 5 is the init of a namespace within it. 6 is beside them. */
	pidtab_fork(table, 1, true, NULL);
	pidtab_fork(table, 2, false, NULL);
	pidtab_fork(table, 2, false, NULL);
	pidtab_fork(table, 2, true, NULL);
	pidtab_fork(table, 1, false, NULL);
	pidtab_exit(table, 4, 0);
	for (uint32_t caller = 1; status == PIDTAB_DONE && caller <= 6; caller++) {
		printf("%u reaches:", caller);
		/* The init of each namespace is 1 there, so the members from 2 on are all others. A zombie is no caller. */
		status = tell_others(table, caller, PIDTAB_NAMESPACE_MEMBERS, 0, 2);
	}
	return status;
}

/* It prints
 *
 *     1 reaches: 2 3 5 6
 *     2 reaches: 3 5
 *     3 reaches: 5
 *     4 reaches: no-caller
 *     5 reaches:
 *     6 reaches: 2 3 5
 */
