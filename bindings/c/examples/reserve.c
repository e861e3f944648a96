/* A supervisor prepares for a child before it is there, and has the one that it has prepared for, or none. Built by
 * `cc reserve.c -Iout out/libpidtab.a`. */
#include "pidtab.h"

#include <stdio.h>

/* Forks with the numbers that were told. Where another one is faster, they are told anew. */
static uint32_t fork_as_told(struct pidtab *table, uint32_t caller, struct pidtab_reply *reply)
{
	const struct pidtab_call call = { .operation = PIDTAB_FORK, .caller = caller };
	uint32_t status = pidtab_would(table, &call, reply);

	while (status == PIDTAB_DONE && reply->kind == PIDTAB_FORKED) {
		uint32_t child = (uint32_t)reply->first, root = (uint32_t)reply->second;
		printf("a room for %u, in the root %u\n", child, root);
		/* Meanwhile another one forks, once. */
		if (root == 3)
			pidtab_fork(table, 1, false, NULL);
		status = pidtab_fork_at(table, caller, false, child, root, reply);
		if (status != PIDTAB_DIFFERS)
			break;
		puts("taken");
		status = PIDTAB_DONE;
	}
	return status;
}

int main(void)
{
	struct pidtab table = PIDTAB_INIT;
	struct pidtab_reply reply;
	uint32_t container, status = pidtab_open(&table, 32768);

	if (status == PIDTAB_DONE && pidtab_fork(&table, 1, true, &container) == 2)
		status = fork_as_told(&table, container, &reply);
	if (status == PIDTAB_DONE)
		printf("child %u root %u\n", (uint32_t)reply.first, (uint32_t)reply.second);
	else
		fprintf(stderr, "%s\n", pidtab_text(status));
	pidtab_close(&table);
	return status != PIDTAB_DONE;
}

/* It prints
 *
 *     a room for 2, in the root 3
 *     taken
 *     a room for 2, in the root 4
 *     child 2 root 4
 */
