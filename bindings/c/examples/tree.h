/* What the examples that go over a tree share: the tasks of one of its nodes, and the nodes directly inside that. */
#include "example.h"

#define ROOM 2

/* Reads a page of the tasks of a node, by their root numbers. */
typedef uint32_t read_page(const struct pidtab *table, uint64_t node, uint32_t from, uint32_t *tasks, struct pidtab_reply *reply);

static uint32_t tell_tasks(const struct pidtab *table, read_page *read, uint64_t node)
{
	uint32_t tasks[ROOM], from = 0, status;
	struct pidtab_reply reply;

	do {
		status = read(table, node, from, tasks, &reply);
		for (size_t i = 0; status == PIDTAB_DONE && i < ROOM && i < reply.first; i++) {
			printf(" %u", tasks[i]);
			from = tasks[i] + 1;
		}
	} while (status == PIDTAB_DONE && reply.first > ROOM);
	printf("\n");
	return status;
}

/* Tells a node, and then each directly inside it. */
typedef uint32_t tell_node(const struct pidtab *table, uint64_t id, int level);

static uint32_t tell_inside(const struct pidtab *table, enum pidtab_tree tree, uint64_t id, tell_node *tell, int level)
{
	uint64_t inner[ROOM], from = 0, count = 0;
	uint32_t status;

	do {
		status = pidtab_inside(table, tree, id, from, inner, ROOM, &count);
		for (size_t i = 0; status == PIDTAB_DONE && i < ROOM && i < count; i++) {
			from = inner[i] + 1;
			status = tell(table, inner[i], level + 1);
		}
	} while (status == PIDTAB_DONE && count > ROOM);
	return status;
}
