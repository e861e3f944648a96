/* Lists of the library for C, for callgrind: pages LIST LIVE N.
 *
 * LIST is children, group, session or space, of the root init, by pidtab_page; inside, the namespaces directly inside the root's, by pidtab_inside;
 * or control, the tasks of the root cgroup, by pidtab_control_tasks. There are LIVE children of the root init, for inside each in a namespace of its
 * own. N is how often the whole list is asked for. The difference of the instructions at two N, divided by that of the N, is the cost of a list;
 * the difference of that at two LIVE, divided by that of the LIVE, is the cost of a number.
 *
 *   cc -O2 -Iout loads/pages.c out/libpidtab.a -pthread -o out/pages
 *   valgrind --tool=callgrind --callgrind-out-file=/dev/null out/pages children 300 2000
 */
#include "tables.h"

#include <stdio.h>
#include <stdlib.h>

/* At most so many children. */
#define MOST 10000

static uint32_t numbers[MOST + 1];
static uint64_t ids[MOST];

/* Makes so many children of the root init. */
static bool fork_children(long live, bool in_spaces)
{
	for (; live > 0; live--)
		if (pidtab_fork(&table, 1, in_spaces, NULL) <= 0)
			return false;
	return true;
}

/* The number of the list in enum pidtab_whom; one that is none where the word names none. */
static uint32_t whom_of(const char *list)
{
	return is_word(list, "children") ? PIDTAB_CHILDREN
	     : is_word(list, "group") ? PIDTAB_GROUP_MEMBERS
	     : is_word(list, "session") ? PIDTAB_SESSION_MEMBERS
	     : is_word(list, "space") ? PIDTAB_NAMESPACE_MEMBERS
	     : UINT32_MAX;
}

/* Whether the word names a list. */
static bool is_list(const char *list)
{
	return whom_of(list) != UINT32_MAX || is_word(list, "inside") || is_word(list, "control");
}

/* Asks for the whole list, and answers how many it has; 0 where that fails. */
static uint64_t ask_once(const char *list)
{
	struct pidtab_reply reply = { .first = 0 };
	uint64_t count = 0;

	if (is_word(list, "inside"))
		return pidtab_inside(&table, PIDTAB_SPACES, 0, 0, ids, MOST, &count) == PIDTAB_DONE ? count : 0;
	if (is_word(list, "control"))
		return pidtab_control_tasks(&table, 1, 0, 0, numbers, MOST + 1, &reply) == PIDTAB_DONE ? reply.first : 0;
	return pidtab_page(&table, 1, whom_of(list), 0, 0, numbers, MOST + 1, &reply) == PIDTAB_DONE ? reply.first : 0;
}

int main(int count, char **words)
{
	const long live = count == 4 ? atol(words[2]) : 0;

	if (live < 1 || live > MOST || !is_list(words[1]) || pidtab_open(&table, 32768) != PIDTAB_DONE || !fork_children(live, is_word(words[1], "inside"))) {
		fprintf(stderr, "pages children|group|session|space|inside|control LIVE N, with LIVE from 1 to %d\n", MOST);
		return 2;
	}
	for (long left = atol(words[3]); left > 0; left--)
		if (ask_once(words[1]) < (uint64_t)live)
			return 1;
	return 0;
}
