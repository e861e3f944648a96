/* A table that follows the history of another one. */
#include "pidtab.h"

#include <string.h>

/* So many entries are copied at once. */
#define A_PAGE 64

static bool is_same_reply(const struct pidtab_reply *one, const struct pidtab_reply *other)
{
	return one->kind == other->kind && one->error == other->error && one->refusal == other->refusal && one->count == other->count
	    && one->first == other->first && one->second == other->second
	    && memcmp(one->levels, other->levels, one->count * sizeof one->levels[0]) == 0;
}

/* Makes the calls of a page on the replica. */
static uint32_t follow_page(struct pidtab *replica, const struct pidtab_entry *entries, size_t count, uint64_t *next)
{
	struct pidtab_reply reply;

	for (size_t i = 0; i < count; i++) {
		uint32_t status = pidtab_call(replica, &entries[i].call, &reply);

		if (status != PIDTAB_DONE)
			return status;
		++*next;
		if (!is_same_reply(&reply, &entries[i].reply))
			return PIDTAB_DIFFERS;
	}
	return PIDTAB_DONE;
}

/* Those that are recorded while it works are left for the next time: else it would have no end beside threads that are faster. */
uint32_t pidtab_follow(const struct pidtab *table, struct pidtab *replica, uint64_t *next)
{
	struct pidtab_entry entries[A_PAGE];
	uint64_t first_kept, recorded;
	uint32_t status = pidtab_counts(table, &first_kept, &recorded);

	if (status == PIDTAB_DONE && *next > recorded)
		return PIDTAB_NOT_KEPT;
	while (status == PIDTAB_DONE && *next < recorded) {
		size_t room = recorded - *next < A_PAGE ? (size_t)(recorded - *next) : A_PAGE, count;

		status = pidtab_read(table, *next, entries, room, &count);
		if (status == PIDTAB_DONE)
			status = follow_page(replica, entries, count, next);
	}
	return status;
}
