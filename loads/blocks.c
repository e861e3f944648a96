/* Bytes of a saved history in memory, for callgrind: blocks WHAT LEVELS N.
 *
 * WHAT is put or take; the entry is that of an nspid with so many levels, or with 0 that of a fork. The difference of the instructions at
 * two lengths, divided by that of the lengths, is the cost; the loop is in it.
 *
 *   cc -O2 -Iout loads/blocks.c out/libpidtab.a -pthread -o out/blocks
 *   valgrind --tool=callgrind --callgrind-out-file=/dev/null out/blocks put 0 12000
 */
#include "pidtab_saved.h"

#include <stdio.h>
#include <stdlib.h>
#include <string.h>

/* A fork that has a child, or the levels of process 1. */
static struct pidtab_entry entry_of(uint32_t levels)
{
	struct pidtab_entry entry = { .worker = 3, .call = { .operation = PIDTAB_FORK, .caller = 1 } };

	if (levels == 0) {
		entry.reply = (struct pidtab_reply){ .kind = PIDTAB_FORKED, .first = 2, .second = 2 };
		return entry;
	}
	entry.call = (struct pidtab_call){ .operation = PIDTAB_NSPID, .caller = 1, .number = 1 };
	entry.reply = (struct pidtab_reply){ .kind = PIDTAB_LEVELS, .count = levels };
	for (uint32_t i = 0; i < levels; i++)
		entry.reply.levels[i] = i + 1;
	return entry;
}

int main(int count, char **words)
{
	const struct pidtab_entry entry = entry_of(count == 4 ? (uint32_t)atoi(words[2]) : 0);
	unsigned char bytes[PIDTAB_SAVED_LONGEST];
	struct pidtab_entry found;
	uint64_t sum = 0, behind = 0;
	size_t size;
	uint32_t status = pidtab_saved_put(&entry, bytes, sizeof bytes, &size, &behind);

	if (count != 4 || status != PIDTAB_DONE) {
		fprintf(stderr, "blocks put|take LEVELS N\n");
		return 2;
	}
	for (long left = atol(words[3]); left > 0; left--, sum = 0)
		status |= strcmp(words[1], "take") == 0 ? pidtab_saved_take(bytes, size, &found, &size, &sum)
			: pidtab_saved_put(&entry, bytes, sizeof bytes, &size, &sum);
	return status != PIDTAB_DONE;
}
