/* Entries of a log given to a replica, for callgrind: replica ENTRIES LINES.
 *
 * Each entry has so many lines. The difference of the instructions at two lengths, divided by that of the lengths, is the cost of an entry; the
 * loop is in it.
 *
 *   cc -O2 -Iout loads/replica.c out/libpidtab.a -pthread -o out/replica
 *   valgrind --tool=callgrind --callgrind-out-file=/dev/null out/replica 4000 1
 */
#include "pidtab_replica.h"

#include <stdio.h>
#include <stdlib.h>
#include <string.h>

#define MOST_LINES 256

static const char *const LINES[] = { "fork 1", "getpid 2", "exit 2 0", "wait 1 any" };

/* The lines of an entry, each with a newline before it. */
static size_t put_lines(char *text, int lines)
{
	size_t size = 0;

	for (int i = 0; i < lines; i++) {
		size_t length = strlen(LINES[i % 4]);
		text[size] = '\n';
		memcpy(text + size + 1, LINES[i % 4], length);
		size += 1 + length;
	}
	return size;
}

/* The entry with a number in session 2. The digest is that of the settings, after which it was written. */
static size_t put_entry(char *entry, int number, int lines, const char *text, size_t size)
{
	int head = sprintf(entry, "calls 2 %d %d 1 a23d48e1e3a92dc8", number, lines);

	memcpy(entry + head, text, size);
	return (size_t)head + size;
}

static uint32_t apply(struct pidtab_replica *replica, struct pidtab *table, uint64_t position, const char *entry, size_t size)
{
	struct pidtab_applied applied;

	return pidtab_replica_apply(replica, table, position, entry, size, &applied);
}

int main(int count, char **words)
{
	static const char settings[] = "pidtab-log 2 pid_max 4194304 model 1";
	static char text[MOST_LINES * 11], entry[MOST_LINES * 11 + 100];
	struct pidtab_replica replica = PIDTAB_REPLICA_INIT;
	struct pidtab table = PIDTAB_INIT;
	int entries = count > 2 ? atoi(words[1]) : 0, lines = count > 2 ? atoi(words[2]) : 0;

	if (entries < 1 || lines < 1 || lines > MOST_LINES) {
		fprintf(stderr, "usage: %s ENTRIES LINES, with 1 to %d lines\n", words[0], MOST_LINES);
		return 2;
	}
	if (pidtab_replica_open(&replica, 4194304, PIDTAB_REPLICA_MODEL) || pidtab_open(&table, 4194304))
		return 1;
	uint32_t status = apply(&replica, &table, 1, settings, strlen(settings)) | apply(&replica, &table, 2, "open", 4);
	size_t size = put_lines(text, lines);
	for (int i = 1; i <= entries && !status; i++)
		status = apply(&replica, &table, (uint64_t)i + 2, entry, put_entry(entry, i, lines, text, size));
	printf("%s\n", pidtab_replica_text(status));
	pidtab_replica_close(&replica);
	pidtab_close(&table);
	return status != PIDTAB_DONE;
}
