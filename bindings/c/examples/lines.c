/* Reads a saved history on standard input, and writes each call as a line, with its ordinal and its worker before it.
 * Built by `cc lines.c -Iout out/libpidtab.a -pthread`. Of the bytes of the example of docs/SAVED.md it prints what is at the end. */
#include <pidtab_saved.h>

#include <inttypes.h>
#include <stdio.h>

/* The line of the call; of an operation that is not known here, its number. */
static void print_entry(uint64_t ordinal, const struct pidtab_entry *entry)
{
	char line[PIDTAB_LONGEST_CALL];
	size_t size = 0;

	printf("%" PRIu64 " %" PRIu64 " ", ordinal, entry->worker);
	if (pidtab_call_line(&entry->call, line, sizeof line, &size) != PIDTAB_DONE)
		printf("operation %u", entry->call.operation);
	printf("%.*s\n", (int)size, line);
}

/* Reads the first block of an entry, and then those that it lacks. */
static uint32_t read_entry(struct pidtab_entry *entry, size_t *have, uint64_t *sum)
{
	unsigned char bytes[PIDTAB_SAVED_LONGEST];
	size_t size;
	uint32_t status;

	*have = fread(bytes, 1, PIDTAB_SAVED_BLOCK, stdin);
	status = pidtab_saved_take(bytes, *have, entry, &size, sum);
	if (status == PIDTAB_TORN && *have == PIDTAB_SAVED_BLOCK) {
		*have += fread(bytes + *have, 1, size - *have, stdin);
		status = pidtab_saved_take(bytes, *have, entry, &size, sum);
	}
	return status;
}

int main(void)
{
	unsigned char block[PIDTAB_SAVED_BLOCK];
	struct pidtab_saved_head head;
	struct pidtab_entry entry;
	uint64_t sum, ordinal = 0;
	size_t have = fread(block, 1, sizeof block, stdin), size;
	uint32_t status = pidtab_saved_take_head(block, have, &head, &size, &sum);

	if (status == PIDTAB_DONE)
		printf("pid_max %u workers %u first stamp %" PRIu64 "\n", head.pid_max, head.workers, head.first_stamp);
	while (status == PIDTAB_DONE) {
		status = read_entry(&entry, &have, &sum);
		if (status == PIDTAB_DONE)
			print_entry(ordinal++, &entry);
	}
	if (status == PIDTAB_TORN && have == 0)
		return 0;
	fprintf(stderr, "entry %" PRIu64 ": %s\n", ordinal, pidtab_saved_text(status));
	return 1;
}

/* It prints
 *
 *     pid_max 32768 workers 2 first stamp 1
 *     0 0 fork 1 new
 *     1 1 nspid 1 2
 *     2 1 setpgid 1 0 -1
 */
