/* Who follows a table: a thread that prints each call once it is recorded, with its answer. Built by
 * `cc follow.c -Iout out/libpidtab.a -pthread`. */
#include <pidtab.h>

#include <inttypes.h>
#include <pthread.h>
#include <stdio.h>

#define ROOM 2

static struct pidtab table;

static uint32_t print_entry(uint64_t ordinal, const struct pidtab_entry *entry)
{
	char line[PIDTAB_LONGEST_CALL], answer[PIDTAB_LONGEST_ANSWER];
	size_t length, size;
	uint32_t status = pidtab_call_line(&entry->call, line, sizeof line, &length);

	if (status == PIDTAB_DONE)
		status = pidtab_reply_line(&entry->reply, answer, sizeof answer, &size);
	if (status == PIDTAB_DONE)
		printf("%" PRIu64 " %.*s is %.*s\n", ordinal, (int)length, line, (int)size, answer);
	return status;
}

/* Prints the calls from the next one on that are recorded by now. */
static uint32_t print_recorded(uint64_t *next)
{
	struct pidtab_entry entries[ROOM];
	size_t count = 0;
	uint32_t status;

	do {
		status = pidtab_read(&table, *next, entries, ROOM, &count);
		for (size_t i = 0; status == PIDTAB_DONE && i < count; i++)
			status = print_entry((*next)++, &entries[i]);
	} while (status == PIDTAB_DONE && count == ROOM);
	return status;
}

/* All that the thread does. It has the last call too: only a wait for one after that is ended. */
static void *follow(void *followed)
{
	uint64_t next = 0, recorded;
	uint32_t status;

	do {
		status = pidtab_await(&table, next, NULL, &recorded);
		if (status == PIDTAB_DONE)
			status = print_recorded(&next);
	} while (status == PIDTAB_DONE);
	if (status == PIDTAB_CLOSED)
		printf("%" PRIu64 " calls\n", next);
	else
		fprintf(stderr, "call %" PRIu64 ": %s\n", next, pidtab_text(status));
	*(bool *)followed = status == PIDTAB_CLOSED;
	return NULL;
}

/* A child ends, and is waited for twice. */
static uint32_t work(void)
{
	static const struct pidtab_call calls[] = { { .operation = PIDTAB_FORK, .caller = 1 }, { .operation = PIDTAB_EXIT, .caller = 2, .number = 7 },
		{ .operation = PIDTAB_WAIT, .caller = 1, .choice = PIDTAB_CHILD, .number = 2 }, { .operation = PIDTAB_WAIT, .caller = 1, .choice = PIDTAB_ANY } };
	struct pidtab_reply reply;
	uint64_t ordinal;
	uint32_t worker, status = pidtab_seat(&table, &worker);

	for (size_t i = 0; status == PIDTAB_DONE && i < sizeof calls / sizeof calls[0]; i++)
		status = pidtab_call_by(&table, worker, &calls[i], &reply, &ordinal);
	return status;
}

int main(void)
{
	pthread_t follower;
	bool followed = false;
	const struct pidtab_settings settings = { .keep = PIDTAB_KEEP_ALL, .threads = true };
	uint32_t status = pidtab_open_with(&table, &settings);

	if (status != PIDTAB_DONE) {
		fprintf(stderr, "%s\n", pidtab_text(status));
		return 1;
	}
	if (pthread_create(&follower, NULL, follow, &followed) == 0) {
		status = work();
		if (status != PIDTAB_DONE)
			fprintf(stderr, "%s\n", pidtab_text(status));
		pidtab_end(&table);
		pthread_join(follower, NULL);
	} else {
		fprintf(stderr, "there is no thread\n");
	}
	pidtab_close(&table);
	return status != PIDTAB_DONE || !followed;
}

/* It prints
 *
 *     0 fork 1 is child 2 root 2
 *     1 exit 2 7 is ok
 *     2 wait 1 pid 2 is reaped 2 exit 7
 *     3 wait 1 any is ECHILD no-child
 *     4 calls
 */
