/* Two hosts of one log make one table: each is given all entries, one of them some twice, and a third host begins with a snapshot. The log is an array
 * here; a host of yours reads it from what all hosts share. Built by `cc replica.c -Iout out/libpidtab.a`. */
#include "pidtab_replica.h"

#include <stdio.h>
#include <string.h>

struct host {
	struct pidtab_replica replica;
	struct pidtab table;
};

/* The entries, by their positions from 1 on. The session that the second one opens is 2, and its writer had the digest of the first. */
static const char *const ENTRIES[] = {
	"pidtab-log 2 pid_max 32768 model 1",
	"open",
	"calls 2 1 2 1 71c1a1ec6994864c\nfork 1\nfork 1 new",
	"calls 2 1 2 1 71c1a1ec6994864c\nfork 1\nfork 1 new", /* put again, as nobody had answered */
	"calls 2 2 1 1 71c1a1ec6994864c\ngetpid 3",
};
#define MANY (sizeof ENTRIES / sizeof ENTRIES[0])

static uint32_t open_host(struct host *host)
{
	uint32_t status = pidtab_replica_open(&host->replica, 32768, PIDTAB_REPLICA_MODEL);

	return status == PIDTAB_DONE ? pidtab_open(&host->table, 32768) : status;
}

static void close_host(struct host *host)
{
	pidtab_replica_close(&host->replica);
	pidtab_close(&host->table);
}

/* Applies the entries after a position, and tells the answers. */
static uint32_t follow(struct host *host, size_t from, const char *name)
{
	struct pidtab_applied applied;
	char answers[256];
	size_t size;

	for (size_t i = from; i < MANY; i++) {
		uint32_t status = pidtab_replica_apply(&host->replica, &host->table, i + 1, ENTRIES[i], strlen(ENTRIES[i]), &applied);
		if (status == PIDTAB_DONE)
			status = pidtab_replica_answers(&host->replica, answers, sizeof answers, &size);
		if (status != PIDTAB_DONE)
			return status;
		if (applied.outcome == PIDTAB_ENTRY_MADE)
			printf("%s, entry %d of session %d:\n%.*s", name, (int)applied.sequence, (int)applied.session, (int)size, answers);
	}
	return PIDTAB_DONE;
}

/* Gives a host what another one has: the head of a snapshot, and after it the text of the table. */
static uint32_t begin_with(struct host *late, const struct host *host)
{
	char snapshot[4096];
	size_t head = 0, text = 0, used = 0;
	struct pidtab_fault fault;
	uint32_t status = pidtab_replica_write(&host->replica, snapshot, sizeof snapshot, &head);

	if (status == PIDTAB_DONE)
		status = pidtab_dump(&host->table, snapshot + head, sizeof snapshot - head, &text);
	if (status == PIDTAB_DONE)
		status = pidtab_replica_open(&late->replica, 32768, PIDTAB_REPLICA_MODEL);
	if (status == PIDTAB_DONE)
		status = pidtab_replica_read(&late->replica, snapshot, head + text, &used);
	return status == PIDTAB_DONE ? pidtab_load(&late->table, snapshot + used, head + text - used, &fault) : status;
}

/* The first bytes of the digest after the last entry. */
static unsigned digest_of(const struct host *host)
{
	struct pidtab_digest digest = { { 0 } };

	pidtab_replica_digest(&host->replica, MANY, &digest);
	return (unsigned)digest.bytes[0] << 8 | digest.bytes[1];
}

int main(void)
{
	struct host first = { PIDTAB_REPLICA_INIT, PIDTAB_INIT }, second = first, late = first;
	uint32_t status = open_host(&first);

	if (status == PIDTAB_DONE)
		status = open_host(&second);
	if (status == PIDTAB_DONE)
		status = follow(&first, 0, "first");
	if (status == PIDTAB_DONE)
		status = follow(&second, 0, "second");
	if (status == PIDTAB_DONE)
		status = begin_with(&late, &first);
	if (status == PIDTAB_DONE)
		printf("%d tasks, %s digest\n", (int)pidtab_count(&late.table, 0), digest_of(&first) == digest_of(&second) && digest_of(&first) == digest_of(&late) ? "one" : "another");
	else
		fprintf(stderr, "%s\n", pidtab_replica_text(status));
	close_host(&first);
	close_host(&second);
	close_host(&late);
	return status != PIDTAB_DONE;
}

/* It prints
 *
 *     first, entry 1 of session 2:
 *     child 2 root 2
 *     child 3 root 3
 *     first, entry 2 of session 2:
 *     1
 *     second, entry 1 of session 2:
 *     child 2 root 2
 *     child 3 root 3
 *     second, entry 2 of session 2:
 *     1
 *     3 tasks, one digest
 */
