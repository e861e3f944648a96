/* Tests of replicas of a log: each status, what becomes of entries and what is told of them, the heads of snapshots, and want of memory at each
 * allocation in turn. The digests are of another program for SHA-256, by the rules of docs/CLUSTER.md. */
#include "pidtab_replica.h"

#include "test.h"
#include "test_heap.h"

#include <errno.h>

_Static_assert(PIDTAB_NO_SESSION == ESRCH && PIDTAB_NO_ENTRY == EBADR && PIDTAB_MISSING == ENOLINK && PIDTAB_DIVERGED == EREMCHG, "statuses");
_Static_assert(PIDTAB_OTHER_SETTINGS == ENOPROTOOPT && PIDTAB_NOT_RISING == ESTALE && PIDTAB_NOT_RECOVERABLE == ENOTRECOVERABLE, "statuses");
_Static_assert(sizeof(struct pidtab_applied) == 32 && offsetof(struct pidtab_applied, session) == 8 && offsetof(struct pidtab_applied, size) == 24, "pidtab_applied");
_Static_assert(sizeof(struct pidtab_log) == 48 && offsetof(struct pidtab_log, lost) == 44, "pidtab_log");
_Static_assert(sizeof(struct pidtab_digest) == 32, "pidtab_digest");

#define SETTINGS "pidtab-log 2 pid_max 4194304 model 1"
#define AT_SETTINGS "a23d48e1e3a92dc8"
#define AT_FIRST "15c2fe3e85470d47"
#define AT_SECOND "bafbc239d2492ca5"
#define FIRST "calls 4 1 2 4 " AT_SETTINGS "\nfork 1\ngetpid 2"
#define SECOND "calls 4 2 3 6 " AT_FIRST "\nfork\nexit 2 0\nwait 1 any"

/* A host: a replica with its table. */
struct host {
	struct pidtab_replica replica;
	struct pidtab table;
};

static void open_host(struct host *host)
{
	*host = (struct host){ PIDTAB_REPLICA_INIT, PIDTAB_INIT };
	CHECK(pidtab_replica_open(&host->replica, 4194304, 1) == PIDTAB_DONE);
	CHECK(pidtab_open(&host->table, 4194304) == PIDTAB_DONE);
}

static void close_host(struct host *host)
{
	CHECK(pidtab_replica_close(&host->replica) == PIDTAB_DONE && host->replica.at == NULL && !host->replica.is_open && !host->replica.in_use);
	CHECK(pidtab_close(&host->table) == PIDTAB_DONE);
}

/* What no function has written. */
#define UNTOLD (struct pidtab_applied){ 77, 77, 77, 77 }

static uint32_t apply(struct host *host, uint64_t position, const char *entry, struct pidtab_applied *applied)
{
	*applied = UNTOLD;
	return pidtab_replica_apply(&host->replica, &host->table, position, entry, strlen(entry), applied);
}

static bool is_told(struct pidtab_applied it, uint32_t outcome, uint64_t session, uint64_t sequence, uint64_t size)
{
	return it.outcome == outcome && it.session == session && it.sequence == sequence && it.size == size;
}

/* Whether the digest after the entry begins with these digits. */
static bool has_digest(const struct host *host, uint64_t position, const char *digits)
{
	struct pidtab_digest digest;
	char text[65];

	if (pidtab_replica_digest(&host->replica, position, &digest) != PIDTAB_DONE)
		return false;
	for (int i = 0; i < 32; i++)
		sprintf(text + 2 * i, "%02x", digest.bytes[i]);
	return strncmp(text, digits, strlen(digits)) == 0;
}

/* Whether these are the answers to the last entry. What is after them in the room stays. */
static bool has_answers(const struct host *host, const char *wanted)
{
	char room[128];
	size_t size = 0;

	memset(room, 'x', sizeof room);
	return pidtab_replica_answers(&host->replica, room, sizeof room, &size) == PIDTAB_DONE && size == strlen(wanted) && memcmp(room, wanted, size) == 0 && room[size] == 'x';
}

static struct pidtab_log log_of(const struct host *host)
{
	struct pidtab_log log;

	memset(&log, 7, sizeof log);
	CHECK(pidtab_replica_log(&host->replica, &log) == PIDTAB_DONE);
	return log;
}

/* An entry that is refused leaves all as it was. */
static void refuses(struct host *host, uint64_t position, const char *entry, uint32_t status, const char *answers)
{
	struct pidtab_log before = log_of(host), after;
	struct pidtab_applied applied;

	CHECK(apply(host, position, entry, &applied) == status);
	CHECK(is_told(applied, 77, 77, 77, 77) && has_answers(host, answers));
	after = log_of(host);
	CHECK(memcmp(&before, &after, sizeof before) == 0);
}

static void each_is_closed_or_busy(void)
{
	struct host host = { PIDTAB_REPLICA_INIT, PIDTAB_INIT };
	struct pidtab_applied applied;
	struct pidtab_log log;
	struct pidtab_digest digest;
	uint64_t last = 7;
	size_t size = 7;
	char room[1];

	CHECK(apply(&host, 1, SETTINGS, &applied) == PIDTAB_CLOSED && is_told(applied, 77, 77, 77, 77));
	CHECK(pidtab_replica_answers(&host.replica, room, 0, &size) == PIDTAB_CLOSED && size == 7);
	CHECK(pidtab_replica_log(&host.replica, &log) == PIDTAB_CLOSED && pidtab_replica_digest(&host.replica, 0, &digest) == PIDTAB_CLOSED);
	CHECK(pidtab_replica_last(&host.replica, 4, &last) == PIDTAB_CLOSED && last == 7);
	CHECK(pidtab_replica_close(&host.replica) == PIDTAB_DONE);

	/* A replica without its table applies nothing, and a table without its replica neither. */
	CHECK(pidtab_replica_open(&host.replica, 4194304, 1) == PIDTAB_DONE && pidtab_replica_open(&host.replica, 301, 1) == PIDTAB_BUSY);
	CHECK(apply(&host, 1, SETTINGS, &applied) == PIDTAB_CLOSED && log_of(&host).pid_max == 4194304);
	CHECK(pidtab_replica_close(&host.replica) == PIDTAB_DONE && pidtab_open(&host.table, 4194304) == PIDTAB_DONE);
	CHECK(apply(&host, 1, SETTINGS, &applied) == PIDTAB_CLOSED && pidtab_count(&host.table, 0) == 1);
	close_host(&host);
}

static void log_is_followed(void)
{
	struct host host;
	struct pidtab_applied it;
	struct pidtab_log log;
	uint64_t last = 7;
	size_t size = 7;
	char room[4] = "kept";

	open_host(&host);
	log = log_of(&host);
	CHECK(log.form == 0 && log.pid_max == 4194304 && log.model == 1 && log.position == 0 && log.calls == 0 && log.begun == 0 && log.lost == 0);
	refuses(&host, 1, "open", PIDTAB_OTHER_SETTINGS, "");
	refuses(&host, 1, "pidtab-log 2 pid_max 301 model 1", PIDTAB_OTHER_SETTINGS, "");
	refuses(&host, 0, SETTINGS, PIDTAB_NOT_RISING, "");
	refuses(&host, 1, SETTINGS "\n", PIDTAB_NO_ENTRY, "");
	CHECK(apply(&host, 3, SETTINGS, &it) == PIDTAB_DONE && is_told(it, PIDTAB_ENTRY_NOTED, 0, 0, 0) && has_digest(&host, 3, AT_SETTINGS));
	CHECK(log_of(&host).begun == 1 && log_of(&host).form == 2 && log_of(&host).position == 3);
	CHECK(pidtab_replica_last(&host.replica, 4, &last) == PIDTAB_NO_SESSION && last == 7);
	CHECK(apply(&host, 4, "open", &it) == PIDTAB_DONE && is_told(it, PIDTAB_ENTRY_NOTED, 0, 0, 0));
	CHECK(pidtab_replica_last(&host.replica, 4, &last) == PIDTAB_DONE && last == 0);

	CHECK(apply(&host, 6, FIRST, &it) == PIDTAB_DONE && is_told(it, PIDTAB_ENTRY_MADE, 4, 1, 17));
	CHECK(has_answers(&host, "child 2 root 2\n2\n") && has_digest(&host, 6, AT_FIRST) && pidtab_count(&host.table, 0) == 2);
	CHECK(pidtab_replica_answers(&host.replica, room, 4, &size) == PIDTAB_NO_ROOM && size == 17 && memcmp(room, "kept", 4) == 0);
	CHECK(pidtab_replica_last(&host.replica, 4, &last) == PIDTAB_DONE && last == 1);
	refuses(&host, 7, "calls 4 2 1 6 25c2fe3e85470d47\nfork 1", PIDTAB_DIVERGED, "child 2 root 2\n2\n");
	refuses(&host, 7, "calls 4 2 1 5 " AT_FIRST "\nfork 1", PIDTAB_MISSING, "child 2 root 2\n2\n");
	CHECK(apply(&host, 7, FIRST, &it) == PIDTAB_DONE && is_told(it, PIDTAB_ENTRY_REPEATED, 4, 1, 0) && has_answers(&host, ""));
	CHECK(apply(&host, 8, "calls 4 3 1 6 " AT_FIRST "\nfork 1", &it) == PIDTAB_DONE && is_told(it, PIDTAB_ENTRY_GAP, 4, 3, 0));
	CHECK(apply(&host, 9, "calls 5 1 1 6 " AT_FIRST "\nfork 1", &it) == PIDTAB_DONE && is_told(it, PIDTAB_ENTRY_GONE, 5, 1, 0));
	CHECK(has_digest(&host, 9, AT_FIRST) && pidtab_count(&host.table, 0) == 2 && log_of(&host).calls == 2);

	CHECK(apply(&host, 10, SECOND, &it) == PIDTAB_DONE && is_told(it, PIDTAB_ENTRY_MADE, 4, 2, 28));
	CHECK(has_answers(&host, "bad line\nok\nreaped 2 exit 0\n") && has_digest(&host, 10, AT_SECOND) && has_digest(&host, 6, AT_FIRST));
	CHECK(log_of(&host).calls == 5 && log_of(&host).position == 10 && !has_digest(&host, 5, ""));
	refuses(&host, 10, "end 4", PIDTAB_NOT_RISING, "bad line\nok\nreaped 2 exit 0\n");
	CHECK(apply(&host, 11, "end 4", &it) == PIDTAB_DONE && is_told(it, PIDTAB_ENTRY_NOTED, 0, 0, 0));
	CHECK(pidtab_replica_last(&host.replica, 4, &last) == PIDTAB_NO_SESSION);
	CHECK(apply(&host, UINT64_MAX, "snap", &it) == PIDTAB_DONE);
	refuses(&host, UINT64_MAX, "open", PIDTAB_NOT_RISING, "");
	close_host(&host);
	CHECK(strcmp(pidtab_replica_text(PIDTAB_DIVERGED), "another host has answered the same calls otherwise") == 0);
	CHECK(strcmp(pidtab_replica_text(PIDTAB_CLOSED), "the table is not open") == 0);
}

/* A log of the first form has no snapshots. */
static void first_form_goes_on(void)
{
	struct host host;
	struct pidtab_applied it;

	open_host(&host);
	CHECK(apply(&host, 1, "pidtab-log 1 pid_max 4194304 model 1", &it) == PIDTAB_DONE && log_of(&host).form == 1);
	refuses(&host, 2, "snap", PIDTAB_OTHER_SETTINGS, "");
	CHECK(apply(&host, 2, "pidtab-log 2 pid_max 301 model 1", &it) == PIDTAB_DONE && log_of(&host).form == 1);
	close_host(&host);
}

/* The head of a snapshot after these entries, as docs/CLUSTER.md and man/pidtab-keep.1 have it: the session that was used the longest ago is first. */
#define AT_HEAD "a23d48e1e3a92dc8e0234cfb7da8e71fc70e05f025259e61ac3f8f74816448bc"
#define HEAD "pidtab-snapshot 2 pid_max 4194304 model 1 position 9 digest 15c2fe3e85470d4756d9d4de58a4a1712c47556d65f8e516cc095f5db632dfdc calls 2 sessions 2\n5 0\n4 1\n"

/* Text in a room of its own, so that a read after it is found. */
static uint32_t reads(struct host *host, const char *text, size_t *used)
{
	size_t length = strlen(text);
	char *room = malloc(length ? length : 1);
	uint32_t status;

	memcpy(room, text, length);
	status = pidtab_replica_read(&host->replica, room, length, used);
	free(room);
	return status;
}

static void snapshot_is_read_again(void)
{
	struct host host, late;
	struct pidtab_applied it;
	uint64_t last = 7;
	size_t size = 7, used = 7;
	char room[512];

	open_host(&host);
	CHECK(pidtab_replica_write(&host.replica, room, sizeof room, &size) == PIDTAB_OTHER_SETTINGS && size == 7);
	CHECK(apply(&host, 3, SETTINGS, &it) == PIDTAB_DONE && apply(&host, 4, "open", &it) == PIDTAB_DONE && apply(&host, 5, "open", &it) == PIDTAB_DONE);
	CHECK(apply(&host, 6, FIRST, &it) == PIDTAB_DONE && apply(&host, 9, "snap", &it) == PIDTAB_DONE);
	memset(room, 'x', sizeof room);
	CHECK(pidtab_replica_write(&host.replica, room, 3, &size) == PIDTAB_NO_ROOM && size == strlen(HEAD) && room[0] == 'x');
	CHECK(pidtab_replica_write(&host.replica, room, sizeof room, &size) == PIDTAB_DONE && memcmp(room, HEAD, size) == 0 && room[size] == 'x');

	open_host(&late);
	CHECK(reads(&late, HEAD "pidtab table 1", &used) == PIDTAB_DONE && used == strlen(HEAD));
	CHECK(log_of(&late).position == 9 && log_of(&late).calls == 2 && log_of(&late).begun == 1 && log_of(&late).form == 2);
	CHECK(has_digest(&late, 9, AT_FIRST) && !has_digest(&late, 6, "") && has_answers(&late, ""));
	CHECK(pidtab_replica_last(&late.replica, 4, &last) == PIDTAB_DONE && last == 1);
	CHECK(pidtab_replica_last(&late.replica, 5, &last) == PIDTAB_DONE && last == 0);
	CHECK(apply(&late, 10, "calls 4 1 1 9 " AT_FIRST "\nfork 1", &it) == PIDTAB_DONE && is_told(it, PIDTAB_ENTRY_REPEATED, 4, 1, 0));
	CHECK(apply(&late, 9, "open", &it) == PIDTAB_NOT_RISING);

	/* What is no head, and that of another log, leaves all as it was. */
	static const char *const none[] = {
		"", "pidtab-snapshot", "pidtab-snapshot 2 pid_max 4194304 model 1 position 9 digest 00 calls 2 sessions 0\n",
		"pidtab-snapshot 2 pid_max 4194304 model 1 position 09 digest " AT_HEAD " calls 2 sessions 0\n",
		"pidtab-snapshot 2 pid_max 4194304 model 1 position 18446744073709551616 digest " AT_HEAD " calls 2 sessions 0\n",
		"pidtab-snapshot 2 pid_max 4194304 model 1 position 9 digest " AT_HEAD " calls 2 sessions 1\n",
		"pidtab-snapshot 2 pid_max 4194304 model 1 position 9 digest " AT_HEAD " calls 2 sessions 1\n4 1",
		"pidtab-snapshot 2 pid_max 4194304 model 1 position 9 digest " AT_HEAD " calls 2 sessions 2\n4 1\n4 2\n",
		"pidtab-snapshot 2 pid_max 4194304 model 1 position 9 digest " AT_HEAD " calls 2 sessions 4097\n",
	};
	for (size_t i = 0; i < sizeof none / sizeof none[0]; i++)
		CHECK(reads(&late, none[i], &used) == PIDTAB_BAD_TEXT && used == strlen(HEAD) && log_of(&late).position == 10);
	CHECK(reads(&late, "pidtab-snapshot 2 pid_max 301 model 1 position 9 digest " AT_HEAD " calls 2 sessions 0\n", &used) == PIDTAB_OTHER_SETTINGS);
	CHECK(reads(&late, "pidtab-snapshot 3 pid_max 4194304 model 1 position 9 digest " AT_HEAD " calls 2 sessions 0\n", &used) == PIDTAB_OTHER_SETTINGS);
	CHECK(log_of(&late).position == 10 && used == strlen(HEAD));
	close_host(&late);
	CHECK(reads(&late, HEAD, &used) == PIDTAB_CLOSED && pidtab_replica_write(&late.replica, room, 0, &size) == PIDTAB_CLOSED);

	/* Want of memory at each allocation of both in turn. */
	for (int at = 1;; at++) {
		refuse(at);
		if (pidtab_replica_write(&host.replica, room, sizeof room, &size) == PIDTAB_DONE)
			break;
		CHECK(refuse_at == 0);
	}
	for (int at = 1;; at++) {
		refuse(at);
		uint32_t status = reads(&host, HEAD, &used);
		if (status == PIDTAB_DONE)
			break;
		CHECK(status == PIDTAB_NO_MEMORY && refuse_at == 0 && log_of(&host).position == 9 && has_digest(&host, 6, AT_FIRST));
	}
	refuse(0);
	close_host(&host);
}

static const char *const ENTRIES[] = { SETTINGS, "open", FIRST, SECOND, "end 4" };
static const uint64_t POSITIONS[] = { 3, 4, 6, 10, 11 };
#define MANY 5

/* The log is given to a host whose heap refuses one allocation: where that is amid an entry, the host is lost for good, and else the entry is
 * given again. Whether the heap was asked so often. */
static bool want_of_memory(int at)
{
	struct host host;
	struct pidtab_applied it;
	bool lost = false;

	open_host(&host);
	refuse(at);
	for (int i = 0; i < MANY && !lost; i++) {
		uint32_t status = apply(&host, POSITIONS[i], ENTRIES[i], &it);

		if (status == PIDTAB_NO_MEMORY)
			status = apply(&host, POSITIONS[i], ENTRIES[i], &it);
		lost = status == PIDTAB_NOT_RECOVERABLE;
		CHECK(lost || status == PIDTAB_DONE);
	}
	bool was_asked = refuse_at == 0;
	refuse(0);
	CHECK(log_of(&host).lost == lost);
	if (lost)
		CHECK(apply(&host, UINT64_MAX, "snap", &it) == PIDTAB_NOT_RECOVERABLE && is_told(it, 77, 77, 77, 77));
	else
		CHECK(has_digest(&host, 11, AT_SECOND) && pidtab_count(&host.table, 0) == 1);
	CHECK(!lost || was_asked);
	close_host(&host);
	return was_asked;
}

/* No replica is there that was not opened. */
static void opening_finds_no_memory(void)
{
	struct pidtab_replica replica = PIDTAB_REPLICA_INIT;
	int at = 1;

	for (;; at++) {
		refuse(at);
		uint32_t status = pidtab_replica_open(&replica, 4194304, 1);
		if (status == PIDTAB_DONE)
			break;
		CHECK(status == PIDTAB_NO_MEMORY && replica.at == NULL && !replica.is_open && refuse_at == 0);
	}
	refuse(0);
	CHECK(at > 1 && pidtab_replica_close(&replica) == PIDTAB_DONE);
}

int main(void)
{
	int at = 1;

	each_is_closed_or_busy();
	log_is_followed();
	first_form_goes_on();
	snapshot_is_read_again();
	opening_finds_no_memory();
	while (want_of_memory(at))
		at++;
	CHECK(at > 4);
	printf("a log is followed, by a heap that refuses each of %d allocations\n", at - 1);
	return 0;
}
