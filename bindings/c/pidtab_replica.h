/* pidtab_replica.h - one table on many hosts: what the entries of a log make of it.
 *
 * docs/CLUSTER.md has the log. Each host has a replica with a table beside it, and gives both the entries of the log in their order. So all
 * hosts have one table, and have given the same answers. A host puts entries into the log, reads them, and hands them on; which log that
 * is, is its own affair. What each function does is proved (crates/replica, crates/pidtab_c/src/replicas.rt), except for the marks around it,
 * which guard_replica.c has.
 *
 * The rules of pidtab.h hold here too. The table of a replica changes by pidtab_replica_apply alone: a call that is made on it otherwise is
 * made on this host alone, and all other hosts will find that. The queries of pidtab.h may be asked of it.
 */
#ifndef PIDTAB_REPLICA_H
#define PIDTAB_REPLICA_H

#include "pidtab.h"

#ifdef __cplusplus
extern "C" {
#endif

/* What a host knows of a log, or nothing. */
struct pidtab_replica {
	void *at;
	bool is_open;
	uint8_t in_use; /* by queries, or by an entry that is applied */
};
#define PIDTAB_REPLICA_INIT { 0, false, 0 }

/* Written by tools/interface: statuses. */
/* What these functions answer besides. Any status but PIDTAB_DONE says that the replica and the table are as they were, but
 * PIDTAB_NOT_RECOVERABLE. */
enum pidtab_replica_status {
	PIDTAB_NO_SESSION = 3,       /* ESRCH: no open session has the number */
	PIDTAB_NO_ENTRY = 53,        /* EBADR: the bytes are no entry of a log */
	PIDTAB_MISSING = 67,         /* ENOLINK: the writer of the entry had an entry that the log has no more */
	PIDTAB_DIVERGED = 78,        /* EREMCHG: the writer of the entry has answered the same calls otherwise */
	PIDTAB_OTHER_SETTINGS = 92,  /* ENOPROTOOPT: the log has other settings than the replica, or another form */
	PIDTAB_NOT_RISING = 116,     /* ESTALE: the position is not behind that of the last entry */
	PIDTAB_NOT_RECOVERABLE = 131 /* ENOTRECOVERABLE: there was no memory amid an entry, so the table is not that of the log any more */
};

/* What a status says, as a sentence; also one of pidtab.h. */
static inline const char *pidtab_replica_text(uint32_t status)
{
	switch (status) {
	case PIDTAB_NO_SESSION:
		return "no open session has the number";
	case PIDTAB_NO_ENTRY:
		return "the bytes are no entry of a log";
	case PIDTAB_MISSING:
		return "the log has an entry no more";
	case PIDTAB_DIVERGED:
		return "another host has answered the same calls otherwise";
	case PIDTAB_OTHER_SETTINGS:
		return "the log has other settings";
	case PIDTAB_NOT_RISING:
		return "the position is not behind that of the last entry";
	case PIDTAB_NOT_RECOVERABLE:
		return "there was no memory amid an entry";
	}
	return pidtab_text(status);
}
/* The end of statuses. */

/* Written by tools/interface: bounds. */
#define PIDTAB_REPLICA_MODEL 1 /* the model by which lines are answered; it rises where a release answers one otherwise */
/* The end of bounds. */

/* Written by tools/interface: choices. */
enum pidtab_outcome {
	PIDTAB_ENTRY_NOTED = 0,    /* it has no calls */
	PIDTAB_ENTRY_MADE = 1,     /* its calls were made */
	PIDTAB_ENTRY_REPEATED = 2, /* they were made before: its session has had an entry with this number */
	PIDTAB_ENTRY_GONE = 3,     /* its session is not open, so they were not made */
	PIDTAB_ENTRY_GAP = 4       /* the session has had no entry with the number before, so they were not made */
};
/* The end of choices. */

/* What became of an entry. */
struct pidtab_applied {
	uint32_t outcome;  /* an enum pidtab_outcome */
	uint64_t session;  /* of calls, which its `open` opened: the position of that; else 0 */
	uint64_t sequence; /* the number of the calls in their session, from 1 on; else 0 */
	uint64_t size;     /* of the answers, as pidtab_replica_answers writes them */
};

/* What a replica knows of its log. */
struct pidtab_log {
	uint64_t form;     /* of the settings of the log, 1 or 2; 0 before the log has begun */
	uint64_t pid_max;
	uint64_t model;
	uint64_t position; /* of the last entry that was applied; 0 before the first */
	uint64_t calls;    /* how many lines were made, up to 2^64 - 1 */
	uint32_t begun;    /* 0; or 1 after the settings */
	uint32_t lost;     /* 0; or 1 where each entry is PIDTAB_NOT_RECOVERABLE */
};

/* A SHA-256. */
struct pidtab_digest {
	uint8_t bytes[32];
};

/* Opens a replica of a log that has not begun. Its log has these settings: pid_max is that of the table, and model is the rules by which the
 * hosts answer, which is PIDTAB_REPLICA_MODEL. DONE; BUSY where it is open already; NO_MEMORY. Each of the functions below may be BUSY too. */
uint32_t pidtab_replica_open(struct pidtab_replica *replica, uint64_t pid_max, uint64_t model);

/* Frees the replica, and leaves the table. One that is not open stays so. DONE; one that is BUSY is not closed. */
uint32_t pidtab_replica_close(struct pidtab_replica *replica);

/* Applies the next entry of the log to the replica and its table, which keeps no history. position is that of the entry in the log: it rises from
 * entry to entry. The calls of an entry are made if its session is open and its number is one more than that of the session's last entry that was
 * made. A line that is none of the script language, or has more than 200 bytes, is answered `bad line`, and a call is answered `spent` where the
 * table has no stamp left.
 *
 * DONE; CLOSED where the replica or the table is not open; OUT_OF_RANGE where the table keeps a history; NOT_RECOVERABLE; NOT_RISING; NO_ENTRY;
 * OTHER_SETTINGS; MISSING; DIVERGED; NO_MEMORY where there was none for a session. NOT_RECOVERABLE says that there was no memory amid the calls of
 * this entry or of one before: close both, open them anew, and give them the log from its beginning, or from a snapshot. Of each status but DONE,
 * applied is as it was. */
uint32_t pidtab_replica_apply(struct pidtab_replica *replica, struct pidtab *table, uint64_t position, const void *entry, size_t length, struct pidtab_applied *applied);

/* Writes the answers to the calls of the entry that was applied last, each with a newline after it; none where its calls were not made. DONE, CLOSED,
 * and NO_ROOM where they are longer than the room; then too size is their length. */
uint32_t pidtab_replica_answers(const struct pidtab_replica *replica, void *bytes, size_t room, size_t *size);

/* Tells what the replica knows of its log. DONE, CLOSED. */
uint32_t pidtab_replica_log(const struct pidtab_replica *replica, struct pidtab_log *log);

/* Tells the digest after the entry at the position. Those of the last 4,096 entries are kept. DONE; CLOSED; NOT_KEPT, and then digest is as it was. */
uint32_t pidtab_replica_digest(const struct pidtab_replica *replica, uint64_t position, struct pidtab_digest *digest);

/* Tells the number of the last entry of a session that was made; 0 where none was. DONE; CLOSED; NO_SESSION, and then sequence is as it was. */
uint32_t pidtab_replica_last(const struct pidtab_replica *replica, uint64_t session, uint64_t *sequence);

/* Writes the head of a snapshot: the settings, the position, the digest, the number of calls, and the sessions. The whole snapshot is this and after it
 * what pidtab_dump writes of the table. DONE; CLOSED; OTHER_SETTINGS where the log has not begun; NO_MEMORY; NO_ROOM where it is longer than the room,
 * and then too size is its length. */
uint32_t pidtab_replica_write(const struct pidtab_replica *replica, void *bytes, size_t room, size_t *size);

/* Gives the replica what the head of a snapshot says, in the place of all that it knows. used is the length of the head: pidtab_load makes the table of
 * the bytes after it. DONE; CLOSED; BAD_TEXT where the bytes begin with no such head; OTHER_SETTINGS; NO_MEMORY. Of each status but DONE, used is as it
 * was. */
uint32_t pidtab_replica_read(struct pidtab_replica *replica, const void *text, size_t length, size_t *used);

#ifdef __cplusplus
}
#endif

#endif
