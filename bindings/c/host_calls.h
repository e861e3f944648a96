/* What a host does with the calls that are submitted to it: the machine of crates/host_calls, which is proved there. docs/CLUSTER.md has the states of
 * a call. The machine has no sockets, clocks and threads, and takes no memory: the caller owns a struct host_calls, and a struct host_call for each call,
 * and these functions alone change them. One thread at a time calls them for one host. Of a call that is over its ticket and any of the last four states
 * are enough, so its struct may go: one for all of these is brought in its place, with the ticket that is asked for. */
#ifndef HOST_CALLS_H
#define HOST_CALLS_H

#include <stdbool.h>
#include <stdint.h>

#ifdef __cplusplus
extern "C" {
#endif

/* Where a call is. From the last four it never goes on. */
enum host_call_state {
	HOST_CALL_QUEUED = 0,    /* it waits for its turn, and no entry has it */
	HOST_CALL_ENTERED = 1,   /* it is in the entry with its session and its number, which is being made up, or was put */
	HOST_CALL_ANSWERED = 2,  /* the log has made it there, and it has the log's answer */
	HOST_CALL_NOT_KNOWN = 3, /* nobody knows whether the log has made it, or will */
	HOST_CALL_NOT_MADE = 4,  /* nobody waits for it any more, and it is never made */
	HOST_CALL_CANCELLED = 5  /* it was cancelled, and is never made */
};

/* A call: lines that go into one entry. */
struct host_call {
	uint64_t ticket;   /* so many calls were submitted to its host before it */
	uint64_t lines;
	uint64_t size;     /* bytes in an entry */
	uint64_t deadline; /* by the clock of the caller */
	uint64_t session;  /* of the entry that has it */
	uint64_t sequence; /* the number of that entry */
	uint64_t place;    /* so many lines stand before it there */
	uint32_t state;    /* an enum host_call_state */
};

/* The calls of one host. */
struct host_calls {
	uint64_t submitted;     /* so many calls */
	uint64_t taken;         /* those before this one have had their turn */
	uint64_t told;          /* those before this one are over */
	uint64_t session;       /* the one that is open, or 0 */
	uint64_t sequence;      /* the number of the entry that was begun last */
	uint64_t made;          /* the number of the one that the log has made last, as far as it was read */
	uint64_t lines, size;   /* of the entry that is made up */
	uint64_t told_session, told_sequence, told_to;
	uint32_t telling;       /* 0: nothing is told */
	bool is_filling, is_full, is_putting, is_stopped;
};

/* What is to be put next. */
enum host_put {
	HOST_PUT_REST = 0, /* nothing */
	HOST_PUT_OPEN = 1, /* the entry that opens a session; then host_calls_opened */
	HOST_PUT_TAKE = 2, /* the call with the ticket `first` has its turn: host_calls_take */
	HOST_PUT_SEAL = 3, /* the entry that is made up has all that it will have: host_calls_seal */
	HOST_PUT_ENTRY = 4 /* the entry that was sealed last, with the session `first` and the number `second`: until host_calls_acknowledge */
};

struct host_put_step {
	uint32_t kind; /* an enum host_put */
	uint64_t first, second;
};

/* What became of a call that had its turn. */
enum host_taken {
	HOST_TAKEN_REFUSED = 0, /* it is not its turn */
	HOST_TAKEN_PASSES = 1,  /* it was over, and no entry has it */
	HOST_TAKEN_BEGINS = 2,  /* it begins a new entry */
	HOST_TAKEN_JOINS = 3,   /* it is in the entry that is made up, after the others */
	HOST_TAKEN_FILLS = 4    /* it does not fit in: the entry is sealed next */
};

/* What the log makes of an entry of calls. */
enum host_outcome { HOST_OUTCOME_MADE = 0, HOST_OUTCOME_REPEATED = 1, HOST_OUTCOME_GONE = 2, HOST_OUTCOME_GAP = 3 };

/* What follows from what was read. */
enum host_reading {
	HOST_READING_BUSY = 0,    /* nothing was read: calls are to be told first */
	HOST_READING_IGNORES = 1, /* nothing */
	HOST_READING_TELLS = 2,   /* calls are to be told */
	HOST_READING_RENEWS = 3,  /* the session has ended: what was not made in it is put in a new one */
	HOST_READING_MISSES = 4   /* the log lacks an entry of this session, or has one that this host has not put */
};

/* What a call is told. */
enum host_told {
	HOST_TOLD_REFUSED = 0, /* it is not its turn */
	HOST_TOLD_PASSES = 1,  /* it was over before */
	HOST_TOLD_ANSWERS = 2, /* the answers of the entry at its place */
	HOST_TOLD_LOSES = 3,   /* nobody knows whether it was made */
	HOST_TOLD_DROPS = 4,   /* it was not made */
	HOST_TOLD_ENDS = 5     /* nothing: it is not in the entry, and nothing more is told */
};

/* A host without calls. */
void host_calls_begin(struct host_calls *host);

/* Has a call made, of so many lines, at least one, and so many bytes. False once the host has stopped. */
bool host_calls_submit(struct host_calls *host, struct host_call *call, uint64_t lines, uint64_t size, uint64_t deadline);

/* What is to be put next. From the first host_calls_take of an entry up to its host_calls_seal the caller keeps its lock. */
void host_calls_next_put(const struct host_calls *host, struct host_put_step *step);

/* The log has told the position of the entry that opens a session. */
bool host_calls_opened(struct host_calls *host, uint64_t session);

/* Gives the call that has its turn to the entry that is made up: an enum host_taken. The entry has the lines of those that begin it or join. */
uint32_t host_calls_take(struct host_calls *host, struct host_call *call);

/* The entry is put from now on, always the same. */
bool host_calls_seal(struct host_calls *host);

/* The log has answered that it has the entry. */
bool host_calls_acknowledge(struct host_calls *host, uint64_t session, uint64_t sequence);

/* Whether the call with the ticket `told` is to be told. After each host_calls_read, host_calls_load and host_calls_stop: as long as this is so,
 * host_calls_tell. */
bool host_calls_is_telling(const struct host_calls *host);

/* An entry of calls was read, of which the log has made this: an enum host_reading. */
uint32_t host_calls_read(struct host_calls *host, uint32_t outcome, uint64_t session, uint64_t sequence);

/* A snapshot was loaded of all up to the position, in which the session of this host is open with this last number, or is not open: an enum host_reading. */
uint32_t host_calls_load(struct host_calls *host, uint64_t position, bool is_open, uint64_t last);

/* Tells the call with the ticket `told`: an enum host_told. */
uint32_t host_calls_tell(struct host_calls *host, struct host_call *call);

/* Nothing is put any more, and each call that is not over is to be told. */
void host_calls_stop(struct host_calls *host);

/* Cancels a call, if no entry has it. */
bool host_calls_cancel(struct host_call *call);

/* Nobody waits for the call any more: it is not made, or nobody knows. */
void host_calls_give_up(struct host_call *call);

/* Gives it up if the time is that of its deadline or later. */
bool host_calls_expire(struct host_call *call, uint64_t time);

#ifdef __cplusplus
}
#endif

#endif
