/* pidtab.h - Linux process identifiers as one table, in this process.
 *
 * What each function does to a table is proved (crates/pidtab_c). Around each proved function stand a few lines of C, which mark the table or take its
 * lock, and are only tested: guard.c, settings.c, follow.c and threads.c of bindings/c. This header is written to fit, in part by tools/interface;
 * bindings/c/test.c and test_guard compare it.
 *
 * A function that takes a `const` table is a query: it changes nothing, and any number of threads may be in queries of one table at once.
 * Each other function works alone: while one does, each that another thread calls is PIDTAB_BUSY, and does nothing, and so is it where it
 * finds queries at work. Threads that share a lock for readers and writers never see it, and a table that is opened with `threads` has such a
 * lock: there a function waits. Two tables share nothing.
 *
 * Nobody checks that a caller keeps these rules:
 *
 * - A struct pidtab begins as PIDTAB_INIT, or as zeroes. While it is open it is never copied: a copy is a second owner,
 *   and closing both frees twice. Its fields are not read or written.
 * - No pointer is null, not even to 0 bytes, and no two of those passed overlap.
 * - malloc, realloc and free are one allocator's. No function is called from a signal handler, nor in the forked child of a
 *   process with threads, and no thread is cancelled in one.
 */
#ifndef PIDTAB_H
#define PIDTAB_H

#include <stdbool.h>
#include <stddef.h>
#include <stdint.h>

#ifdef __cplusplus
extern "C" {
#endif

/* A table, or none. */
struct pidtab {
	void *at;
	bool is_open;
	uint8_t in_use; /* by queries, or by a call */
	uint8_t way;    /* of its calls: with neither a bound nor threads, with a bound, or with threads */
	uint8_t workers;
	uint8_t seated; /* so many of them have a seat */
	uint64_t keep;  /* at most so many entries are kept; 0: any number */
	void *threads;  /* its lock, if it has one */
};
#define PIDTAB_INIT { 0, false, 0, 0, 0, 0, 0, 0 }

/* What a table is opened with. A field that is 0 is what it says. */
struct pidtab_settings {
	uint32_t pid_max;     /* 301 to 4194304: each number is below it; 0: 32768 */
	uint32_t workers;     /* 1 to 16 count their calls apart, and 1 where no history is kept; 0: 1 */
	uint64_t first_stamp; /* of the first call, at least 1; 0: 1 */
	uint64_t keep;        /* 0: no history; PIDTAB_KEEP_ALL: all of it; else at most so many entries */
	bool threads;         /* any number of threads use the table at once: one waits for another, and no function is PIDTAB_BUSY */
};
#define PIDTAB_KEEP_ALL UINT64_MAX

/* Written by tools/interface: statuses. */
/* What a function answers: 0, or a number of Linux's errno. Any status but PIDTAB_DONE says that the table is as it was, but of
 * pidtab_replay, and of pidtab_calls as it says. A call that the table refuses, as ESRCH no-caller, is PIDTAB_DONE: its answer or
 * reply says so. Those whose name ends with _of have no reply, and may answer the errno of the refusal: the query was made, and
 * has used a stamp. */
enum pidtab_status {
	PIDTAB_DONE = 0,
	PIDTAB_CLOSED = 9,        /* EBADF: there is no open table */
	PIDTAB_NO_MEMORY = 12,    /* ENOMEM: there is no memory */
	PIDTAB_BUSY = 16,         /* EBUSY: another thread's call works on the table; or an open finds it open */
	PIDTAB_OUT_OF_RANGE = 22, /* EINVAL: pid_max, or what a call takes */
	PIDTAB_NO_ROOM = 34,      /* ERANGE: size says what is needed */
	PIDTAB_EMPTY_LINE = 61,   /* ENODATA: a line of 0 bytes has no answer */
	PIDTAB_BAD_LINE = 71,     /* EPROTO: the line is none of the script language */
	PIDTAB_SPENT = 75,        /* EOVERFLOW: after 2^64 - 2 calls */
	PIDTAB_DIFFERS = 74,      /* EBADMSG: a reply is not the given one */
	PIDTAB_BAD_TEXT = 117,    /* EUCLEAN: the text is that of no table; the fault says why */
	PIDTAB_NOT_KEPT = 2,      /* ENOENT: the entry was cut away, or is not reached yet */
	PIDTAB_AGAIN = 11,        /* EAGAIN: another number of calls was recorded by now */
	PIDTAB_NO_HISTORY = 95,   /* EOPNOTSUPP: the table keeps no history */
	PIDTAB_NO_THREADS = 37    /* ENOLCK: the table was opened without threads */
};

/* What a status says, as a sentence. */
static inline const char *pidtab_text(uint32_t status)
{
	switch (status) {
	case PIDTAB_DONE:
		return "done";
	case PIDTAB_CLOSED:
		return "the table is not open";
	case PIDTAB_NO_MEMORY:
		return "there is no memory";
	case PIDTAB_BUSY:
		return "the table is open already, or in use by another thread";
	case PIDTAB_OUT_OF_RANGE:
		return "pid_max, or what a call takes, is out of range";
	case PIDTAB_NO_ROOM:
		return "there is not enough room";
	case PIDTAB_EMPTY_LINE:
		return "an empty line has no answer";
	case PIDTAB_BAD_LINE:
		return "the line is none of the script language";
	case PIDTAB_SPENT:
		return "the table has made 2^64 - 2 calls, and makes no more";
	case PIDTAB_DIFFERS:
		return "a reply is not the given one";
	case PIDTAB_BAD_TEXT:
		return "the text is that of no table";
	case PIDTAB_NOT_KEPT:
		return "no entry with the ordinal is kept";
	case PIDTAB_AGAIN:
		return "another number of calls was recorded by now";
	case PIDTAB_NO_HISTORY:
		return "this table keeps no history: open it with keep";
	case PIDTAB_NO_THREADS:
		return "this table is one thread's: open it with threads";
	}
	return "no such status";
}
/* The end of statuses. */

/* Written by tools/interface: bounds. */
#define PIDTAB_VERSION 1          /* the number of this interface */
#define PIDTAB_LONGEST_ANSWER 362 /* no answer to a line is longer */
#define PIDTAB_LONGEST_CALL 42    /* no line of a call is longer */
#define PIDTAB_KILLED 256         /* the status of a child that the fall of its namespace killed */
#define PIDTAB_LEVELS_MAX 33      /* no task has more numbers */
#define PIDTAB_MOST_WORKERS 16    /* no record has more workers */
/* The end of bounds. */

/* The number of the interface that the library has, which is PIDTAB_VERSION of its header. */
uint32_t pidtab_version(void);

/* Opens a table with process 1 alone, for one thread and without a history; pid_max is 301 to 4194304. DONE, BUSY, OUT_OF_RANGE, NO_MEMORY. Each of
 * the functions below may be BUSY too, where the table has no threads. */
uint32_t pidtab_open(struct pidtab *table, uint32_t pid_max);

/* Opens a table by its settings. DONE; BUSY where it is open already; OUT_OF_RANGE; NO_MEMORY. */
uint32_t pidtab_open_with(struct pidtab *table, const struct pidtab_settings *settings);

/* Frees the table. A table that is not open stays so. DONE; one that is BUSY is not closed. Where the table has threads, no other is in a function of
 * it, or calls one afterwards: pidtab_end and pidtab_saved_end end what waits before. */
uint32_t pidtab_close(struct pidtab *table);

/* Makes the call on a line of the script language (docs/SCRIPT.md), which has no newline. The answer has size bytes, no newline
 * and no zero byte after it; its room is at least PIDTAB_LONGEST_ANSWER. DONE, CLOSED, EMPTY_LINE, BAD_LINE, NO_ROOM, SPENT,
 * NO_MEMORY; without a history that comes for fork and mk alone. */
uint32_t pidtab_line(struct pidtab *table, const void *line, size_t length, void *answer, size_t room, size_t *size);

/* Writes the list of the table, as `pidtab list` does. DONE, CLOSED, NO_MEMORY, and NO_ROOM where it is longer than the room; then
 * too size is its length. */
uint32_t pidtab_list(const struct pidtab *table, void *bytes, size_t room, size_t *size);

/* Writes the text of the table with the stamp of its next call (docs/SCRIPT.md): all that there is to know of it. One table has one
 * text, and its SHA-256 is in it. DONE, CLOSED, NO_MEMORY, and NO_ROOM as pidtab_list has it. */
uint32_t pidtab_dump(const struct pidtab *table, void *bytes, size_t room, size_t *size);

/* Written by tools/interface: faults. */
/* Why a text is that of no table. */
enum pidtab_fault_kind {
	PIDTAB_FAULT_BAD_LINE = 1,          /* the line is none of those that the form has there */
	PIDTAB_FAULT_WRONG_DIGEST = 2,      /* the last line is not that of the text before it */
	PIDTAB_FAULT_BAD_SETTINGS = 3,      /* pid_max is out of range, or some id is not below the stamp */
	PIDTAB_FAULT_UNSORTED = 4,          /* the number or id is not above that of the line before */
	PIDTAB_FAULT_UNKNOWN_PARENT = 5,    /* no line has the task's parent, or the namespace around the namespace */
	PIDTAB_FAULT_UNKNOWN_NAMESPACE = 6, /* no line has the namespace */
	PIDTAB_FAULT_UNKNOWN_GROUP = 7,     /* no line has the control group */
	PIDTAB_FAULT_BAD_NAME = 8,          /* a name has too few numbers, too many, or one out of range */
	PIDTAB_FAULT_TAKEN_NUMBER = 9,      /* two names have one number */
	PIDTAB_FAULT_NO_INIT = 10,          /* no task is the init of a namespace that has not fallen */
	PIDTAB_FAULT_NO_NUMBER = 11,        /* comes no more */
	PIDTAB_FAULT_IMPOSSIBLE = 12        /* in no sound state is this line beside the others */
};

/* What a kind of fault says of its line, in the words of docs/SCRIPT.md. */
static inline const char *pidtab_fault_text(uint32_t kind)
{
	static const char *const words[] = {
		"no fault",
		"bad line", "wrong digest", "bad settings", "out of order", "unknown parent", "unknown namespace",
		"unknown control group", "bad name", "number in use twice", "namespace without an init",
		"no number left", "impossible line"
	};
	return words[kind < sizeof words / sizeof words[0] ? kind : 0];
}
/* The end of faults. */

/* The first fault of a text that is met. */
struct pidtab_fault {
	uint64_t line; /* from 1 on */
	uint32_t kind; /* enum pidtab_fault_kind */
};

/* Opens a table as a text of pidtab_dump says: each later call has the answer that it would have had there. Any bytes may be given. DONE;
 * BUSY where it is open already; then BAD_TEXT and the fault, which no text of a table has; NO_MEMORY. The fault is zeroes except for BAD_TEXT. */
uint32_t pidtab_load(struct pidtab *table, const void *text, size_t length, struct pidtab_fault *fault);

/* The same by settings, of which pid_max and first_stamp are not looked at. A history begins with the next call: counts has how many calls of each of
 * its workers were recorded before, and their sum is the ordinal of that call. Without a history counts is not looked at. No worker has a seat. DONE;
 * BUSY; OUT_OF_RANGE for the workers; then BAD_TEXT and a fault of kind 1 or 2; then OUT_OF_RANGE where the counts add up to the stamp or more; then
 * BAD_TEXT and another fault; NO_MEMORY. */
uint32_t pidtab_load_with(struct pidtab *table, const void *text, size_t length, const struct pidtab_settings *settings, const uint64_t *counts, struct pidtab_fault *fault);

/* Written by tools/interface: operations. */
/* A call as numbers. What an operation does not take is not looked at; pidtab_ask answers a query too. */
enum pidtab_operation {
	PIDTAB_FORK = 0,      /* caller; choice 1: into a new namespace */
	PIDTAB_GETPID = 1,    /* caller; a query */
	PIDTAB_NSPID = 2,     /* caller, number: of the task; a query */
	PIDTAB_EXEC = 3,      /* caller */
	PIDTAB_EXIT = 4,      /* caller, number: the status, 0 to 255 */
	PIDTAB_WAIT = 5,      /* caller, number, choice: enum pidtab_which */
	PIDTAB_GETPPID = 6,   /* caller; a query */
	PIDTAB_SETPGID = 7,   /* caller, pid, pgid */
	PIDTAB_SETSID = 8,    /* caller */
	PIDTAB_MK = 9,        /* id: of the parent */
	PIDTAB_RM = 10,       /* id */
	PIDTAB_LIMIT = 11,    /* id; choice 1: number is the limit, 0: no limit */
	PIDTAB_MOVE = 12,     /* caller: who is moved, id */
	PIDTAB_COUNT = 13,    /* id; a query */
	PIDTAB_GETPGID = 14,  /* caller, number: of the task, 0 for the caller; a query */
	PIDTAB_GETSID = 15,   /* caller, number: of the task, 0 for the caller; a query */
	PIDTAB_NEXT = 16,     /* caller, choice: enum pidtab_use, number: where to begin; a query */
	PIDTAB_JOIN = 17,     /* caller, number: of the task */
	PIDTAB_SUBREAPER = 18 /* caller; choice 1: on, 0: off */
};
/* The end of operations. */

/* Written by tools/interface: choices. */
enum pidtab_which {
	PIDTAB_ANY = 0,       /* any child */
	PIDTAB_CHILD = 1,     /* the child with the number */
	PIDTAB_OWN_GROUP = 2, /* the children in the caller's process group */
	PIDTAB_GROUP = 3      /* the children in the process group with the number */
};

enum pidtab_use {
	PIDTAB_TASKS = 0,   /* a task, live or ended */
	PIDTAB_GROUPS = 1,  /* a process group */
	PIDTAB_SESSIONS = 2 /* a session */
};

enum pidtab_whom {
	PIDTAB_CHILDREN = 0,          /* the children of the task with the number */
	PIDTAB_GROUP_MEMBERS = 1,     /* the members of the process group with the number */
	PIDTAB_SESSION_MEMBERS = 2,   /* the members of the session with the number */
	PIDTAB_NAMESPACE_MEMBERS = 3, /* the tasks of the namespace that the task with the number is in, those in namespaces inside it too */
	PIDTAB_NAMESPACE_OWN = 4      /* of these the tasks that are in no namespace inside it */
};

enum pidtab_tree {
	PIDTAB_SPACES = 0,  /* the namespaces that are directly in the one with the id */
	PIDTAB_CONTROLS = 1 /* the control groups that are directly in the one with the id */
};

enum pidtab_what {
	PIDTAB_TASK_ENDED = 0,   /* the task ended: value is its status, 0 to 255, or PIDTAB_KILLED where its namespace fell */
	PIDTAB_TASK_ADOPTED = 1, /* the task has another parent: value is the root number of that */
	PIDTAB_TASK_GONE = 2,    /* the task is there no more, as it was reaped or went with its namespace: value is 0 */
	PIDTAB_GROUP_GONE = 3,   /* the process group with the number has no member any more: value is 0 */
	PIDTAB_SESSION_GONE = 4, /* the session with the number has no member any more: value is 0 */
	PIDTAB_SPACE_FELL = 5,   /* the namespace whose id is value has fallen: its init has ended, and it takes no task any more; number is 0 */
	PIDTAB_SPACE_GONE = 6    /* the namespace whose id is value is there no more, as nothing has a number in it; number is 0 */
};
/* The end of choices. */

struct pidtab_call {
	uint32_t operation;
	uint32_t caller; /* a root number; all other numbers of processes are the caller's own */
	uint64_t id;
	uint32_t number;
	uint32_t choice;
	int32_t pid;
	int32_t pgid;
};

/* Written by tools/interface: kinds. */
/* A reply as numbers. What a kind does not tell is 0. */
enum pidtab_kind {
	PIDTAB_FORKED = 0,   /* first: the child's number to the caller, second: its root number */
	PIDTAB_OK = 1,       /* nothing */
	PIDTAB_NUMBER = 2,   /* first */
	PIDTAB_LEVELS = 3,   /* the first count of levels, outermost first */
	PIDTAB_REAPED = 4,   /* first: the child, second: its status, or PIDTAB_KILLED where its namespace fell */
	PIDTAB_NONE_YET = 5, /* nothing: children match, and none of them has ended */
	PIDTAB_COUNTED = 6,  /* first */
	PIDTAB_CONTROL = 7,  /* first: the id */
	PIDTAB_END = 8,      /* nothing: no number follows */
	PIDTAB_REFUSED = 9   /* error, refusal: its number, first: the id of what refused, if it has one */
};
/* The end of kinds. */

/* Written by tools/interface: refusals. */
/* Why the table refuses a call. The numbers stay as they are. */
enum pidtab_refusal {
	PIDTAB_NO_CALLER = 1,      /* ESRCH: no live task has the caller's root number */
	PIDTAB_NO_TASK = 2,        /* ESRCH: no task is there, or none that the call may be made on */
	PIDTAB_NO_CHILD = 3,       /* ECHILD: no child matches */
	PIDTAB_NO_NUMBER = 4,      /* EAGAIN: the namespace with the id has no free number */
	PIDTAB_PIDS_LIMIT = 5,     /* EAGAIN: the control group with the id has as many tasks as its limit allows */
	PIDTAB_SPACE_FALLEN = 6,   /* ENOMEM: the namespace for the caller's children has fallen */
	PIDTAB_TOO_DEEP = 7,       /* ENOSPC: a namespace below one of level 32, the deepest */
	PIDTAB_ELSEWHERE = 8,      /* EINVAL: a new namespace from a caller whose children go into another namespace */
	PIDTAB_BAD_GROUP = 9,      /* EINVAL: a negative process group */
	PIDTAB_OTHER_SESSION = 10, /* EPERM: a child in another session */
	PIDTAB_IS_LEADER = 11,     /* EPERM: a session leader, or a process group leader */
	PIDTAB_NO_GROUP = 12,      /* EPERM: no such process group in the caller's session */
	PIDTAB_EXECUTED = 13,      /* EACCES: a child that has executed */
	PIDTAB_ROOT_INIT = 14,     /* EBUSY: the exit of the root namespace's init */
	PIDTAB_NO_CONTROL = 15,    /* ENOENT: no control group has the id */
	PIDTAB_CONTROL_BUSY = 16,  /* EBUSY: a control group with live tasks or children */
	PIDTAB_ROOT_CONTROL = 17,  /* EINVAL: the root control group, which has no limit and stays */
	PIDTAB_BAD_LIMIT = 18,     /* EINVAL: a limit above 4194304 */
	PIDTAB_CONTROL_DEPTH = 19  /* EAGAIN: a control group below one of level 64, the deepest */
};

/* The word of a refusal in the answers of the script language, as no-caller. */
static inline const char *pidtab_word(uint32_t refusal)
{
	static const char *const words[] = {
		"no-such-refusal",
		"no-caller", "no-task", "no-child", "no-number", "pids-limit", "space-fallen", "too-deep",
		"elsewhere", "bad-group", "other-session", "is-leader", "no-group", "executed", "root-init",
		"no-control", "control-busy", "root-control", "bad-limit", "control-depth"
	};
	return words[refusal < sizeof words / sizeof words[0] ? refusal : 0];
}
/* The end of refusals. */

struct pidtab_reply {
	uint32_t kind;
	uint32_t error;
	uint32_t refusal;
	uint32_t count;
	uint64_t first;
	uint64_t second;
	uint32_t levels[PIDTAB_LEVELS_MAX];
};

/* Makes a call. DONE, CLOSED, OUT_OF_RANGE, SPENT, NO_MEMORY; without a history that comes for FORK and MK alone. */
uint32_t pidtab_call(struct pidtab *table, const struct pidtab_call *call, struct pidtab_reply *reply);

/* Queries that tell one number, made as pidtab_call makes them, for some half of its instructions, as no struct is filled. Each answers DONE, or why
 * there is no number: CLOSED; OUT_OF_RANGE for a kind that is no enum pidtab_use; SPENT; and none of these makes a call. Or the errno of the refusal,
 * which is ESRCH, and of a count ENOENT: that query was made, and has used a stamp. In all of them number is as it was. A next that finds none is DONE,
 * and 0. */
/* Written by tools/interface: numbers. */
uint32_t pidtab_getpid_of(struct pidtab *table, uint32_t caller, uint64_t *number);
uint32_t pidtab_getppid_of(struct pidtab *table, uint32_t caller, uint64_t *number);
uint32_t pidtab_getpgid_of(struct pidtab *table, uint32_t caller, uint32_t pid, uint64_t *number);
uint32_t pidtab_getsid_of(struct pidtab *table, uint32_t caller, uint32_t pid, uint64_t *number);
uint32_t pidtab_next_of(struct pidtab *table, uint32_t caller, uint32_t kind, uint32_t from, uint64_t *number);
uint32_t pidtab_count_of(struct pidtab *table, uint64_t id, uint64_t *number);
/* The end of numbers. */

/* A task as the caller's namespace sees it. The numbers of processes but root are those there, 0 where there is none. */
struct pidtab_task {
	uint32_t error;     /* 0; or ESRCH, and then all except error and refusal is 0 */
	uint32_t refusal;   /* 0, PIDTAB_NO_CALLER or PIDTAB_NO_TASK */
	uint32_t count;     /* of levels */
	uint32_t parent;
	uint32_t group;
	uint32_t session;
	uint32_t ended;     /* 0, or 1 for a zombie */
	uint32_t status;    /* a zombie's, 0 to 255 or PIDTAB_KILLED; else 0 */
	uint32_t executed;  /* 0 or 1 */
	uint32_t subreaper; /* 0 or 1 */
	uint64_t space;     /* the id of its own namespace */
	uint64_t control;   /* the id of its control group */
	uint32_t root;      /* its number in the root namespace, which names it in calls */
	uint32_t levels[PIDTAB_LEVELS_MAX]; /* its numbers from the caller's namespace inwards */
};

/* A namespace. Its id and its parent's are those of the list. */
struct pidtab_space {
	uint64_t id;
	uint64_t parent; /* the id of the namespace that it is in; 0 also of the root namespace, whose level is 0 */
	uint32_t level;  /* how many namespaces are around it: 0 for the root namespace, 32 for the deepest */
	uint32_t init;   /* the root number of its init, ended or not; 0 where that was reaped */
	uint32_t fallen; /* 0; or 1 where its init has ended: it takes no task any more, and is gone with the last number in it */
};

/* Questions. None is a call: it uses no stamp, is not recorded, and nothing changes. What the table refuses is PIDTAB_DONE: the answer says so. Of each other status, what
 * is told stays as it is.
 *
 * A list is told in pages: from `from` on, as many as there is room for; what is after stays. count, or a reply of the kind PIDTAB_COUNTED, says how many
 * there are from there on, or room + 1 where there are more. Then the next page begins at the last one + 1. A room of 0 tells whether there is any. */

/* Written by tools/interface: questions. */
/* Answers a query as its call would be answered, refusals too. Nothing changes, and it is not counted. It takes no memory. DONE; CLOSED; OUT_OF_RANGE
 * for a call that is no query. */
uint32_t pidtab_ask(const struct pidtab *table, const struct pidtab_call *call, struct pidtab_reply *reply);

/* Reads the task `number` of the caller's namespace, where 0 is the caller, and a zombie too, as getpgid finds it. It costs what a getpgid costs.
 * DONE; CLOSED. */
uint32_t pidtab_stat(const struct pidtab *table, uint32_t caller, uint32_t number, struct pidtab_task *task);

/* What whom says, an enum pidtab_whom.
 *
 * PIDTAB_CHILDREN: The children of the task `number`, where 0 is the caller, zombies too: their numbers in the caller's namespace, in rising order
 * and not below `from`. Who is not visible there is left out, and a number that is nobody's has none. It costs what is read of each of them.
 * PIDTAB_GROUP_MEMBERS: The members of the process group with the number `number`, where 0 is the caller's own, as PIDTAB_CHILDREN has those of a
 * task.
 * PIDTAB_SESSION_MEMBERS: The members of the session with the number `number`, where 0 is the caller's own, as PIDTAB_CHILDREN has those of a task.
 * PIDTAB_NAMESPACE_MEMBERS: The tasks of the namespace that the task `number` is in, where 0 is the caller, those in namespaces inside it too, as
 * PIDTAB_CHILDREN has those of a task. Of the caller's own namespace these are all that it sees, whom kill(2) of -1 reaches, and only what is told of
 * them is read.
 * PIDTAB_NAMESPACE_OWN: Of PIDTAB_NAMESPACE_MEMBERS those that are in no namespace inside it.
 *
 * It takes memory for a list. DONE; CLOSED; OUT_OF_RANGE for another whom; NO_MEMORY. */
uint32_t pidtab_page(const struct pidtab *table, uint32_t caller, uint32_t whom, uint32_t number, uint32_t from, uint32_t *numbers, size_t room, struct pidtab_reply *reply);

/* Reads the namespace `id`, where 0 is the root namespace. It takes no memory, and costs two searches and a few reads. DONE; CLOSED; OUT_OF_RANGE
 * where no namespace has the id, or it is gone. */
uint32_t pidtab_space(const struct pidtab *table, uint64_t id, struct pidtab_space *space);

/* What tree says, an enum pidtab_tree.
 *
 * PIDTAB_SPACES: The ids of the namespaces directly in the namespace `id`, where 0 is the root, in rising order and not below `from`. One that has
 * fallen is among them as long as pidtab_space reads it. It costs what is read of each of them.
 * PIDTAB_CONTROLS: The ids of the control groups directly in the control group `id`, where 0 is the root, as PIDTAB_SPACES has those of a namespace.
 *
 * It takes memory for a list. DONE; CLOSED; OUT_OF_RANGE for another tree, and where no namespace or no control group has the id, or it is gone;
 * NO_MEMORY. */
uint32_t pidtab_inside(const struct pidtab *table, uint32_t tree, uint64_t id, uint64_t from, uint64_t *ids, size_t room, uint64_t *count);

/* The live tasks directly in the control group with the id `control`, where 0 is the root, as PIDTAB_CHILDREN has those of a task: cgroup.procs, in
 * which no zombie appears. It takes memory for a list. DONE; CLOSED; NO_MEMORY. */
uint32_t pidtab_control_tasks(const struct pidtab *table, uint32_t caller, uint64_t control, uint32_t from, uint32_t *numbers, size_t room, struct pidtab_reply *reply);

/* The reply that the call would get now, refusals too: the numbers of a fork, and whom a wait would reap, as waitid(2) with WNOWAIT. Nothing changes,
 * and it is not counted. It takes no memory, and does not tell whether the call would find some. DONE; CLOSED; OUT_OF_RANGE for what is no call;
 * SPENT. */
uint32_t pidtab_would(const struct pidtab *table, const struct pidtab_call *call, struct pidtab_reply *reply);
/* The end of questions. */

/* Makes a fork if the child's number to the caller is child, and its root number root; else nothing changes. What pidtab_would has told is so made
 * as it was told, or not at all. DONE; CLOSED; OUT_OF_RANGE for a new_space that is neither 0 nor 1; SPENT; DIFFERS where the fork would get another
 * reply, a refusal too, which reply then is; NO_MEMORY. */
uint32_t pidtab_fork_at(struct pidtab *table, uint32_t caller, uint32_t new_space, uint32_t child, uint32_t root, struct pidtab_reply *reply);

/* What a call did to a task, or what is there no more after it. */
struct pidtab_effect {
	uint32_t what;   /* an enum pidtab_what */
	uint32_t number; /* the root number of the task, the process group or the session; 0 of a namespace */
	uint64_t value;  /* as what says: of a namespace its id */
};

/* Makes a call as pidtab_call does, and tells what it did besides: which tasks ended, have another parent, or are there no more; which process groups
 * and sessions have no member any more, where a zombie is one until it is reaped; and which namespaces have fallen, or are gone. So the exit of a
 * namespace's init tells whom the kernel would kill, and each other exit who takes its children. Of a call that does nothing of this count is 0.
 *
 * effects has first the tasks by root numbers in rising order, then the process groups, then the sessions, and then the namespaces by rising ids. Of one
 * task it has ended, adopted and gone in this order, and of one namespace fell and gone. What is after them stays, and count is how many there are.
 *
 * No effect is lost: the call is made only where there is room for all that it may have. It may touch the caller of an exit and its children, or all
 * in the namespace whose init the caller is; the child that a wait reaps; the target of a setpgid; and the caller of a setsid. The room is two for each
 * of them, one for each process group and each session that they are in, and two for each namespace but the root that the numbers of a task, of its group
 * or of its session are in. Four for each task of the table and two for each namespace always do. Where room is less it is NO_ROOM, and count is the
 * room that the call takes; a room of 0 so asks for it. After another call it may take more.
 *
 * DONE, CLOSED, OUT_OF_RANGE, SPENT, NO_ROOM, NO_MEMORY; without a history that comes for FORK, MK, EXIT, WAIT, SETPGID and SETSID alone. The list takes memory,
 * and has it before the call is made. Of each status but DONE, reply and effects are as they were, and count is so too except for NO_ROOM. */
uint32_t pidtab_call_told(struct pidtab *table, const struct pidtab_call *call, struct pidtab_reply *reply, struct pidtab_effect *effects, size_t room, uint64_t *count);

/* Writes the call as a line of the script language, without a newline and a zero byte: pidtab_line makes the same call of it. It needs
 * no table. DONE; OUT_OF_RANGE where the numbers say no call; NO_ROOM where the line is longer than the room, and then too size is its
 * length. */
uint32_t pidtab_call_line(const struct pidtab_call *call, void *line, size_t room, size_t *size);

/* Writes the reply as the answer of the script language, likewise: as pidtab_line answers. What its kind does not tell is not looked at.
 * DONE; OUT_OF_RANGE where the numbers are no reply; NO_ROOM where the answer is longer than the room, and then too size is its length. */
uint32_t pidtab_reply_line(const struct pidtab_reply *reply, void *answer, size_t room, size_t *size);

/* Each call as a function: a number, or minus an errno, which is the status or that of the refusal. What tells no number
 * is 0. pidtab_call tells a status from a refusal, and one refusal from another. What a line could not say is -EINVAL, and no call.
 *
 * A switch, as new_space, is 0 or 1; so is limited, which says whether there is a limit. pidtab_fork and pidtab_wait answer the child's
 * number to the caller; where root and status are not null, they have its root number, and its status, 0 to 255 or PIDTAB_KILLED. A wait
 * answers 0 where none of those that match has ended, and a next where no number follows. A mk whose id would be above INT64_MAX is
 * not made, and answers -PIDTAB_SPENT: such ids come only after a text with such a stamp was loaded. */

static inline int64_t pidtab_value(struct pidtab *table, const struct pidtab_call *call, struct pidtab_reply *reply)
{
	uint32_t status;
	if (call->operation == PIDTAB_MK && pidtab_would(table, call, reply) == PIDTAB_DONE && reply->kind == PIDTAB_CONTROL && reply->first > INT64_MAX)
		return -(int64_t)PIDTAB_SPENT;
	status = pidtab_call(table, call, reply);
	if (status != PIDTAB_DONE)
		return -(int64_t)status;
	if (reply->kind == PIDTAB_REFUSED)
		return -(int64_t)reply->error;
	return reply->kind == PIDTAB_LEVELS ? (int64_t)reply->count : (int64_t)reply->first;
}

/* Written by tools/interface: calls. */
/* fork(2), or clone(2) with CLONE_NEWPID: a child in the namespace for the caller's children, or in a new one. */
static inline int64_t pidtab_fork(struct pidtab *table, uint32_t caller, uint32_t new_space, uint32_t *root)
{
	struct pidtab_call call = { PIDTAB_FORK, caller, 0, 0, new_space, 0, 0 };
	struct pidtab_reply reply;
	int64_t told = pidtab_value(table, &call, &reply);
	if (told > 0 && root)
		*root = (uint32_t)reply.second;
	return told;
}

/* getpid(2): the caller's number in its own namespace. */
static inline int64_t pidtab_getpid(struct pidtab *table, uint32_t caller)
{
	uint64_t number = 0;
	uint32_t status = pidtab_getpid_of(table, caller, &number);
	return status == PIDTAB_DONE ? (int64_t)number : -(int64_t)status;
}

/* NSpid of proc(5): the numbers of the task number from the caller's namespace inwards, outermost first: 1 to 33 of them. */
static inline int64_t pidtab_nspid(struct pidtab *table, uint32_t caller, uint32_t number, uint32_t levels[PIDTAB_LEVELS_MAX])
{
	struct pidtab_call call = { PIDTAB_NSPID, caller, 0, number, 0, 0, 0 };
	struct pidtab_reply reply;
	int64_t told = pidtab_value(table, &call, &reply);
	for (int64_t i = 0; i < told; i++)
		levels[i] = reply.levels[i];
	return told;
}

/* execve(2): the caller executes a program. */
static inline int64_t pidtab_exec(struct pidtab *table, uint32_t caller)
{
	struct pidtab_call call = { PIDTAB_EXEC, caller, 0, 0, 0, 0, 0 };
	struct pidtab_reply reply;
	return pidtab_value(table, &call, &reply);
}

/* _exit(2): the caller ends, and its namespace falls if it is the init there; status is 0 to 255. */
static inline int64_t pidtab_exit(struct pidtab *table, uint32_t caller, uint32_t status)
{
	struct pidtab_call call = { PIDTAB_EXIT, caller, 0, status, 0, 0, 0 };
	struct pidtab_reply reply;
	return pidtab_value(table, &call, &reply);
}

/* waitpid(2) with WNOHANG: takes an ended child away; none where children match and none of them has ended. */
static inline int64_t pidtab_wait(struct pidtab *table, uint32_t caller, enum pidtab_which which, uint32_t number, uint32_t *status)
{
	struct pidtab_call call = { PIDTAB_WAIT, caller, 0, number, (uint32_t)which, 0, 0 };
	struct pidtab_reply reply;
	int64_t told = pidtab_value(table, &call, &reply);
	if (told > 0 && status)
		*status = (uint32_t)reply.second;
	return told;
}

/* getppid(2): the number of the caller's parent, 0 for one that it cannot see. */
static inline int64_t pidtab_getppid(struct pidtab *table, uint32_t caller)
{
	uint64_t number = 0;
	uint32_t status = pidtab_getppid_of(table, caller, &number);
	return status == PIDTAB_DONE ? (int64_t)number : -(int64_t)status;
}

/* setpgid(2): the task pid goes into the group pgid; 0 is the caller, and the task. */
static inline int64_t pidtab_setpgid(struct pidtab *table, uint32_t caller, int32_t pid, int32_t pgid)
{
	struct pidtab_call call = { PIDTAB_SETPGID, caller, 0, 0, 0, pid, pgid };
	struct pidtab_reply reply;
	return pidtab_value(table, &call, &reply);
}

/* setsid(2): the caller leads a new session and a new group; its number. */
static inline int64_t pidtab_setsid(struct pidtab *table, uint32_t caller)
{
	struct pidtab_call call = { PIDTAB_SETSID, caller, 0, 0, 0, 0, 0 };
	struct pidtab_reply reply;
	return pidtab_value(table, &call, &reply);
}

/* A new control group below the one with the id parent, of which 0 is the root: its id. */
static inline int64_t pidtab_mk(struct pidtab *table, uint64_t parent)
{
	struct pidtab_call call = { PIDTAB_MK, 0, parent, 0, 0, 0, 0 };
	struct pidtab_reply reply;
	return pidtab_value(table, &call, &reply);
}

/* Removes a control group without live tasks and children. */
static inline int64_t pidtab_rm(struct pidtab *table, uint64_t id)
{
	struct pidtab_call call = { PIDTAB_RM, 0, id, 0, 0, 0, 0 };
	struct pidtab_reply reply;
	return pidtab_value(table, &call, &reply);
}

/* How many tasks the control group may have, 0 to 4194304, or none for no limit. */
static inline int64_t pidtab_limit(struct pidtab *table, uint64_t id, uint32_t limited, uint32_t limit)
{
	struct pidtab_call call = { PIDTAB_LIMIT, 0, id, limit, limited, 0, 0 };
	struct pidtab_reply reply;
	return pidtab_value(table, &call, &reply);
}

/* The task, by its root number, goes into the control group. */
static inline int64_t pidtab_move(struct pidtab *table, uint32_t task, uint64_t id)
{
	struct pidtab_call call = { PIDTAB_MOVE, task, id, 0, 0, 0, 0 };
	struct pidtab_reply reply;
	return pidtab_value(table, &call, &reply);
}

/* How many tasks the control group and those below it have. */
static inline int64_t pidtab_count(struct pidtab *table, uint64_t id)
{
	uint64_t number = 0;
	uint32_t status = pidtab_count_of(table, id, &number);
	return status == PIDTAB_DONE ? (int64_t)number : -(int64_t)status;
}

/* getpgid(2): the process group of the task pid, where 0 is the caller; 0 where it cannot be seen. */
static inline int64_t pidtab_getpgid(struct pidtab *table, uint32_t caller, uint32_t pid)
{
	uint64_t number = 0;
	uint32_t status = pidtab_getpgid_of(table, caller, pid, &number);
	return status == PIDTAB_DONE ? (int64_t)number : -(int64_t)status;
}

/* getsid(2): the session of the task pid, where 0 is the caller; 0 where it cannot be seen. */
static inline int64_t pidtab_getsid(struct pidtab *table, uint32_t caller, uint32_t pid)
{
	uint64_t number = 0;
	uint32_t status = pidtab_getsid_of(table, caller, pid, &number);
	return status == PIDTAB_DONE ? (int64_t)number : -(int64_t)status;
}

/* The least number from from on that is in use as that kind in the caller's namespace. */
static inline int64_t pidtab_next(struct pidtab *table, uint32_t caller, enum pidtab_use kind, uint32_t from)
{
	uint64_t number = 0;
	uint32_t status = pidtab_next_of(table, caller, kind, from, &number);
	return status == PIDTAB_DONE ? (int64_t)number : -(int64_t)status;
}

/* setns(2) with CLONE_NEWPID: the caller's later children go into the namespace of the task number. */
static inline int64_t pidtab_join(struct pidtab *table, uint32_t caller, uint32_t number)
{
	struct pidtab_call call = { PIDTAB_JOIN, caller, 0, number, 0, 0, 0 };
	struct pidtab_reply reply;
	return pidtab_value(table, &call, &reply);
}

/* PR_SET_CHILD_SUBREAPER of prctl(2): the caller takes orphans of its namespace, or no more. */
static inline int64_t pidtab_subreaper(struct pidtab *table, uint32_t caller, uint32_t on)
{
	struct pidtab_call call = { PIDTAB_SUBREAPER, caller, 0, 0, on, 0, 0 };
	struct pidtab_reply reply;
	return pidtab_value(table, &call, &reply);
}
/* The end of calls. */

/* A worker's calls. Each is one of a worker's number below those of the settings; pidtab_call and all others without a worker are of worker 0. Where
 * the table keeps a history, a call is recorded with its reply, and ordinal is its place among all recorded calls, from 0 on. Else there is worker 0
 * alone, and ordinal stays as it is.
 *
 * Between any two functions: the kept history replays, reply for reply, as one thread's, from the opening to the present state; and the calls of all
 * workers add up to the number of recorded calls. That is proved of pidtab_counts. The history has 64 bytes a call, until it is cut. What is cut away
 * is made once more on a second table, which lags behind the present one by the kept calls: that is the opening, and no call waits for a copy of the
 * table. After each call of a table with a bound first entries are cut, two at most. */

/* Makes a call of the worker. DONE, CLOSED, OUT_OF_RANGE, SPENT, NO_MEMORY; without a history that comes for FORK and MK alone. */
uint32_t pidtab_call_by(struct pidtab *table, uint32_t worker, const struct pidtab_call *call, struct pidtab_reply *reply, uint64_t *ordinal);

/* Makes `count` calls of the worker in their order and with none between them, as so many pidtab_call_by would. made is how many were made, and
 * ordinal the place of the last. replies[i] is that to calls[i]; those from made on stay as they are. Entries are cut after the last call.
 *
 * NO_HISTORY; OUT_OF_RANGE, where one of the calls is none or there is no such worker; and NO_ROOM, where room is less than count, are found before
 * any is made. SPENT and NO_MEMORY end it before the call that meets them: the calls before that were made. Of each other status but DONE, made is 0.
 * DONE, CLOSED. */
uint32_t pidtab_calls(struct pidtab *table, uint32_t worker, const struct pidtab_call *calls, size_t count, struct pidtab_reply *replies, size_t room, size_t *made, uint64_t *ordinal);

/* pidtab_line of the worker. DONE, CLOSED, EMPTY_LINE, BAD_LINE, NO_ROOM, OUT_OF_RANGE, SPENT, NO_MEMORY. */
uint32_t pidtab_line_by(struct pidtab *table, uint32_t worker, const void *line, size_t length, void *answer, size_t room, size_t *size, uint64_t *ordinal);

/* pidtab_fork_at of the worker. DONE, CLOSED, OUT_OF_RANGE, SPENT, DIFFERS, NO_MEMORY. */
uint32_t pidtab_fork_at_by(struct pidtab *table, uint32_t worker, uint32_t caller, uint32_t new_space, uint32_t child, uint32_t root, struct pidtab_reply *reply, uint64_t *ordinal);

/* pidtab_call_told of the worker. DONE, CLOSED, OUT_OF_RANGE, SPENT, NO_ROOM, NO_MEMORY. */
uint32_t pidtab_call_told_by(struct pidtab *table, uint32_t worker, const struct pidtab_call *call, struct pidtab_reply *reply, uint64_t *ordinal, struct pidtab_effect *effects, size_t room, uint64_t *count);

/* Hands out each worker's number once, from 0 on. DONE; CLOSED; OUT_OF_RANGE where all are taken. */
uint32_t pidtab_seat(struct pidtab *table, uint32_t *worker);

/* The history. Each of these is NO_HISTORY where the table keeps none. */

/* The ordinal of the first kept entry, and how many calls were recorded, the cut ones too. DONE, CLOSED. */
uint32_t pidtab_counts(const struct pidtab *table, uint64_t *first_kept, uint64_t *recorded);

/* How many calls of the worker were recorded, the cut ones too. DONE, CLOSED, OUT_OF_RANGE. */
uint32_t pidtab_worker(const struct pidtab *table, uint32_t worker, uint64_t *calls);

/* The kept entry with the ordinal. What its call does not take is 0. DONE, CLOSED, NOT_KEPT. */
uint32_t pidtab_entry(const struct pidtab *table, uint64_t ordinal, uint64_t *worker, struct pidtab_call *call, struct pidtab_reply *reply);

struct pidtab_entry {
	uint64_t worker;
	struct pidtab_call call;
	struct pidtab_reply reply;
};

/* The kept entries from the ordinal on, as many as there are and as there is room for; count is how many. DONE, CLOSED, NOT_KEPT,
 * which says that `from` is neither a kept entry nor the next call. */
uint32_t pidtab_read(const struct pidtab *table, uint64_t from, struct pidtab_entry *entries, size_t room, size_t *count);

/* Makes the calls of saved entries, and compares their replies. It stops at the first that cannot be made, which is OUT_OF_RANGE, SPENT
 * or NO_MEMORY, or has another reply, which is DIFFERS and was made; place is then its place among them. DONE, CLOSED. */
uint32_t pidtab_replay(struct pidtab *table, const struct pidtab_entry *saved, size_t count, size_t *place);

/* Cuts first entries, two at most, where more than `keep` are kept. The bound of the settings stays as it is. DONE, CLOSED. */
uint32_t pidtab_keep(struct pidtab *table, uint64_t keep);

/* Cuts the history: the present state is the opening, and ordinals go on. It makes each kept call once more. DONE, CLOSED, NO_MEMORY. */
uint32_t pidtab_checkpoint(struct pidtab *table);

/* The same where exactly so many calls were recorded, so that none is cut unseen. DONE, CLOSED, AGAIN, NO_MEMORY. */
uint32_t pidtab_checkpoint_at(struct pidtab *table, uint64_t seen);

/* The list of the state that the kept history begins in, as pidtab_list writes that of the present one. Where a cut found no memory, it is NO_MEMORY
 * until later calls have made up for it. */
uint32_t pidtab_opening(const struct pidtab *table, void *bytes, size_t room, size_t *size);

/* A dump for which no call waits: a table of its own, the replica, follows another one, and pidtab_dump of the replica is made beside the calls. It
 * begins as the table does, by pidtab_open, or by pidtab_load of what pidtab_dump wrote. Nobody else makes a call on it. `next` is the ordinal of the
 * call that it lacks first: 0 at first, or what was recorded at that dump. This makes the calls from there on that are recorded when it begins: 64 are
 * copied at once, and nobody waits while they are made. So the replica's text is that of the state in front of the call `next`.
 *
 * DONE where the replica has them all. CLOSED; NO_HISTORY. NOT_KEPT where a call that it lacks was cut away, or `next` was not reached yet: it begins
 * anew. DIFFERS where a reply is not the recorded one: it was no replica of this table, and is none now. Else the status of a call that was not made on
 * it, and `next` says which: CLOSED, OUT_OF_RANGE, SPENT, NO_MEMORY, BUSY. It costs the calls once more. */
uint32_t pidtab_follow(const struct pidtab *table, struct pidtab *replica, uint64_t *next);

/* Threads. A table that is opened with them has a lock of pthread's around each proved function, by threads.c, which is trusted: each thread has the
 * answer that one sequential table would give, and a call's ordinal is its place. Queries share the lock, and each other function has it alone. What
 * changes the table waits for the queries that it finds, and none that comes then passes it. A call, an ask and a stat give way to all other functions:
 * one that has come for the lock has it after one more of each other thread at most. So a thread that saves the history, or cuts it, keeps up with busy
 * ones. Each of these is NO_THREADS where the table is open without them. */

/* The table without its lock, for several functions in one go: this thread has the lock until pidtab_unlock of the table. In between it calls functions
 * on what this answers alone, and does not close it. NULL where the table has no threads. */
struct pidtab *pidtab_lock(struct pidtab *table);
void pidtab_unlock(struct pidtab *table);

/* Waits until the call with the ordinal is recorded, so until more than so many calls are: for a viewer, or a thread that ships the history.
 * It sleeps meanwhile, and any number of threads may. A call pays for it only where somebody waits, whom it wakes. The deadline is a time of
 * CLOCK_REALTIME, as pthread_cond_timedwait has it, and NULL is none.
 *
 * DONE, and `recorded` says how many calls are: no more than `ordinal` only where the deadline has come. NO_HISTORY. CLOSED where they are no more and
 * pidtab_end has ended the waits. OUT_OF_RANGE for nanoseconds outside 0 to 999,999,999. */
struct timespec;
uint32_t pidtab_await(struct pidtab *table, uint64_t ordinal, const struct timespec *until, uint64_t *recorded);

/* Ends these waits, for good: what waits, or comes to wait, for a call that is not recorded is CLOSED. A wait for one that is recorded is DONE,
 * so who follows the calls has them all first. All else goes on, a saver too. After it and the end of the threads that wait, the table may
 * be closed. DONE, CLOSED. */
uint32_t pidtab_end(struct pidtab *table);

#ifdef __cplusplus
}
#endif

#endif
