// bindings/c/pidtab.h: its numbers, and where the fields of its structs stand.

// Written by tools/interface: bounds.
export const VERSION = 1;
export const LONGEST_ANSWER = 362;
export const LONGEST_CALL = 42;
export const KILLED = 256;
export const LEVELS_MAX = 33;
export const MOST_WORKERS = 16;
export const DEFAULT_PID_MAX = 32768;
export const LEAST_PID_MAX = 301;
export const GREATEST_PID_MAX = 4194304;
// The end of bounds.

// Written by tools/interface: statuses.
export const STATUS = {
  DONE: 0, CLOSED: 9, NO_MEMORY: 12, BUSY: 16, OUT_OF_RANGE: 22, NO_ROOM: 34, EMPTY_LINE: 61, BAD_LINE: 71, SPENT: 75, DIFFERS: 74,
  BAD_TEXT: 117, NOT_KEPT: 2, AGAIN: 11, NO_HISTORY: 95, NO_THREADS: 37,
};
// The end of statuses.

// Written by tools/interface: operations.
export const OPERATION = {
  FORK: 0, GETPID: 1, NSPID: 2, EXEC: 3, EXIT: 4, WAIT: 5, GETPPID: 6, SETPGID: 7, SETSID: 8, MK: 9, RM: 10, LIMIT: 11, MOVE: 12, COUNT: 13,
  GETPGID: 14, GETSID: 15, NEXT: 16, JOIN: 17, SUBREAPER: 18,
};
// The end of operations.

// Written by tools/interface: kinds.
/** Of a wait: whom it means. */
export const WHICH = { ANY: 0, CHILD: 1, OWN_GROUP: 2, GROUP: 3 };

/** Of a next, in the order of their numbers. */
export const USES = ["task", "group", "session"];

/** Of a page: whom it lists. */
export const WHOM = { CHILDREN: 0, GROUP_MEMBERS: 1, SESSION_MEMBERS: 2, NAMESPACE_MEMBERS: 3, NAMESPACE_OWN: 4 };

/** Of a page of ids: in which tree it goes down. */
export const TREE = { SPACES: 0, CONTROLS: 1 };

/** Of an effect: what became of the task. */
export const WHAT = { TASK_ENDED: 0, TASK_ADOPTED: 1, TASK_GONE: 2, GROUP_GONE: 3, SESSION_GONE: 4, SPACE_FELL: 5, SPACE_GONE: 6 };

export const KIND = { FORKED: 0, OK: 1, NUMBER: 2, LEVELS: 3, REAPED: 4, NONE_YET: 5, COUNTED: 6, CONTROL: 7, END: 8, REFUSED: 9 };
// The end of kinds.

// Written by tools/interface: refusals.
/** The words of the refusals, by their numbers from 1 on. */
export const REFUSALS = [
  "no-caller", "no-task", "no-child", "no-number", "pids-limit", "space-fallen", "too-deep", "elsewhere", "bad-group", "other-session",
  "is-leader", "no-group", "executed", "root-init", "no-control", "control-busy", "root-control", "bad-limit", "control-depth",
];

/** After these words is the id of the namespace, or of the control group, that refuses. */
export const WITH_ID = ["no-number", "pids-limit"];

/** The errnos of Linux that a refusal may have. */
export const ERRNOS = {
  1: "EPERM", 2: "ENOENT", 3: "ESRCH", 10: "ECHILD", 11: "EAGAIN", 12: "ENOMEM", 13: "EACCES", 16: "EBUSY", 22: "EINVAL", 28: "ENOSPC",
};
// The end of refusals.

// Written by tools/interface: faults.
/** Why a text is that of no table, by the numbers of the faults from 1 on. */
export const TEXT_FAULTS = [
  "bad line", "wrong digest", "bad settings", "out of order", "unknown parent", "unknown namespace", "unknown control group", "bad name",
  "number in use twice", "namespace without an init", "no number left", "impossible line",
];
// The end of faults.

// Written by tools/interface: places.
// The fields by their places, in words of 32 bits. One of 64 bits, as an id, has two words.
export const CALL = { operation: 0, caller: 1, id: 2, number: 4, choice: 5, pid: 6, pgid: 7 };
export const REPLY = { kind: 0, error: 1, refusal: 2, count: 3, first: 4, second: 6, levels: 8 };
export const TASK = { error: 0, refusal: 1, count: 2, parent: 3, group: 4, session: 5, ended: 6, status: 7, executed: 8, subreaper: 9, space: 10, control: 12, root: 14, levels: 15 };
export const SPACE = { id: 0, parent: 2, level: 4, init: 5, fallen: 6 };
export const EFFECT = { what: 0, number: 1, value: 2 };
export const FAULT = { line: 0, kind: 2 };
export const SETTINGS = { pid_max: 0, workers: 1, first_stamp: 2, keep: 4, threads: 6 };
// The end of places.
