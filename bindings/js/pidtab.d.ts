// Linux process identifiers as one table, in this process.
//
// A caller is a root number. Every other process number is the caller's own, as in the script language of docs/SCRIPT.md. Process numbers are 0 to
// 2^32 - 1, those of setpgid -2^31 to 2^31 - 1. What has 64 bits is answered as a BigInt: ids of namespaces and control groups, ordinals, stamps and
// counts of calls. Such a number is taken as a BigInt, or as a number up to 2^53 - 1. What is no number is a TypeError, and so are options that
// are no object or have a key that is not known; a number out of range is a RangeError. Then no call was made.
//
// A call that the table refuses throws a Refusal; each method names the words that it may have. Where there is no memory, `fork`, `mk`, `list`, `dump`
// and each call of a table with a history throw NoMemory. After 2^64 - 2 calls each throws Spent. What throws has changed nothing, but that a refused call uses a
// stamp, or is recorded. After `close` all throw TableClosed.

/** The `pidMax` where none is given: numbers are below it. */
export const DEFAULT_PID_MAX: number;
export const LEAST_PID_MAX: number;
export const GREATEST_PID_MAX: number;

/** A number of 64 bits as it is taken. */
export type Long = bigint | number;

/** What `next` looks for. */
export type Use = "task" | "group" | "session";

/** A new task: its number in the caller's namespace, and in the root namespace. */
export interface Forked {
  child: number;
  root: number;
}

/** A child that was waited for: its number in the caller's namespace, and its status, null where the fall of its namespace killed it. */
export interface Reaped {
  child: number;
  status: number | null;
  killed: boolean;
}

/** Which children a wait means: one by its number, those of the caller's own group, or of another; with none of these, any. */
export interface Which {
  pid?: number;
  own?: boolean;
  group?: number;
}

/** A task as the caller's namespace sees it. Numbers of processes but `root` are those there, 0 where there is none. */
export interface Stat {
  /** From the caller's namespace inwards. */
  numbers: number[];
  /** Its number in the root namespace, which names it in calls. */
  root: number;
  parent: number;
  group: number;
  session: number;
  /** The id of its own namespace. */
  space: bigint;
  /** The id of its control group. */
  control: bigint;
  live: boolean;
  /** 0 to 255 for a task that has ended and was not killed. */
  status: number | null;
  killed: boolean;
  executed: boolean;
  subreaper: boolean;
}

/** A namespace in one read. */
export interface SpaceStat {
  id: bigint;
  /** The id of the namespace that it is in, null for the root. */
  parent: bigint | null;
  /** How many namespaces are around it: 0 for the root, 32 for the deepest. */
  level: number;
  /** The root number of its init, ended or not; null where that was reaped. */
  init: number | null;
  /** Whether its init has ended: it takes no task any more, and is gone with the last number in it. */
  fallen: boolean;
}

/** A task of the list: its numbers, the root's first, and root numbers of parent (0 for none), group and session. */
export interface Task {
  // Written by tools/interface: fields of task.
  /** Its numbers, that of the root namespace first. */
  numbers: number[];
  /** The id of its namespace. */
  space: bigint;
  /** The root number of its parent, 0 for none. */
  parent: number;
  /** The root number of its process group. */
  group: number;
  /** The root number of its session. */
  session: number;
  /** The id of its control group. */
  control: bigint;
  /** Whether it lives. */
  live: boolean;
  /** That of its exit, null where there was none. */
  status: number | null;
  /** Whether it has executed. */
  executed: boolean;
  /** The id of the namespace that its children go into, null for its own. */
  children: bigint | null;
  /** Whether it takes orphans of its namespace. */
  subreaper: boolean;
  // The end of fields of task.
  /** Its number in the root namespace. */
  root: number;
  /** Whether the fall of its namespace ended it. */
  killed: boolean;
  /** A name from outside of the table, which `label` gives. */
  label?: string;
}

/** A namespace; the root has no parent. */
export interface Space {
  // Written by tools/interface: fields of space.
  /** Its id, 0 for the root. */
  id: bigint;
  /** The id of the namespace around it, null for the root. */
  parent: bigint | null;
  /** Where the search for its next number begins. */
  cursor: number;
  /** Whether its init has ended. */
  fallen: boolean;
  // The end of fields of space.
}

/** A control group with the count of its subtree; a limit of null is `max`. */
export interface Control {
  // Written by tools/interface: fields of control.
  /** Its id, 0 for the root. */
  id: bigint;
  /** The id of the control group above it, null for the root. */
  parent: bigint | null;
  /** How many tasks it may have, null for no limit. */
  limit: number | null;
  /** How many tasks it and those below it have. */
  count: number;
  // The end of fields of control.
}

/** All that stands in a table. */
export interface Listing {
  tasks: Task[];
  spaces: Space[];
  controls: Control[];
}

/** Reads a list as `listText`, or `pidtab list`, writes it. An Error names the first line that is none of a list. */
export function readListing(text: string): Listing;

/** A list, a task, a namespace, the answer of a call or a Refusal as JSON in one line, as docs/list.schema.json has it; null where a call tells nothing. */
export function toJson(value: Listing | Task | Space | Control | Stat | SpaceStat | Forked | Reaped | Refusal | number | bigint | number[] | null | void): string;

/** What may be asked and changes nothing. */
export interface Queries {
  // Written by tools/interface: queries.
  /** getpid(2): the caller's number in its own namespace. no-caller. */
  getpid(caller: number): number;
  /** NSpid of proc(5): the numbers of the task `pid` from the caller's namespace inwards, outermost first: 1 to 33 of them. no-caller, no-task. */
  nspid(caller: number, pid: number): number[];
  /** getppid(2): the number of the caller's parent, 0 for one that it cannot see. no-caller. */
  getppid(caller: number): number;
  /** How many tasks the control group and those below it have. no-control. */
  count(control?: Long): number;
  /** getpgid(2): the process group of the task `pid`, where 0 is the caller; 0 where it cannot be seen. no-caller, no-task. */
  getpgid(caller: number, pid?: number): number;
  /** getsid(2): the session of the task `pid`, where 0 is the caller; 0 where it cannot be seen. no-caller, no-task. */
  getsid(caller: number, pid?: number): number;
  /** The least number from `start` on that is in use as that kind in the caller's namespace. no-caller. */
  next(caller: number, use?: Use, start?: number): number | null;
  // The end of queries.
}

/** Queries as what is no call: they use no stamp, and are not recorded. */
export interface Ask extends Queries {
  // Written by tools/interface: questions.
  /** Reads the task `pid` of the caller's namespace, where 0 is the caller, and a zombie too, as getpgid finds it. It costs what a getpgid costs. no-caller, no-task. */
  stat(caller: number, pid?: number): Stat;
  /** The children of the task `pid`, where 0 is the caller, zombies too: their numbers in the caller's namespace, in rising order and not below `start`. Who is not visible there is left out, and a number that is nobody's has none. It costs what is read of each of them. It takes memory for a list. no-caller, NoMemory. */
  children(caller: number, pid?: number, start?: number): number[];
  /** The members of the process group with the number `group`, where 0 is the caller's own, as `children` has those of a task. It takes memory for a list. no-caller, NoMemory. */
  groupMembers(caller: number, group?: number, start?: number): number[];
  /** The members of the session with the number `session`, where 0 is the caller's own, as `children` has those of a task. It takes memory for a list. no-caller, NoMemory. */
  sessionMembers(caller: number, session?: number, start?: number): number[];
  /** The tasks of the namespace that the task `pid` is in, where 0 is the caller, those in namespaces inside it too, as `children` has those of a task. Of the caller's own namespace these are all that it sees, whom kill(2) of -1 reaches, and only what is told of them is read. It takes memory for a list. no-caller, NoMemory. */
  namespaceMembers(caller: number, pid?: number, start?: number): number[];
  /** Of `namespaceMembers` those that are in no namespace inside it. It takes memory for a list. no-caller, NoMemory. */
  namespaceOwn(caller: number, pid?: number, start?: number): number[];
  /** Reads the namespace `id`, where 0 is the root namespace. It takes no memory, and costs two searches and a few reads. A RangeError where no namespace has the id, or it is gone. */
  space(id: Long): SpaceStat;
  /** The ids of the namespaces directly in the namespace `id`, where 0 is the root, in rising order and not below `start`. One that has fallen is among them as long as `space` reads it. It costs what is read of each of them. It takes memory for a list. A RangeError where no namespace has the id, or it is gone. NoMemory. */
  spacesInside(id?: Long, start?: Long): bigint[];
  /** The ids of the control groups directly in the control group `id`, where 0 is the root, as `spacesInside` has those of a namespace. It takes memory for a list. A RangeError where no control group has the id, or it is gone. NoMemory. */
  controlsInside(id?: Long, start?: Long): bigint[];
  /** The live tasks directly in the control group with the id `control`, where 0 is the root, as `children` has those of a task: cgroup.procs, in which no zombie appears. It takes memory for a list. no-caller, no-control, NoMemory. */
  controlTasks(caller: number, control?: Long, start?: number): number[];
  // The end of questions.
}

/** A method for each call. */
export interface EachCall extends Queries {
  // Written by tools/interface: calls.
  /** fork(2), or clone(2) with CLONE_NEWPID: a child in the namespace for the caller's children, or in a new one. no-caller, too-deep, elsewhere, space-fallen, no-number, pids-limit. */
  fork(caller: number, options?: { newSpace?: boolean }): Forked;
  /** execve(2): the caller executes a program. no-caller. */
  exec(caller: number): void;
  /** _exit(2): the caller ends, and its namespace falls if it is the init there; `status` is 0 to 255. no-caller, root-init. */
  exit(caller: number, status?: number): void;
  /** waitpid(2) with WNOHANG: takes an ended child away; none where children match and none of them has ended. no-caller, no-child. */
  wait(caller: number, which?: Which): Reaped | null;
  /** setpgid(2): the task `pid` goes into the group `group`; 0 is the caller, and the task. no-caller, bad-group, no-task, other-session, executed, is-leader, no-group. */
  setpgid(caller: number, pid?: number, group?: number): void;
  /** setsid(2): the caller leads a new session and a new group; its number. no-caller, is-leader. */
  setsid(caller: number): number;
  /** A new control group below the one with the id `parent`, of which 0 is the root: its id. no-control, control-depth. */
  mk(parent?: Long): bigint;
  /** Removes a control group without live tasks and children. no-control, root-control, control-busy. */
  rm(control: Long): void;
  /** How many tasks the control group may have, 0 to 4194304, or none for no limit. no-control, root-control, bad-limit. */
  limit(control: Long, most?: number | null): void;
  /** The task, by its root number, goes into the control group. no-task, no-control. */
  move(task: number, control: Long): void;
  /** setns(2) with CLONE_NEWPID: the caller's later children go into the namespace of the task `pid`. no-caller, no-task. */
  join(caller: number, pid: number): void;
  /** PR_SET_CHILD_SUBREAPER of prctl(2): the caller takes orphans of its namespace, or no more. no-caller. */
  subreaper(caller: number, on?: boolean): void;
  // The end of calls.
}

/** What a call did, by root numbers and by ids: a task lives no more, has another parent, or is there no more, as it was reaped or went with its namespace;
 * a process group or a session has no member any more, no zombie either; a namespace has fallen, or is there no more, as nothing has a number in it. */
export type Effect =
  | { what: "ended"; number: number; status: number | null; killed: boolean }
  | { what: "adopted"; number: number; parent: number }
  | { what: "gone"; number: number }
  | { what: "group-gone"; number: number }
  | { what: "session-gone"; number: number }
  | { what: "space-fell"; id: bigint }
  | { what: "space-gone"; id: bigint };

/** The answer of a call, and what it did: first to tasks by rising numbers, then to process groups, to sessions, and to namespaces by rising ids. Of a task
 * that ended and is gone, and of a namespace that fell and is gone, there are both, in this order. */
export interface Told<Answer> {
  answer: Answer;
  effects: Effect[];
}

type ToldCalls = { [Name in keyof EachCall]: (...taken: Parameters<EachCall[Name]>) => Told<ReturnType<EachCall[Name]>> };

/** The calls on a table. It begins with one task, the root init, number 1. */
export interface Calls extends EachCall {
  /** Numbers are below it. */
  readonly pidMax: number;
  /** The queries that are no calls. */
  readonly ask: Ask;
  /** What each call would answer: the numbers of a fork, and whom a wait would reap. It throws what the call would throw, and nothing changes. */
  readonly would: EachCall;
  /** Calls that tell what they did: who ended, who has another parent, who and what is gone. Each is made, and throws what the call throws. They take
   * memory for that: where there is none, it is a NoMemory, and no call was made. */
  readonly told: ToldCalls;
  /** The answer to a raw line. A refusal is thrown, a line of another language is a BadLine, and an empty one a RangeError. */
  line(text: string): string;
  /** The answers to many raw lines: refusals, "bad line", "no memory" and "spent" are answers here. */
  answers(texts: Iterable<string>): string[];
  /** Makes a fork, if its child gets exactly these numbers, as `would.fork` has told them: whether it was made. Else nothing changes. */
  forkAt(caller: number, child: Forked, options?: { newSpace?: boolean }): boolean;
  /** The table as it stands now. It costs a copy of the table, and so does `listText`. */
  list(): Listing;
  /** The same as text, as `pidtab list` writes it. */
  listText(): string;
  /** Ends it: all methods throw TableClosed from then on. A second time nothing is done. */
  close(): void;
}

type LineOfCall = { [Name in keyof EachCall]: (...taken: Parameters<EachCall[Name]>) => string };

/** The calls as lines: each method makes no call, and tells the line that makes it, as `new Lines().fork(1)` is "fork 1". It needs no table. */
export class Lines {}
export interface Lines extends LineOfCall {}

/** With what a table is opened. */
export interface Settings {
  /** All numbers are below it: 301 to 4194304; by default 32768. */
  pidMax?: number;
  /** How many entries of the history are kept at most, and a call that makes more cuts the first; Infinity: all of them, by 64 bytes a call. By default 0: no
   * history. */
  keep?: Long;
  /** How many seats there are: 1 to 16, and 1 without a history; by default 1. */
  workers?: number;
  /** The stamp of the first call, as the id of what it makes, 1 to 2^64 - 1; each later call has the next. By default 1n. */
  firstStamp?: Long;
}

/** With what a table is made of a text. */
export interface LoadSettings {
  keep?: Long;
  /** By default as many as `recorded` has, or 1. */
  workers?: number;
  /** How many calls of each worker there were before, with `keep` alone; by default 0. Their sum is the ordinal of the next call. */
  recorded?: Iterable<Long>;
}

/** A table. Its own calls are those of worker 0. One that nobody has any more is freed, closed or not.
 *
 * What reads or cuts a history throws NoHistory where the table was opened without `keep`. */
export class Table implements Calls {
  /** A table with process 1 alone. A RangeError for settings out of their ranges, as several workers without a history. */
  constructor(settings?: Settings);
  /** A table as a text of `dump` says: each later call has the answer that it would have had there. Any text may be given: BadText says why it is none.
   * A history begins there. A RangeError where the calls of `recorded` are as many as the stamp of the text. */
  static load(text: string | Uint8Array, settings?: LoadSettings): Table;
  /** A bigint, or Infinity. */
  readonly keep: Long;
  readonly workers: number;
  readonly firstStamp: bigint;
  /** The seat of the next worker, from 0 on. SeatsTaken where each has its own. */
  seat(): Seat;
  counts(): Counts;
  /** How many calls of the worker were recorded, the cut ones too. */
  worker(number: number): bigint;
  /** The recorded call with the ordinal. NotKept where it was cut away, or is not reached yet. */
  entry(ordinal: Long): Entry;
  /** The recorded calls from the ordinal on, by default from the first kept one, to the last that there is at the first step. NotKept. */
  entries(start?: Long): IterableIterator<Entry>;
  /** Makes the calls of entries, each for its worker: how many. It stops at the first with another answer, which was made: Differs. */
  replay(entries: Iterable<{ worker: number; line: string; answer: string }>): number;
  /** Cuts the history: no entry is kept, and ordinals go on. It costs a copy of the table. */
  checkpoint(): void;
  /** The same where exactly so many calls were recorded. Whether it was cut. */
  checkpointAt(seen: Long): boolean;
  /** All that there is to know of the table, as text (docs/SCRIPT.md), without its history. It costs a copy of the table. */
  dump(): string;
  /** Names a task, by its root number, in `list`; null takes the name away. It is no call, and the text of the table does not have it. The name goes
   * when the number is another task's. A label is printable text of one line: else a RangeError. no-task. */
  label(task: number, text: string | null): void;
}
export interface Table extends Calls {}

/** The calls of one worker. With a history they are recorded, each with its reply. */
export interface Seat extends Calls {
  readonly worker: number;
  /** The place of the seat's latest call in the history, from 0 on; null before the first, and without a history. */
  readonly ordinal: bigint | null;
}

/** A recorded call: its place, the worker that made it, its line, and the answer to the line. */
export interface Entry {
  ordinal: bigint;
  worker: number;
  line: string;
  answer: string;
}

/** The ordinal of the first kept entry, and how many calls were recorded, the cut ones too. */
export interface Counts {
  firstKept: bigint;
  recorded: bigint;
}

/** What all faults of a table are. */
export class PidtabError extends Error {
  /** The name of an errno of Linux, as "ESRCH". */
  readonly code: string;
}

/** A call that the table refused. */
export class Refusal extends PidtabError {
  readonly errno: number;
  /** Why, as "pids-limit". */
  readonly word: string;
  /** The id of the namespace of a "no-number", and of the control group of a "pids-limit"; else null. */
  readonly id: bigint | null;
}

/** EPROTO: a line that is none of the script language. */
export class BadLine extends PidtabError {}
/** ENOMEM: there is no memory, and the table is as it was. */
export class NoMemory extends PidtabError {}
/** EOVERFLOW: the table has made 2^64 - 2 calls. */
export class Spent extends PidtabError {}
/** EBADF: the table, or the seat, was closed. */
export class TableClosed extends PidtabError {}
/** ENOENT: the history has no such entry. */
export class NotKept extends PidtabError {}
/** EOPNOTSUPP: the table keeps no history. */
export class NoHistory extends PidtabError {}
/** EUSERS: each worker has its seat. */
export class SeatsTaken extends PidtabError {}

/** EUCLEAN: a text that is that of no table. */
export class BadText extends PidtabError {
  /** From 1 on. */
  readonly line: number;
  /** What is wrong with the line, in the words of docs/SCRIPT.md. */
  readonly why: string;
}

/** EBADMSG: an entry whose call has another answer now. */
export class Differs extends PidtabError {
  /** Its place among those that were given, from 0 on. */
  readonly place: number;
}
