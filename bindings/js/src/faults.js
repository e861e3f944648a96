// What is thrown: refusals of the table, as the kernel's errors, and what else a call may come to. What is misused is a TypeError or a RangeError.

import { ERRNOS, REFUSALS, STATUS, TEXT_FAULTS, WITH_ID } from "./header.js";

/** More of a line is not told. */
const MOST_TOLD = 200;

/** What all faults of a table are. `code` is the name of an errno of Linux, as "ESRCH". */
export class PidtabError extends Error {
  constructor(code, message) {
    super(message);
    this.code = code;
  }

  get name() {
    return this.constructor.name;
  }
}

/** A call that the table refused. `word` says why, as "pids-limit"; `id` is that of the namespace or the control group that refuses, or null. */
export class Refusal extends PidtabError {
  constructor(errno, word, id, line) {
    super(ERRNOS[errno], `${line}: ${ERRNOS[errno]} ${word}${id === null ? "" : ` ${id}`}`);
    this.errno = errno;
    this.word = word;
    this.id = id;
  }
}

/** A line that is none of the script language. */
export class BadLine extends PidtabError {}

/** There is no memory: the table is as it was. */
export class NoMemory extends PidtabError {}

/** The table has made 2^64 - 2 calls, and makes no more. */
export class Spent extends PidtabError {}

/** The table was closed. */
export class TableClosed extends PidtabError {}

/** The history has no such entry: it was cut away, or there is no such call yet. */
export class NotKept extends PidtabError {}

/** The table keeps no history. */
export class NoHistory extends PidtabError {}

/** Each worker has its seat already. */
export class SeatsTaken extends PidtabError {}

/** A text that is that of no table. `why` says what is wrong with the line, which counts from 1. */
export class BadText extends PidtabError {
  constructor(line, kind) {
    super("EUCLEAN", `line ${line}: ${TEXT_FAULTS[kind - 1]}`);
    this.line = line;
    this.why = TEXT_FAULTS[kind - 1];
  }
}

/** An entry whose call has another answer when it is made again. `place` is its place among those that were given, from 0 on. */
export class Differs extends PidtabError {
  constructor(place, line, saved, answer) {
    super("EBADMSG", `entry ${place}: ${shorten(line)} was answered ${shorten(saved)}, and is now answered ${answer}`);
    this.place = place;
  }
}

/** The text, or its first 200 characters where it has more. */
export function shorten(text) {
  return text.length <= MOST_TOLD ? text : `${text.slice(0, MOST_TOLD)}..`;
}

/** The word of a refusal by its number, and the id after it, or null. */
export function wordOf(number, id) {
  const word = REFUSALS[number - 1];
  return [word, WITH_ID.includes(word) ? id : null];
}

/** The refusal that an answer to a line is. */
export function readRefusal(line, answer) {
  const [code, word, id] = answer.split(" ");
  const [errno] = Object.entries(ERRNOS).find(([, name]) => name === code);
  return new Refusal(Number(errno), word, id === undefined ? null : BigInt(id), shorten(line));
}

/** What a status other than done stands for. */
export function faultOf(status, what) {
  const faults = {
    [STATUS.NO_MEMORY]: () => new NoMemory("ENOMEM", `${what}: no memory`),
    [STATUS.OUT_OF_RANGE]: () => new RangeError(`${what}: a number is out of range`),
    [STATUS.BAD_LINE]: () => new BadLine("EPROTO", `bad line: ${what}`),
    [STATUS.SPENT]: () => new Spent("EOVERFLOW", `${what}: the table has made 2^64 - 2 calls`),
    [STATUS.NOT_KEPT]: () => new NotKept("ENOENT", `${what} is not kept: it was cut away, or there is no such call yet`),
  };
  return faults[status]?.() ?? new Error(`${what}: the module answered with the status ${status}`);
}
