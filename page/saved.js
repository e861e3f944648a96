// A saved history (docs/SAVED.md) as a script: the line of each call, and what it was answered.

import { ERRNOS, KILLED, KIND, OPERATION, USES, WHICH } from "../bindings/js/src/header.js";
import { wordOf } from "../bindings/js/src/faults.js";

const BLOCK_BYTES = 48;
const SUMMED_BYTES = 40;
const HEAD_BYTES = [0x89, 0x70, 0x69, 0x64, 0x74, 0x61, 0x62, 0x0a];
const SAVED_VERSION = 1;

// The first block of an entry has so many levels, and each further one as many more.
const FIRST_LEVELS = 4;
const MORE_LEVELS = 10;

// The line of each call by the fields of its entry. An operation that has a later number is not known here.
const CALL_LINES = new Map([
  // Written by tools/interface: calls.
  [OPERATION.FORK, (it) => `fork ${it.caller}${it.choice ? " new" : ""}`],
  [OPERATION.GETPID, (it) => `getpid ${it.caller}`],
  [OPERATION.NSPID, (it) => `nspid ${it.caller} ${it.number}`],
  [OPERATION.EXEC, (it) => `exec ${it.caller}`],
  [OPERATION.EXIT, (it) => `exit ${it.caller} ${it.number}`],
  [OPERATION.WAIT, (it) => `wait ${it.caller} ${waited(it)}`],
  [OPERATION.GETPPID, (it) => `getppid ${it.caller}`],
  [OPERATION.SETPGID, (it) => `setpgid ${it.caller} ${it.pid} ${it.pgid}`],
  [OPERATION.SETSID, (it) => `setsid ${it.caller}`],
  [OPERATION.MK, (it) => `mk ${it.id}`],
  [OPERATION.RM, (it) => `rm ${it.id}`],
  [OPERATION.LIMIT, (it) => `limit ${it.id} ${it.choice ? it.number : "max"}`],
  [OPERATION.MOVE, (it) => `move ${it.caller} ${it.id}`],
  [OPERATION.COUNT, (it) => `count ${it.id}`],
  [OPERATION.GETPGID, (it) => `getpgid ${it.caller} ${it.number}`],
  [OPERATION.GETSID, (it) => `getsid ${it.caller} ${it.number}`],
  [OPERATION.NEXT, (it) => `next ${it.caller} ${USES[it.choice]} ${it.number}`],
  [OPERATION.JOIN, (it) => `join ${it.caller} ${it.number}`],
  [OPERATION.SUBREAPER, (it) => `subreaper ${it.caller} ${it.choice ? "on" : "off"}`],
  // The end of calls.
]);

function waited({ choice, number }) {
  const words = { [WHICH.CHILD]: `pid ${number}`, [WHICH.GROUP]: `group ${number}`, [WHICH.OWN_GROUP]: "own" };
  return words[choice] ?? "any";
}

const REPLY_LINES = new Map([
  [KIND.FORKED, (it) => `child ${it.first} root ${it.second}`],
  [KIND.OK, () => "ok"],
  [KIND.NUMBER, (it) => `${it.first}`],
  [KIND.LEVELS, (it) => it.levels.join(" ")],
  [KIND.REAPED, (it) => `reaped ${it.first} ${it.second === BigInt(KILLED) ? "killed" : `exit ${it.second}`}`],
  [KIND.NONE_YET, () => "none"],
  [KIND.COUNTED, (it) => `${it.first}`],
  [KIND.CONTROL, (it) => `control ${it.first}`],
  [KIND.END, () => "end"],
  [KIND.REFUSED, (it) => refusedLine(it)],
]);

function refusedLine({ error, refusal, first }) {
  const [word, id] = wordOf(refusal, first);
  return `${ERRNOS[error]} ${word}${id === null ? "" : ` ${id}`}`;
}

// The table of CRC-64/XZ by bytes, as two numbers of 32 bits: one of 64 would be a BigInt, which takes a hundred times as long.
const SUM_TABLE = Array.from({ length: 256 }, (_, byte) => {
  let [high, low] = [0, byte];
  for (let bit = 0; bit < 8; bit++) {
    const odd = low & 1;
    low = ((low >>> 1) | (high << 31)) >>> 0;
    high >>>= 1;
    if (odd) [high, low] = [(high ^ 0xc96c5795) >>> 0, (low ^ 0xd7870f42) >>> 0];
  }
  return [high, low];
});

/** A running checksum, which goes on over the summed bytes of a block: its two halves, the high one first. */
function sumOver([high, low], bytes) {
  [high, low] = [~high, ~low];
  for (const byte of bytes) {
    const [tableHigh, tableLow] = SUM_TABLE[(low ^ byte) & 255];
    low = ((low >>> 8) | (high << 24)) ^ tableLow;
    high = (high >>> 8) ^ tableHigh;
  }
  return [~high >>> 0, ~low >>> 0];
}

/** Whether a file begins as a saved history does. */
export function isSaved(bytes) {
  return HEAD_BYTES.every((byte, place) => bytes[place] === byte);
}

/** The blocks of a file one after another, each with its checksum compared. What is torn at the end is left out. */
class SavedBlocks {
  constructor(bytes) {
    this.bytes = bytes;
    this.view = new DataView(bytes.buffer, bytes.byteOffset, bytes.byteLength);
    this.at = 0;
    this.sum = [0, 0];
  }

  /** Whether all from a place on is zero, as a file is whose length came to the disk before its bytes. */
  isTorn(place) {
    return this.bytes.subarray(place).every((byte) => byte === 0);
  }

  /** Where the next block begins; null where no whole one is left. What is wrong is told by its name. */
  next(name) {
    const at = this.at;
    if (at + BLOCK_BYTES > this.bytes.length) return null;
    const [high, low] = sumOver(this.sum, this.bytes.subarray(at, at + SUMMED_BYTES));
    if (this.view.getUint32(at + SUMMED_BYTES, true) !== low || this.view.getUint32(at + SUMMED_BYTES + 4, true) !== high) {
      if (this.isTorn(at + SUMMED_BYTES)) return null;
      throw new Error(`${name} has a wrong byte`);
    }
    this.sum = [high, low];
    this.at += BLOCK_BYTES;
    return at;
  }
}

/** The settings that a saved history begins with. */
function readHead(blocks) {
  const at = blocks.next("the head");
  if (at === null) throw new Error("it ends within its head");
  const version = blocks.view.getUint32(at + 8, true);
  if (version !== SAVED_VERSION) throw new Error(`it is a saved history of version ${version}, and the page reads version ${SAVED_VERSION}`);
  return { pidMax: blocks.view.getUint32(at + 12, true), firstStamp: blocks.view.getBigUint64(at + 16, true), workers: blocks.view.getUint32(at + 24, true) };
}

/** The levels of a reply, of which the later ones are in blocks of their own; null where these are torn. */
function readLevels(blocks, at, count, name) {
  const levels = [];
  let [place, end] = [at + 24, at + 24 + 4 * FIRST_LEVELS];
  while (levels.length < count) {
    if (place === end) {
      const more = blocks.next(name);
      if (more === null) return null;
      [place, end] = [more, more + 4 * MORE_LEVELS];
    }
    levels.push(blocks.view.getUint32(place, true));
    place += 4;
  }
  return levels;
}

/** The next entry; null at the end. */
function readEntry(blocks, ordinal) {
  const name = `call ${ordinal}`;
  const at = blocks.next(name);
  if (at === null) return null;
  const { bytes, view } = blocks;
  const levels = readLevels(blocks, at, bytes[at + 6], name);
  if (levels === null) return null;
  const reply = { kind: bytes[at + 3], error: bytes[at + 4], refusal: bytes[at + 5], first: view.getBigUint64(at + 24, true), second: view.getBigUint64(at + 32, true), levels };
  const call = {
    choice: bytes[at + 1],
    caller: view.getUint32(at + 8, true),
    number: view.getUint32(at + 12, true),
    id: view.getBigUint64(at + 16, true),
    pid: view.getInt32(at + 16, true),
    pgid: view.getInt32(at + 20, true),
  };
  const [callLine, replyLine] = [CALL_LINES.get(bytes[at]), REPLY_LINES.get(reply.kind)];
  if (!callLine || !replyLine) throw new Error(`${name} is none that the page knows`);
  return { line: callLine(call), answer: replyLine(reply) };
}

/** A saved history: its settings, the lines of its calls with their answers, and how many bytes at its end are torn. An Error says what is wrong. */
export function readSaved(bytes) {
  const blocks = new SavedBlocks(bytes);
  const head = readHead(blocks);
  const [lines, answers] = [[], []];
  let whole = blocks.at;
  for (let entry = readEntry(blocks, 0); entry !== null; entry = readEntry(blocks, lines.length)) {
    lines.push(entry.line);
    answers.push(entry.answer);
    whole = blocks.at;
  }
  return { ...head, lines, answers, torn: bytes.length - whole };
}
