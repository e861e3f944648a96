// An instance of the module, which holds one table: wasm/around.c says what its functions take, and where.

import { faultOf, NoMemory, TableClosed } from "./faults.js";
import { CALL, SETTINGS, STATUS } from "./header.js";

const PLACES = ["call", "reply", "task", "space", "fault", "settings", "numbers", "size", "line", "answer"];
const LINE_ROOM = 208;

// What answers questions.
// Written by tools/interface: questions.
const QUESTIONS = ["ask", "stat", "page", "space", "inside", "control_tasks", "would"];
// The end of questions.
const MOST_ASCII = 127;

/** No answer is longer. */
export const ANSWER_ROOM = 362;

/** The room for a first try of a list or a text. */
const SHORT_TEXT = 4096;

const encoder = new TextEncoder();
const decoder = new TextDecoder();

let compiled = null;

/** Has each table from now on be an instance of this compiled module. */
export function useModule(module) {
  compiled = module;
}

/** The places of `around.c`, each with its address in bytes, in words of 32 bits and in those of 64. */
function placesOf(exports) {
  const addresses = PLACES.map((_, what) => exports.place_of(what));
  return Object.fromEntries(addresses.map((byte, what) => [PLACES[what], { byte, word: byte / 4, long: byte / 8 }]));
}

export class Instance {
  constructor() {
    // A copy, as it is quicker to look up names in.
    this.exports = { ...new WebAssembly.Instance(compiled, {}).exports };
    this.memory = this.exports.memory;
    this.at = placesOf(this.exports);
    for (const name of ["list", "dump", ...QUESTIONS]) this[name] = this.exports[name];
    this.look();
  }

  /** Has the views of the memory, which are empty once it has grown. */
  look() {
    this.words = new Uint32Array(this.memory.buffer);
    this.longs = new BigUint64Array(this.memory.buffer);
    this.bytes = new Uint8Array(this.memory.buffer);
  }

  /** Has the views be of the memory as it is now. */
  refresh() {
    if (this.words.length === 0) this.look();
  }

  /** Writes a call. What its operation does not take may be anything. */
  writeCall(operation, caller, number, choice) {
    this.refresh();
    const { words } = this;
    const at = this.at.call.word;
    words[at + CALL.operation] = operation;
    words[at + CALL.caller] = caller;
    words[at + CALL.number] = number;
    words[at + CALL.choice] = choice;
  }

  /** The call of these numbers, as `setpgid` has them. */
  writeGroups(pid, group) {
    this.refresh();
    this.words[this.at.call.word + CALL.pid] = pid;
    this.words[this.at.call.word + CALL.pgid] = group;
  }

  writeId(id) {
    this.refresh();
    this.longs[this.at.call.long + CALL.id / 2] = id;
  }

  /** With what the table is opened. */
  writeSettings({ pidMax, workers, firstStamp, kept }) {
    this.refresh();
    const { word, long } = this.at.settings;
    this.words[word + SETTINGS.pid_max] = pidMax;
    this.words[word + SETTINGS.workers] = workers;
    this.longs[long + SETTINGS.first_stamp / 2] = firstStamp;
    this.longs[long + SETTINGS.keep / 2] = kept;
  }

  /** The numbers of 64 bits that a function takes beside. */
  writeNumbers(numbers) {
    this.refresh();
    this.longs.set(numbers, this.at.numbers.long);
  }

  numberAt(place) {
    this.refresh();
    return this.longs[this.at.numbers.long + place];
  }

  /** Writes a line: its length. One that is longer than all lines fills more than these have. */
  writeLine(text) {
    this.refresh();
    const { bytes } = this;
    const at = this.at.line.byte;
    const length = Math.min(text.length, LINE_ROOM);
    for (let place = 0; place < length; place++) {
      const code = text.charCodeAt(place);
      if (code > MOST_ASCII) return encoder.encodeInto(text, bytes.subarray(at, at + LINE_ROOM)).written;
      bytes[at + place] = code;
    }
    return length;
  }

  /** The text at an address, of the size that the module has told last. */
  textAt(address) {
    this.refresh();
    return decoder.decode(this.bytes.subarray(address, address + this.words[this.at.size.word]));
  }

  /** An answer is short, so its letters are put together one by one. */
  answer() {
    this.refresh();
    const at = this.at.answer.byte;
    const end = at + this.words[this.at.size.word];
    let text = "";
    for (let place = at; place < end; place++) text += String.fromCharCode(this.bytes[place]);
    return text;
  }

  /** The call that was made last, as a line. */
  callLine() {
    return this.exports.call_line() === STATUS.DONE ? this.textAt(this.at.line.byte) : "a call";
  }

  /** What is done with room of some bytes, which is given back. */
  withRoom(size, what, use) {
    const address = this.exports.take(size);
    if (address === 0) throw new NoMemory("ENOMEM", `${what}: no memory`);
    try {
      return use(address);
    } finally {
      this.exports.give(address);
    }
  }

  /** The text that a function writes into a room, which tells the size where the room is short. */
  written(write, what, size = SHORT_TEXT) {
    const text = this.withRoom(size, what, (address) => {
      const status = write(address, size);
      if (status === STATUS.DONE) return this.textAt(address);
      if (status === STATUS.NO_ROOM) return null;
      throw faultOf(status, what);
    });
    if (text !== null) return text;
    this.refresh();
    return this.written(write, what, this.words[this.at.size.word]);
  }

  /** What a function answers that is given the text of a table. */
  given(text, use) {
    const bytes = typeof text === "string" ? encoder.encode(text) : text;
    if (!(bytes instanceof Uint8Array)) throw new TypeError(`the text of a table is a string or a Uint8Array, not a ${typeof text}`);
    return this.withRoom(bytes.length, "load", (address) => {
      this.refresh();
      this.bytes.set(bytes, address);
      return use(address, bytes.length);
    });
  }
}

/** The instance, or a fault where there is none any more. */
export function opened(instance) {
  if (instance === null) throw new TableClosed("EBADF", "the table was closed");
  return instance;
}
