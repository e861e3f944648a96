// A table, with its history or without.

import { checkLong, checkRange, GREATEST_LONG } from "./bounds.js";
import { BadText, Differs, faultOf, NoHistory, SeatsTaken } from "./faults.js";
import { FAULT, STATUS } from "./header.js";
import { Instance, opened } from "./instance.js";
import { nameTask } from "./labels.js";
import { answerAt } from "./replies.js";
import { checkLoad, checkSettings, headOf } from "./settings.js";
import { Seat, Workplace } from "./workplace.js";

/** Throws what says why nothing was opened, or of what text. */
function checkOpened(instance, status, what) {
  if (status === STATUS.BAD_TEXT) {
    instance.refresh();
    const { word, long } = instance.at.fault;
    throw new BadText(Number(instance.longs[long]), instance.words[word + FAULT.kind]);
  }
  if (status !== STATUS.DONE) throw faultOf(status, what);
}

export class Table extends Workplace {
  constructor(options = {}) {
    super();
    const settings = checkSettings(options);
    const instance = new Instance();
    instance.writeSettings(settings);
    checkOpened(instance, instance.exports.open_with(), "open");
    this._begin(instance, settings);
  }

  static load(text, options = {}) {
    const { kept, workers, recorded } = checkLoad(options);
    const instance = new Instance();
    instance.writeNumbers(recorded);
    const status = instance.given(text, (address, length) => instance.exports.load_with(address, length, workers, kept === 0n ? 0 : 1));
    if (status === STATUS.OUT_OF_RANGE) throw new RangeError("recorded: as many calls as the stamp of the text, or more");
    checkOpened(instance, status, "load");
    const { pidMax, stamp } = headOf(text);
    const table = Object.create(this.prototype);
    table._begin(instance, { kept, workers, pidMax, firstStamp: stamp - recorded.reduce((sum, it) => sum + it, 0n) });
    return table;
  }

  _begin(instance, { kept, workers, pidMax, firstStamp }) {
    this._sit(this, 0);
    this._instance = instance;
    this._labels = new Map();
    this._kept = kept;
    this._seats = 0;
    this.keep = kept === GREATEST_LONG ? Infinity : kept;
    this.workers = workers;
    this.pidMax = pidMax;
    this.firstStamp = firstStamp;
  }

  _open() {
    return opened(this._instance);
  }

  /** The instance, where the table has a history. */
  _history() {
    const instance = this._open();
    if (this._kept === 0n) throw new NoHistory("EOPNOTSUPP", "this table keeps no history: open it with keep");
    return instance;
  }

  /** Cuts the first entries of a history that has a call too many. Where there is no memory for that, it grows on. */
  _cut(instance) {
    if (this._kept === GREATEST_LONG) return;
    instance.writeNumbers([this._kept]);
    instance.exports.keep();
  }

  /** What a function of the history told, as so many numbers, where it was done. */
  _read(name, count, ...given) {
    const instance = this._history();
    const status = instance.exports[name](...given);
    if (status !== STATUS.DONE) throw faultOf(status, name);
    return Array.from({ length: count }, (_, place) => instance.numberAt(place));
  }

  seat() {
    this._open();
    if (this._seats === this.workers) throw new SeatsTaken("EUSERS", `each of the ${this.workers} workers has its seat`);
    return new Seat(this, this._seats++);
  }

  counts() {
    const [firstKept, recorded] = this._read("counts", 2);
    return { firstKept, recorded };
  }

  worker(number) {
    this._history();
    return this._read("worker", 1, checkRange("worker", number, 0, this.workers - 1))[0];
  }

  entry(ordinal) {
    const instance = this._history();
    const place = checkLong("ordinal", ordinal);
    instance.writeNumbers([place]);
    const status = instance.exports.entry();
    if (status !== STATUS.DONE) throw faultOf(status, `entry ${place}`);
    const [worker, answer] = [Number(instance.numberAt(0)), answerAt(instance, instance.at.reply.word)];
    return { ordinal: place, worker, line: instance.callLine(), answer };
  }

  *entries(start) {
    const { firstKept, recorded } = this.counts();
    const first = start === undefined ? firstKept : checkLong("start", start);
    if (first < firstKept || first > recorded) throw faultOf(STATUS.NOT_KEPT, `entry ${first}`);
    for (let ordinal = first; ordinal < recorded; ordinal++) yield this.entry(ordinal);
  }

  replay(entries) {
    this._history();
    const seats = Array.from({ length: this.workers }, (_, worker) => new Seat(this, worker));
    let place = 0;
    for (const { worker, line, answer: saved } of entries) {
      const answer = seats[checkRange("worker", worker, 0, this.workers - 1)]._answerOfCall(line);
      if (answer !== saved) throw new Differs(place, line, saved, answer);
      place++;
    }
    return place;
  }

  checkpoint() {
    this._read("checkpoint", 0);
  }

  checkpointAt(seen) {
    const instance = this._history();
    instance.writeNumbers([checkLong("seen", seen)]);
    const status = instance.exports.checkpoint_at();
    if (status !== STATUS.DONE && status !== STATUS.AGAIN) throw faultOf(status, "checkpoint");
    return status === STATUS.DONE;
  }

  label(task, text) {
    nameTask(this._labels, this.ask, task, text);
  }

  dump() {
    const instance = this._open();
    return instance.written(instance.dump, "dump");
  }

  close() {
    this._instance = null;
  }
}
