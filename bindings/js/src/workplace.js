// Where a worker makes its calls: at a table those of worker 0, and at each seat those of its own.

import { Ask, Calls, Telling, Would } from "./calls.js";
import { TableClosed } from "./faults.js";
import { STATUS } from "./header.js";
import { ANSWER_ROOM } from "./instance.js";
import { nameTasks } from "./labels.js";

/** The calls of a worker of a table, which is in `_table`; null where the seat was closed. */
export class Workplace extends Calls {
  /** Takes the place of a worker at the table. */
  _sit(table, number) {
    this._table = table;
    this._number = number;
    this.ask = new Ask(this);
    this.would = new Would(this);
    this.told = new Telling(this);
  }

  /** The status of a call. Where it was made, a history that is too long is cut. */
  _after(instance, status) {
    if (status === STATUS.DONE && this._table._kept !== 0n) this._table._cut(instance);
    return status;
  }

  _call(instance) {
    return this._after(instance, instance.exports.call_by(this._number));
  }

  _forkAt(instance, numbers) {
    return this._after(instance, instance.exports.fork_at_by(this._number, ...numbers));
  }

  _callTold(instance, address, room) {
    const status = instance.exports.call_told_by(this._number, address, room);
    const count = Number(instance.numberAt(1));
    return [this._after(instance, status), count];
  }

  _line(instance, length) {
    return this._after(instance, instance.exports.line_by(this._number, length, ANSWER_ROOM));
  }

  _forked(root) {
    if (this._table._labels.size > 0) this._table._labels.delete(root);
  }

  list() {
    const listing = super.list();
    return nameTasks(this._table._labels, listing);
  }
}

/** The calls of one worker, each with its place in the history. */
export class Seat extends Workplace {
  constructor(table, worker) {
    super();
    this._sit(table, worker);
    this.pidMax = table.pidMax;
    this.worker = worker;
    this.ordinal = null;
  }

  _open() {
    if (this._table === null) throw new TableClosed("EBADF", "the seat was closed");
    return this._table._open();
  }

  /** Keeps the ordinal of a call that was recorded. */
  _after(instance, status) {
    if (status === STATUS.DONE && this._table._kept !== 0n) this.ordinal = instance.numberAt(0);
    return super._after(instance, status);
  }

  close() {
    this._table = null;
  }
}
