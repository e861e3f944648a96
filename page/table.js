// The table of the page: that of bindings/js, whose state can be kept and had again.

import { Table } from "../bindings/js/src/table.js";

export class PlayedTable extends Table {
  /** What the line is answered; an empty line has no answer. */
  answerTo(line) {
    return line === "" ? "" : this.answers([line])[0];
  }

  /** All that the table is, which is the memory of its module. */
  save() {
    return this._open().memory.buffer.slice(0);
  }

  /** Has the table be as it was. The memory may have grown since: what it has more is free. */
  restore(bytes) {
    const memory = new Uint8Array(this._open().memory.buffer);
    memory.set(new Uint8Array(bytes));
    memory.fill(0, bytes.byteLength);
  }
}
