// Options that are none, on the sources without the module: nothing may have been asked of it.

import assert from "node:assert/strict";
import { test } from "node:test";

import { Telling, Would } from "../src/calls.js";
import { STATUS, WHICH } from "../src/header.js";
import { Table } from "../src/table.js";

const FORK = "an option is one of newSpace, not ";
const WAIT = "an option is one of pid, own, group, not ";
const OPEN = "an option is one of pidMax, keep, workers, firstStamp, not ";
const LOAD = "an option is one of keep, workers, recorded, not ";
const NO_OBJECTS = { "a boolean": true, "a number": 2, "a string": "new", "a bigint": 2n, "a function": () => {}, null: null };

/** A table without a module, and the numbers and choices that its calls were written with: none is made. */
function stubbed() {
  const asked = [];
  const instance = { writeCall: (operation, caller, number, choice) => asked.push([number, choice]) };
  const table = Object.assign(Object.create(Table.prototype), { _open: () => instance, _made: () => ({ root: 2 }), _forked: () => {} });
  table._forkAt = (_, [caller, choice]) => {
    asked.push(["forkAt", choice]);
    return STATUS.DONE;
  };
  return { table, asked };
}

/** The calls that take options, of one table. */
function optional(table) {
  const [would, told] = [new Would(table), new Telling(table)];
  return {
    forks: [table, would, told].map((it) => (options) => it.fork(1, options)).concat((options) => table.forkAt(1, { child: 2, root: 2 }, options)),
    waits: [table, would, told].map((it) => (options) => it.wait(1, options)),
    opens: [(options) => new Table(options), (options) => Table.load("", options)],
  };
}

test("options that are no object", () => {
  const { table, asked } = stubbed();
  const { forks, waits, opens } = optional(table);
  for (const [said, options] of Object.entries(NO_OBJECTS)) {
    for (const call of [...forks, ...waits, ...opens]) assert.throws(() => call(options), { name: "TypeError", message: `options are an object, not ${said}` });
  }
  assert.deepEqual(asked, []);
});

test("options that are not known", () => {
  const { table, asked } = stubbed();
  const { forks, waits, opens } = optional(table);
  for (const call of forks) assert.throws(() => call({ new: true }), { name: "TypeError", message: `${FORK}new` });
  for (const call of waits) {
    assert.throws(() => call({ any: true }), { name: "TypeError", message: `${WAIT}any` });
    assert.throws(() => call({ pid: 2, Group: 3 }), { name: "TypeError", message: `${WAIT}Group` });
  }
  for (const [name, value] of Object.entries({ pidmax: 400, threads: true, keeps: 9 })) assert.throws(() => opens[0]({ [name]: value }), { name: "TypeError", message: `${OPEN}${name}` });
  for (const name of ["pidMax", "firstStamp", "threads"]) assert.throws(() => opens[1]({ [name]: 400 }), { name: "TypeError", message: `${LOAD}${name}` });
  assert.deepEqual(asked, []);
});

test("options that are", () => {
  const { table, asked } = stubbed();
  for (const options of [undefined, {}, { newSpace: false }, { newSpace: true }]) {
    table.fork(1, options);
    table.forkAt(1, { child: 2, root: 3 }, options);
  }
  assert.deepEqual(asked.map(([, choice]) => choice), [0, 0, 0, 0, 0, 0, 1, 1]);
  asked.length = 0;
  for (const which of [undefined, {}, { own: true }, { own: false, pid: 7 }, { group: 8 }]) table.wait(1, which);
  const { ANY, OWN_GROUP, CHILD, GROUP } = WHICH;
  assert.deepEqual(asked, [[0, ANY], [0, ANY], [0, OWN_GROUP], [7, CHILD], [8, GROUP]]);
});
