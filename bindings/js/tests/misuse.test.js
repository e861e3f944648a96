// What is wrong is said in a sentence, and nothing is lost.

import assert from "node:assert/strict";
import { test } from "node:test";
import { Worker } from "node:worker_threads";

import { pidtab, skip } from "./package.js";

const { readListing, Table } = pidtab;

const PAGES = ["children", "groupMembers", "sessionMembers", "namespaceMembers", "namespaceOwn"];

test("numbers of another kind, and out of range", { skip }, () => {
  const table = new Table();
  const kinds = [() => table.getpid("1"), () => table.getpid(), () => table.getpid(null), () => table.mk("0"), () => table.getpid(1n)];
  for (const call of kinds.slice(0, 4)) assert.throws(call, TypeError);
  const { would } = table;
  const foretold = [() => would.fork("1"), () => would.mk("0"), () => table.forkAt("1", { child: 2, root: 2 }), () => table.forkAt(1, { child: 2 }), () => table.forkAt(1)];
  for (const call of foretold) assert.throws(call, TypeError);
  for (const child of [{ child: -1, root: 2 }, { child: 2, root: 2 ** 32 }, { child: 2.5, root: 2 }]) assert.throws(() => table.forkAt(1, child), RangeError);
  assert.throws(() => would.exit(1, 256), RangeError);
  for (const given of [["1"], [], [null], [1, "2"]]) assert.throws(() => table.told.exit(...given), TypeError);
  for (const given of [[-1], [2 ** 32], [1, 256], [1, 0.5]]) assert.throws(() => table.told.exit(...given), RangeError);
  const { ask } = table;
  const pages = PAGES.map((name) => (...given) => ask[name](...given));
  for (const page of pages) {
    for (const given of [["1"], [], [1, "1"], [1, null], [1, 0, "2"], [1, 0, {}]]) assert.throws(() => page(...given), TypeError);
    for (const given of [[-1], [1, 2 ** 32], [1, 0, 0.5], [1, 0, -1]]) assert.throws(() => page(...given), RangeError);
  }
  for (const id of ["1", undefined, null, {}]) assert.throws(() => ask.space(id), TypeError);
  for (const id of [-1, -1n, 2n ** 64n, 2 ** 53, 0.5]) assert.throws(() => ask.space(id), { name: "RangeError", message: /^id is an integer, 0 to / });
  const ranges = [() => table.getpid(-1), () => table.getpid(2 ** 32), () => table.getpid(1.5), () => table.getpid(NaN), () => table.exit(1, 256)];
  const more = [() => table.mk(-1n), () => table.mk(2n ** 64n), () => table.mk(2 ** 53), () => table.setpgid(1, 2 ** 31), () => table.limit(1n, -1)];
  for (const call of [...ranges, ...more]) assert.throws(call, RangeError);
  assert.throws(() => table.getpid(2 ** 32), { message: "caller is an integer, 0 to 4294967295, not 4294967296" });
  assert.throws(() => table.getpid("1"), { message: "caller is an integer, 0 to 4294967295, not a string" });
  assert.throws(() => table.next(1, "thread"), { message: 'a use is "task", "group" or "session", not thread' });
  // None of these was a call: the id of a control group is the stamp of its call.
  assert.equal(table.mk(), 1n);
});

test("lines that are none", { skip }, () => {
  const table = new Table();
  for (const text of ["", "fork 1\nfork 1"]) assert.throws(() => table.line(text), RangeError);
  for (const text of [undefined, 5, null]) assert.throws(() => table.line(text), TypeError);
  assert.throws(() => table.answers("fork 1"), TypeError);
  assert.equal(table.mk(), 1n);
});

test("a bound that is out of range", { skip }, () => {
  for (const pidMax of [300, 4194305, 0, 1.5]) assert.throws(() => new Table({ pidMax }), { name: "RangeError", message: /^pidMax is an integer, 301 to 4194304, not / });
  assert.throws(() => new Table({ pidMax: "400" }), TypeError);
  assert.equal(new Table({ pidMax: 4194304 }).pidMax, 4194304);
});

test("a table that was closed", { skip }, () => {
  const table = new Table();
  const { ask, told, would } = table;
  table.close();
  table.close();
  const foretold = [() => would.fork(1), () => would.mk(), () => told.fork(1), () => told.exit(2), () => told.setpgid(1), () => table.forkAt(1, { child: 2, root: 2 })];
  const pages = PAGES.map((name) => () => ask[name](1));
  for (const call of [...foretold, () => table.fork(1), () => table.line("fork 1"), () => table.list(), () => table.dump(), () => ask.getpid(1), () => ask.stat(1), () => ask.space(0), () => ask.spacesInside(), () => ask.controlsInside(), () => ask.controlTasks(1), () => table.mk(), ...pages]) {
    assert.throws(call, { name: "TableClosed", code: "EBADF", message: "the table was closed" });
  }
});

test("tables share nothing", { skip }, () => {
  const [one, other] = [new Table(), new Table()];
  one.fork(1);
  assert.equal(other.count(), 1);
});

test("a list that is none", { skip }, () => {
  const faults = { "": "line 1: no list", "task": "line 1: cut off, without a newline", "space 0 parent - cursor 2\nx\n": "line 2: not a line of a list" };
  for (const [text, message] of Object.entries(faults)) assert.throws(() => readListing(text), { message });
});

/** Has a table take forks until there is no memory for one. */
function fill(table) {
  let made = 1;
  try {
    for (;;) {
      table.fork(1);
      made++;
    }
  } catch (fault) {
    assert.equal(fault.name, "NoMemory");
  }
  return made;
}

test("a table without memory is as it was, and goes on", { skip }, () => {
  const table = new Table({ pidMax: 4194304 });
  const { exports } = table._instance;
  // All that is left of the 2^30 bytes of the module, in blocks that get smaller.
  const blocks = [];
  for (let size = 2 ** 29; size > 16; size /= 2) for (let at = exports.take(size); at !== 0; at = exports.take(size)) blocks.push(at);
  const made = fill(table);
  assert.equal(table.ask.count(), made);
  assert.throws(() => table.list(), { name: "NoMemory", code: "ENOMEM", message: "list: no memory" });
  assert.deepEqual(table.answers(["fork 1", "getpid 1"]), ["no memory", "1"]);
  assert.throws(() => table.told.exit(2), { name: "NoMemory", code: "ENOMEM", message: "exit 2 0: no memory" });
  blocks.forEach((at) => exports.give(at));
  assert.equal(table.fork(1).child, made + 1);
  assert.equal(table.list().tasks.length, made + 1);
  assert.deepEqual(table.told.exit(2).effects, [{ what: "ended", number: 2, status: 0, killed: false }]);
});

test("a table in a worker", { skip }, async () => {
  const code = `
    const { parentPort, workerData } = require("node:worker_threads");
    import(workerData).then(({ Table }) => parentPort.postMessage(new Table().fork(1)));`;
  const url = new URL("../../../out/js/pidtab.js", import.meta.url).href;
  const worker = new Worker(code, { eval: true, workerData: url });
  const answer = await new Promise((resolve, reject) => worker.once("message", resolve).once("error", reject));
  assert.deepEqual(answer, { child: 2, root: 2 });
});

test("a table that nobody has is freed: a thousand, one after another", { skip }, () => {
  for (let round = 0; round < 1000; round++) assert.equal(new Table().fork(1).child, 2);
});
