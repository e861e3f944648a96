// With what a table is opened: what is wrong is said in a sentence, and what each setting does.

import assert from "node:assert/strict";
import { test } from "node:test";

import { pidtab, skip } from "./package.js";

const { Table } = pidtab;

test("settings of another kind, and out of range", { skip }, () => {
  const open = (settings) => () => new Table(settings);
  for (const keep of ["4096", null, true, {}, []]) assert.throws(open({ keep }), { name: "TypeError", message: /^keep is an integer, 0 to 2\^64 - 1, / });
  for (const keep of [-1, -1n, 1.5, NaN, -Infinity, 2 ** 53, 2n ** 64n]) assert.throws(open({ keep }), { name: "RangeError", message: /^keep is an integer, / });
  for (const workers of ["2", null, 2n]) assert.throws(open({ workers, keep: 9 }), /^(Type|Range)Error: workers is an integer, 1 to 16, not /);
  for (const workers of [0, 17, -1, 1.5]) assert.throws(open({ workers, keep: Infinity }), { name: "RangeError", message: `workers is an integer, 1 to 16, not ${workers}` });
  for (const workers of [2, 16]) assert.throws(open({ workers }), { name: "RangeError", message: "workers count the calls of a history: open it with keep" });
  for (const firstStamp of [0, 0n, -1, 2n ** 64n]) assert.throws(open({ firstStamp }), { name: "RangeError", message: /^firstStamp is an integer, 1 to / });
});

test("settings of a text", { skip }, () => {
  const text = new Table().dump();
  const load = (settings) => () => Table.load(text, settings);
  assert.throws(load({ recorded: [0] }), { name: "RangeError", message: "recorded counts the calls of a history: open it with keep" });
  assert.throws(load({ workers: 2 }), { name: "RangeError", message: "workers count the calls of a history: open it with keep" });
  assert.throws(load({ keep: 1, workers: 2, recorded: [0] }), { name: "RangeError", message: "recorded has a number for each of 2 workers, not 1" });
  assert.throws(load({ keep: 1, recorded: [] }), RangeError);
  assert.throws(load({ keep: 1, recorded: [1] }), { name: "RangeError", message: "recorded: as many calls as the stamp of the text, or more" });
  for (const recorded of [5, null, ["0"]]) assert.throws(load({ keep: 1, recorded }), TypeError);
  for (const recorded of [[-1], [0.5], Array(17).fill(0)]) assert.throws(load({ keep: 1, recorded }), RangeError);
});

test("what is left out", { skip }, () => {
  const settings = ({ pidMax, keep, workers, firstStamp }) => [pidMax, keep, workers, firstStamp];
  assert.deepEqual(settings(new Table()), [32768, 0n, 1, 1n]);
  assert.deepEqual(settings(new Table({ keep: Infinity, workers: 16, firstStamp: 5 })), [32768, Infinity, 16, 5n]);
  assert.deepEqual(settings(Table.load(new Table({ pidMax: 400 }).dump(), { keep: 7 })), [400, 7n, 1, 1n]);
  assert.equal(new Table({ firstStamp: 7 }).mk(), 7n);
});

/** What reads or cuts a history. */
const ofHistory = (table) => [
  () => table.counts(), () => table.worker(0), () => table.worker(9), () => table.entry(0), () => table.entries().next(), () => table.replay([]),
  () => table.checkpoint(), () => table.checkpointAt(0),
];

test("a table without a history", { skip }, () => {
  const table = new Table();
  const seat = table.seat();
  for (const call of ofHistory(table)) {
    assert.throws(call, { name: "NoHistory", code: "EOPNOTSUPP", message: "this table keeps no history: open it with keep" });
  }
  assert.deepEqual([seat.mk(), table.mk(), seat.line("mk 0"), seat.worker, seat.ordinal], [1n, 2n, "control 3", 0, null]);
  assert.deepEqual(seat.told.fork(1), { answer: { child: 2, root: 2 }, effects: [] });
  assert.throws(() => table.seat(), { name: "SeatsTaken", message: "each of the 1 workers has its seat" });
});

test("the calls of a table are those of worker 0", { skip }, () => {
  const table = new Table({ keep: Infinity, workers: 2 });
  const seats = [table.seat(), table.seat()];
  table.mk();
  seats[1].mk();
  seats[0].mk();
  table.line("getpid 1");
  assert.deepEqual([...table.entries()].map(({ worker }) => worker), [0, 1, 0, 0]);
  assert.deepEqual([table.worker(0), table.worker(1), seats[0].ordinal, seats[1].ordinal], [3n, 1n, 2n, 1n]);
});

test("a call too many cuts the first, by whatever way it is made", { skip }, () => {
  for (const keep of [3, 3n]) {
    const table = new Table({ keep });
    const seat = table.seat();
    const entry = { worker: 0, line: "getpid 1", answer: "1" };
    const ways = [() => table.getpid(1), () => table.line("getpid 1"), () => table.answers(["getpid 1"]), () => table.told.getpid(1), () => seat.getpid(1), () => table.replay([entry])];
    ways.push(() => table.forkAt(1, { child: 2, root: 2 }), () => seat.told.fork(1));
    for (const [place, make] of ways.entries()) {
      make();
      const recorded = BigInt(place + 1);
      assert.deepEqual(table.counts(), { firstKept: recorded < 3n ? 0n : recorded - 3n, recorded }, `${make}`);
    }
    assert.equal(seat.ordinal, 7n);
  }
});

test("a table that was closed twice, and its seats", { skip }, () => {
  const table = new Table({ keep: 3 });
  const seat = table.seat();
  table.close();
  table.close();
  for (const call of [...ofHistory(table), () => table.seat(), () => seat.getpid(1), () => seat.list(), () => seat.told.fork(1), () => table.label(1, "x")]) {
    assert.throws(call, { name: "TableClosed", code: "EBADF", message: "the table was closed" });
  }
});
