// A table with its history, and tables as text.

import assert from "node:assert/strict";
import { test } from "node:test";

import { pidtab, skip } from "./package.js";

const { Table } = pidtab;

/** A table with a history of three calls by two workers, with their seats. */
function recorded() {
  const kept = new Table({ keep: Infinity, workers: 2 });
  const seats = [kept.seat(), kept.seat()];
  seats[0].fork(1, { newSpace: true });
  seats[1].line("fork 2");
  assert.throws(() => seats[0].getpid(99), { code: "ESRCH" });
  return { kept, seats };
}

const ENTRIES = [
  { ordinal: 0n, worker: 0, line: "fork 1 new", answer: "child 2 root 2" },
  { ordinal: 1n, worker: 1, line: "fork 2", answer: "child 2 root 3" },
  { ordinal: 2n, worker: 0, line: "getpid 99", answer: "ESRCH no-caller" },
];

test("calls are entries, refused ones too", { skip }, () => {
  const { kept, seats } = recorded();
  assert.deepEqual([...kept.entries()], ENTRIES);
  assert.deepEqual(kept.entry(1), ENTRIES[1]);
  assert.deepEqual(kept.counts(), { firstKept: 0n, recorded: 3n });
  assert.deepEqual([kept.worker(0), kept.worker(1)], [2n, 1n]);
  assert.deepEqual(seats.map(({ ordinal }) => ordinal), [2n, 1n]);
  assert.throws(() => kept.seat(), { name: "SeatsTaken", message: "each of the 2 workers has its seat" });
});

test("a line that is none, and one without a call, are not recorded", { skip }, () => {
  const kept = new Table({ keep: Infinity });
  const seat = kept.seat();
  assert.throws(() => seat.line("fork"), { name: "BadLine" });
  assert.throws(() => seat.getpid(-1), RangeError);
  assert.equal(seat.ordinal, null);
  assert.equal(kept.counts().recorded, 0n);
});

test("children and members, of a table and of a seat, are not recorded", { skip }, () => {
  const { kept, seats } = recorded();
  for (const { ask } of [kept, ...seats]) assert.deepEqual([ask.children(1), ask.groupMembers(2), ask.sessionMembers(1, 0, 2), ask.namespaceMembers(2)], [[2], [1, 2], [2, 3], [1, 2]]);
  assert.equal(kept.counts().recorded, 3n);
});

test("namespaces, of a table and of a seat, are not recorded", { skip }, () => {
  const { kept, seats } = recorded();
  const root = { id: 0n, parent: null, level: 0, init: 1, fallen: false };
  for (const { ask } of [kept, ...seats]) {
    assert.deepEqual(ask.space(0), root);
    assert.throws(() => ask.space(9), RangeError);
  }
  assert.equal(kept.counts().recorded, 3n);
});

test("calls that tell what they did are recorded", { skip }, () => {
  const { kept, seats } = recorded();
  const [first, second] = seats;
  assert.deepEqual(first.told.exit(2, 7).effects.map(({ what, number, id }) => [what, number ?? id]), [["ended", 2], ["ended", 3], ["gone", 3], ["space-fell", 1n]]);
  assert.deepEqual(second.told.wait(1).effects, [{ what: "gone", number: 2 }, { what: "space-gone", id: 1n }]);
  assert.throws(() => second.told.exit(3), { code: "ESRCH" });
  assert.deepEqual([first.ordinal, second.ordinal], [3n, 5n]);
  assert.deepEqual([...kept.entries(3)].map(({ worker, line, answer }) => [worker, line, answer]), [
    [0, "exit 2 7", "ok"],
    [1, "wait 1 any", "reaped 2 exit 7"],
    [1, "exit 3 0", "ESRCH no-caller"],
  ]);
  assert.throws(() => first.told.exit("2"), TypeError);
  first.close();
  assert.throws(() => first.told.fork(1), { name: "TableClosed", message: "the seat was closed" });
  assert.equal(kept.counts().recorded, 6n);
});

test("the entries are made again on another table", { skip }, () => {
  const { kept } = recorded();
  const again = new Table({ keep: Infinity, workers: 2 });
  assert.equal(again.replay(kept.entries()), 3);
  assert.equal(again.listText(), kept.listText());
  assert.deepEqual([again.worker(0), again.worker(1)], [2n, 1n]);
  const changed = ENTRIES.map((entry, place) => (place === 1 ? { ...entry, answer: "child 2 root 4" } : entry));
  assert.throws(() => new Table({ keep: Infinity, workers: 2 }).replay(changed), {
    name: "Differs",
    code: "EBADMSG",
    place: 1,
    message: "entry 1: fork 2 was answered child 2 root 4, and is now answered child 2 root 3",
  });
  assert.throws(() => new Table({ keep: Infinity }).replay(ENTRIES), RangeError);
});

test("a checkpoint cuts the history", { skip }, () => {
  const { kept, seats } = recorded();
  assert.equal(kept.checkpointAt(2), false);
  assert.equal(kept.checkpointAt(3n), true);
  assert.deepEqual(kept.counts(), { firstKept: 3n, recorded: 3n });
  assert.deepEqual([...kept.entries()], []);
  seats[1].getpid(1);
  assert.deepEqual([...kept.entries()].map(({ ordinal }) => ordinal), [3n]);
  for (const ordinal of [2, 4]) assert.throws(() => kept.entry(ordinal), { name: "NotKept", code: "ENOENT" });
  assert.throws(() => kept.entries(0).next(), { name: "NotKept" });
  kept.checkpoint();
  assert.equal(kept.counts().firstKept, 4n);
});

test("the text of a table makes it again", { skip }, () => {
  const table = new Table({ pidMax: 400 });
  table.answers(["fork 1", "fork 2 new", "setpgid 3 0 0", "setpgid 2 0 3", "exit 3 0", "wait 2 any"]);
  const text = table.dump();
  for (const given of [text, new TextEncoder().encode(text)]) {
    const again = Table.load(given);
    assert.equal(again.pidMax, 400);
    assert.equal(again.dump(), text);
    assert.deepEqual([again.getpgid(2), again.mk()], [3, 8n]);
  }
});

test("a text that is that of no table", { skip }, () => {
  const text = new Table().dump();
  const wrong = text.replace("group 1@0", "group 2@0");
  assert.throws(() => Table.load(wrong), { name: "BadText", code: "EUCLEAN", why: "wrong digest", line: text.split("\n").length - 1 });
  assert.throws(() => Table.load(""), { name: "BadText", why: "bad line", line: 1 });
  assert.throws(() => Table.load(5), TypeError);
  assert.throws(() => Table.load("x", { keep: 9 }), { name: "BadText", line: 1 });
});

test("a history goes on where a text ends", { skip }, () => {
  const { kept } = recorded();
  const text = kept.dump();
  const again = Table.load(text, { keep: Infinity, recorded: [kept.worker(0), kept.worker(1)] });
  assert.deepEqual(again.counts(), { firstKept: 3n, recorded: 3n });
  assert.deepEqual([again.workers, again.firstStamp, again.worker(0)], [2, 1n, 2n]);
  assert.deepEqual(again.seat().fork(1), { child: 4, root: 4 });
  assert.deepEqual(Table.load(text, { keep: Infinity, workers: 3 }).counts(), { firstKept: 0n, recorded: 0n });
  assert.throws(() => Table.load(text, { keep: Infinity, recorded: [4n] }), RangeError);
  assert.throws(() => Table.load(text, { keep: Infinity, recorded: Array(17).fill(0) }), RangeError);
});

test("a closed table, and a closed seat", { skip }, () => {
  const { kept, seats } = recorded();
  seats[0].close();
  seats[0].close();
  for (const call of [() => seats[0].getpid(1), () => seats[0].list(), () => seats[0].told.fork(1), () => seats[0].ask.stat(1), () => seats[0].forkAt(1, { child: 9, root: 9 })]) {
    assert.throws(call, { name: "TableClosed", message: "the seat was closed" });
  }
  assert.equal(seats[1].getpid(1), 1);
  kept.close();
  for (const call of [() => seats[1].getpid(1), () => kept.counts(), () => kept.list(), () => kept.seat(), () => kept.checkpointAt(0)]) {
    assert.throws(call, { name: "TableClosed" });
  }
});
