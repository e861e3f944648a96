// What a table tells as JSON, which is that of all languages, and labels of its tasks.

import assert from "node:assert/strict";
import { test } from "node:test";

import { readListing } from "../src/listing.js";
import { toJson } from "../src/json.js";
import { pidtab, skip } from "./package.js";
import { read } from "../../../page/tests/stored.js";

/** The labels of all tasks that have one, by their root numbers. */
const labelsOf = (table) => Object.fromEntries(table.list().tasks.filter(({ label }) => label).map(({ root, label }) => [root, label]));

test("a list", () => {
  assert.equal(`${toJson(readListing(read("bindings/example.list")))}\n`, read("bindings/example.json"));
});

test("what is none", () => {
  assert.throws(() => toJson(() => 1), { name: "TypeError", message: "a table tells no function" });
});

test("a task", { skip }, () => {
  const { Table, toJson } = pidtab;
  const table = new Table();
  const task =
    '{"numbers":[1],"root":1,"parent":0,"group":1,"session":1,"space":0,"control":0,"state":"live","status":null,"executed":false,"subreaper":false}';
  assert.equal(toJson(table.ask.stat(1)), task);
});

test("a namespace", { skip }, () => {
  const { Table, toJson } = pidtab;
  const table = new Table();
  table.fork(1, { newSpace: true });
  table.exit(2);
  assert.equal(toJson(table.ask.space(0)), '{"id":0,"parent":null,"level":0,"init":1,"fallen":false}');
  assert.equal(toJson(table.ask.space(1)), '{"id":1,"parent":0,"level":1,"init":2,"fallen":true}');
  assert.equal(toJson({ ...table.ask.space(1), init: null }), '{"id":1,"parent":0,"level":1,"init":null,"fallen":true}');
});

test("a label is in the list and in its JSON, and not in the table", { skip }, () => {
  const table = new pidtab.Table();
  table.fork(1);
  const [text, dump] = [table.listText(), table.dump()];
  table.label(2, "x");
  table.label(2, 'web "1"');
  assert.deepEqual(labelsOf(table), { 2: 'web "1"' });
  assert.ok(pidtab.toJson(table.list()).includes('"subreaper":false,"label":"web \\"1\\""}'), pidtab.toJson(table.list()));
  assert.deepEqual([table.listText(), table.dump()], [text, dump]);
  table.label(2, null);
  assert.deepEqual(labelsOf(table), {});
});

/** Forks children of the root init that end, up to the last number, which then comes again and again. */
function goUp(calls) {
  for (;;) {
    const child = calls.fork(1).root;
    if (child === 300) return;
    calls.exit(child);
    calls.wait(1);
  }
}

/** A label of the last number stays at the zombie, and goes with the fork that draws the number again. */
function checkForks(table, calls, forks) {
  for (const fork of forks) {
    table.label(300, "short");
    calls.exit(300);
    assert.deepEqual(labelsOf(table), { 300: "short" });
    calls.wait(1);
    fork();
    assert.equal(calls.getpid(300), 300);
    assert.deepEqual(labelsOf(table), {});
  }
}

test("a label goes when the number is another task's", { skip }, () => {
  const table = new pidtab.Table({ pidMax: 301 });
  goUp(table);
  checkForks(table, table, [() => table.fork(1), () => table.line("fork 1"), () => table.answers(["fork 1"]), () => table.told.fork(1)]);
});

test("a label goes by any of the seats", { skip }, () => {
  const table = new pidtab.Table({ pidMax: 301, keep: Infinity, workers: 2 });
  const [first, second] = [table.seat(), table.seat()];
  goUp(first);
  const last = table.entry(table.counts().recorded - 1n);
  checkForks(table, first, [() => second.fork(1), () => second.line("fork 1"), () => second.told.fork(1), () => table.replay([last])]);
  table.label(1, "init");
  assert.equal(second.list().tasks[0].label, "init");
});

test("what is no label, and who is nobody", { skip }, () => {
  const table = new pidtab.Table();
  for (const text of ["", "a\nb", "\x07", "\u2028"]) assert.throws(() => table.label(1, text), RangeError, JSON.stringify(text));
  for (const text of [5, undefined]) assert.throws(() => table.label(1, text), TypeError);
  assert.throws(() => table.label(9, "x"), { word: "no-task" });
});
