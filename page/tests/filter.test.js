// The filter of tasks, and the boxes with what it lets through.

import assert from "node:assert/strict";
import { test } from "node:test";

import { countIn, readFilter, sift } from "../filter.js";
import { boxesOf } from "../layout.js";
import { readList } from "../list.js";

const LIST = `task 1 space 0 parent 0 group 1 session 1 control 0 live
task 2,1 space 1 parent 1 group 1 session 1 control 5 live executed
task 3,2 space 1 parent 2 group 3 session 3 control 12 exit 7 subreaper
task 4,3,1 space 4 parent 2 group 1 session 1 control 5 killed
task 5,1 space 8 parent 1 group 1 session 1 control 5 live
space 0 parent - cursor 6
space 1 parent 0 cursor 4
space 4 parent 1 cursor 2 fallen
space 8 parent 0 cursor 2
control 0 parent - limit max count 5
control 5 parent 0 limit max count 3
control 12 parent 0 limit max count 1
`;

/** The root numbers of the tasks that a filter lets through. */
function found(filter) {
  return readList(LIST).tasks.filter(readFilter(filter)).map(({ root }) => root);
}

test("a number is any of a task's", () => {
  assert.deepEqual(found("3"), [3, 4]);
  assert.deepEqual(found("1"), [1, 2, 4, 5]);
});

test("a word with a number is that field, and not one that begins so", () => {
  assert.deepEqual(found("control 5"), [2, 4, 5]);
  assert.deepEqual(found("control 1"), []);
  assert.deepEqual([found("namespace 1"), found("parent 2"), found("group 3"), found("session 1")], [[2, 3], [3, 4], [3], [1, 2, 4, 5]]);
});

test("a word is a state", () => {
  const states = { live: [1, 2, 5], zombie: [3, 4], killed: [4], executed: [2], subreaper: [3] };
  for (const [word, roots] of Object.entries(states)) assert.deepEqual(found(word), roots, word);
});

test("each of the words has to hold", () => {
  assert.deepEqual(found(" control 5  zombie "), [4]);
  assert.deepEqual(found("live 1 control 5"), [2, 5]);
});

test("without words there is no filter", () => {
  assert.deepEqual([readFilter(""), readFilter("  ")], [null, null]);
});

test("what is no filter is told in a sentence", () => {
  const words = "a number of a task, live, zombie, killed, executed, subreaper, or namespace, parent, group, session, control with a number";
  assert.throws(() => readFilter("live dead"), { message: `A filter has no "dead": it takes ${words}.` });
  for (const text of ["control", "control live"]) {
    assert.throws(() => readFilter(text), { message: `A filter has no "control" without a number: it takes ${words}.` });
  }
});

/** A box as an array: its namespace's id, and for each item its root number or the inner box. */
function outline(box) {
  return [box.space.id, ...box.items.map((item) => (item.task ? item.task.root : outline(item)))];
}

test("a box has what the filter lets through, and no inner box without such", () => {
  const root = boxesOf(readList(LIST));
  assert.deepEqual(outline(sift(root, null)), ["0", 1, ["1", 2, ["4", 4], 3], ["8", 5]]);
  assert.deepEqual(outline(sift(root, readFilter("zombie"))), ["0", ["1", ["4", 4], 3]]);
  assert.deepEqual(outline(sift(root, readFilter("killed"))), ["0", ["1", ["4", 4]]]);
  assert.deepEqual(outline(sift(root, readFilter("control 99"))), ["0"]);
});

test("the tasks, the zombies and the namespaces in a box are counted", () => {
  const root = boxesOf(readList(LIST));
  assert.deepEqual(countIn(root), { tasks: 5, ended: 2, spaces: 3 });
  assert.deepEqual(countIn(sift(root, readFilter("killed"))), { tasks: 1, ended: 1, spaces: 2 });
});
