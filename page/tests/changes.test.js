// What a call has changed, by the steps of the example `recovery`.

import assert from "node:assert/strict";
import { test } from "node:test";

import { changesBetween, sayChanges } from "../changes.js";
import { readList } from "../list.js";

const ROOT = "task 1 space 0 parent 0 group 1 session 1 control 0 live\n";
const LIVE = "task 4,3 space 3 parent 3 group 3 session 3 control 1 live\n";
const ZOMBIE = "task 4,3 space 3 parent 3 group 3 session 3 control 1 exit 6\n";
const SPACES = "space 0 parent - cursor 5\nspace 3 parent 0 cursor 4\n";
const CONTROLS = "control 0 parent - limit max count 2\n";

function changes(before, after) {
  return changesBetween(before && readList(before), readList(after));
}

test("an exit changes one task", () => {
  const found = changes(ROOT + LIVE + SPACES + CONTROLS, ROOT + ZOMBIE + SPACES + CONTROLS);
  assert.deepEqual([...found.marks.tasks], [["1", ""], ["4", "changed"]]);
  assert.deepEqual([...found.marks.spaces], [["0", ""], ["3", ""]]);
  assert.equal(sayChanges(found), "changed: task 4");
});

test("a wait takes a task away", () => {
  const counted = CONTROLS.replace("count 2", "count 1");
  const found = changes(ROOT + ZOMBIE + SPACES + CONTROLS, ROOT + SPACES + counted);
  assert.deepEqual(found.gone.tasks.map(({ root }) => root), [4]);
  assert.equal(sayChanges(found), "changed: control group 0; gone: task 4");
});

test("a fork into a new namespace makes two things", () => {
  const before = `${ROOT}space 0 parent - cursor 2\n${CONTROLS}`;
  const init = "task 2,1 space 3 parent 1 group 1 session 1 control 0 live\n";
  const after = `${ROOT}${init}space 0 parent - cursor 3\nspace 3 parent 0 cursor 2\n${CONTROLS}`;
  assert.equal(sayChanges(changes(before, after)), "new: task 2, namespace 3; changed: namespace 0");
});

test("a query changes nothing, and before the first line there is nothing to compare", () => {
  const text = ROOT + SPACES + CONTROLS;
  assert.equal(sayChanges(changes(text, text)), "nothing changed");
  assert.equal(sayChanges(changes(null, text)), "nothing changed");
});
