// The parser of lists, by the lists of docs/SCRIPT.md and the stored ones.

import assert from "node:assert/strict";
import { test } from "node:test";

import { readList } from "../list.js";
import { storedLists } from "./stored.js";

const ROOT = "task 1 space 0 parent 0 group 1 session 1 control 0 live\n";

test("a task has its numbers, root first", () => {
  const line = "task 3,2 space 1 parent 2 group 1 session 1 control 0 live";
  const [task] = readList(`${line}\n`).tasks;
  assert.deepEqual(task, {
    kind: "task",
    id: "3",
    line,
    numbers: [3, 2],
    root: 3,
    own: 2,
    space: "1",
    parent: 2,
    group: 1,
    session: 1,
    control: "0",
    live: true,
    status: null,
    killed: false,
    executed: false,
    children: null,
    subreaper: false,
  });
});

test("an end and marks", () => {
  const row = "task 4 space 0 parent 2 group 3 session 3 control 1";
  const ends = { live: [true, null], "exit 0": [false, 0], "exit 255": [false, 255], killed: [false, null] };
  for (const [word, [live, status]] of Object.entries(ends)) {
    const [task] = readList(`${row} ${word}\n`).tasks;
    assert.deepEqual([task.live, task.status], [live, status], word);
  }
  const [task] = readList(`${row} killed executed children 9 subreaper\n`).tasks;
  assert.deepEqual([task.executed, task.children, task.subreaper], [true, "9", true]);
});

test("namespaces and control groups", () => {
  const groups = "control 0 parent - limit max count 3\ncontrol 7 parent 0 limit 0 count 2\n";
  const { spaces, controls } = readList(`space 0 parent - cursor 4\nspace 1 parent 0 cursor 3 fallen\n${groups}`);
  assert.deepEqual(
    spaces.map(({ id, parent, cursor, fallen }) => [id, parent, cursor, fallen]),
    [
      ["0", null, 4, false],
      ["1", "0", 3, true],
    ],
  );
  assert.deepEqual(
    controls.map(({ id, parent, limit, count }) => [id, parent, limit, count]),
    [
      ["0", null, null, 3],
      ["7", "0", 0, 2],
    ],
  );
});

test("ids go up to 2^64 - 1", () => {
  const id = "18446744073709551615";
  assert.equal(readList(`control ${id} parent 0 limit max count 0\n`).controls[0].id, id);
});

test("what is no list", () => {
  const faults = {
    "": "line 1: no list",
    [`${ROOT}space 0 parent - cursor 2`]: "line 2: cut off, without a newline",
    [`${ROOT}\n`]: "line 2: not a line of a list",
    "child 2 root 2\n": "line 1: not a line of a list",
    "task 1 space 0 parent 0 group 1 session 1 control 0 live \n": "line 1: not a line of a list",
    "task 1 space 0 parent 0 group 1 session 1 control 0 live subreaper executed\n": "line 1: not a line of a list",
    "task 1, space 0 parent 0 group 1 session 1 control 0 live\n": "line 1: not a line of a list",
    "space 0 parent - cursor max\n": "line 1: not a line of a list",
    "control 0 parent - limit - count 3\n": "line 1: not a line of a list",
  };
  for (const [text, message] of Object.entries(faults)) assert.throws(() => readList(text), { message }, text);
});

test("every line of the stored lists is read", () => {
  const lists = storedLists();
  assert.ok(lists.length > 10);
  for (const text of lists) {
    const { tasks, spaces, controls } = readList(text);
    const lines = [...tasks, ...spaces, ...controls].map(({ line }) => line);
    assert.equal(lines.map((line) => `${line}\n`).join(""), text);
  }
});

test("a line that stays has the same row in the next list, and one that changes another", () => {
  const rest = "space 0 parent - cursor 3\ncontrol 0 parent - limit max count 2\n";
  const child = "task 2 space 0 parent 1 group 1 session 1 control 0";
  const lists = [`${ROOT}${child} live\n${rest}`, `${ROOT}${child} exit 7\n${rest}`, `${ROOT}${rest}`, `${ROOT}${child} exit 7\n${rest}`].map(readList);
  for (const list of lists) assert.equal(list.tasks[0], lists[0].tasks[0]);
  assert.deepEqual(lists.map(({ tasks }) => tasks[1]?.status), [null, 7, undefined, 7]);
  // The list before the last one is known too.
  assert.equal(lists[3].tasks[1], lists[1].tasks[1]);
});
