// Where things stand: by lists whose trees are plain, and by all stored ones.

import assert from "node:assert/strict";
import { test } from "node:test";

import { boxesOf, controlTree } from "../layout.js";
import { readList } from "../list.js";
import { storedLists } from "./stored.js";

const CONTROL = "control 0 parent - limit max count 1\n";

function task(numbers, space, parent) {
  return `task ${numbers} space ${space} parent ${parent} group 1 session 1 control 0 live\n`;
}

/** A box as an array: its namespace's id, and for each item "depth: number" or the inner box. */
function outline(box) {
  const items = box.items.map((item) => (item.task ? `${item.depth}: ${item.task.root}` : [item.depth, ...outline(item)]));
  return [box.space.id, ...items];
}

function drawn(text) {
  return outline(boxesOf(readList(text + CONTROL)));
}

test("children stand below their parents, before the next child", () => {
  const tasks = task("1", 0, 0) + task("2", 0, 1) + task("3", 0, 1) + task("4", 0, 2);
  assert.deepEqual(drawn(`${tasks}space 0 parent - cursor 5\n`), ["0", "0: 1", "1: 2", "2: 4", "1: 3"]);
});

test("a namespace stands below its init's parent", () => {
  const tasks = task("1", 0, 0) + task("2,1", 1, 1) + task("3,2", 1, 2) + task("4", 0, 1);
  const text = `${tasks}space 0 parent - cursor 5\nspace 1 parent 0 cursor 3\n`;
  assert.deepEqual(drawn(text), ["0", "0: 1", [1, "1", "0: 2", "1: 3"], "1: 4"]);
});

test("a namespace in a namespace", () => {
  const tasks = task("1", 0, 0) + task("2,1", 1, 1) + task("3,2", 1, 2) + task("4,3,1", 3, 3);
  const text = `${tasks}space 0 parent - cursor 5\nspace 1 parent 0 cursor 4\nspace 3 parent 1 cursor 2\n`;
  assert.deepEqual(drawn(text), ["0", "0: 1", [1, "1", "0: 2", "1: 3", [2, "3", "0: 4"]]]);
});

// After `fork 1`, `fork 2 new`, `fork 3`, `join 2 3`, `fork 2`: the last one's parent is outside.
test("who came from outside stands beside the init", () => {
  const tasks = task("1", 0, 0) + task("2", 0, 1) + task("3,1", 2, 2) + task("4,2", 2, 3) + task("5,3", 2, 2);
  const text = `${tasks}space 0 parent - cursor 6\nspace 2 parent 0 cursor 4\n`;
  assert.deepEqual(drawn(text), ["0", "0: 1", "1: 2", [2, "2", "0: 3", "1: 4", "0: 5"]]);
});

// As after the fall of a namespace whose init's number is still a group's.
test("a namespace without an init stands last", () => {
  const text = `${task("1", 0, 0)}${task("2", 0, 1)}space 0 parent - cursor 4\nspace 2 parent 0 cursor 2 fallen\n`;
  assert.deepEqual(drawn(text), ["0", "0: 1", "1: 2", [0, "2"]]);
});

test("a namespace whose init's parent is not in the one around it stands last", () => {
  const tasks = task("1", 0, 0) + task("2,1", 1, 1) + task("3,1", 2, 2);
  const text = `${tasks}space 0 parent - cursor 4\nspace 1 parent 0 cursor 2\nspace 2 parent 0 cursor 2\n`;
  assert.deepEqual(drawn(text), ["0", "0: 1", [1, "1", "0: 2"], [0, "2", "0: 3"]]);
});

test("a long chain of parents", () => {
  const most = 20000;
  const tasks = Array.from({ length: most }, (_, at) => task(String(at + 1), 0, at)).join("");
  const items = boxesOf(readList(`${tasks}space 0 parent - cursor 2\n${CONTROL}`)).items;
  assert.equal(items.length, most);
  assert.deepEqual([items.at(-1).task.root, items.at(-1).depth], [most, most - 1]);
});

function everyTask(box) {
  return box.items.flatMap((item) => (item.task ? [item.task.root] : everyTask(item)));
}

function everySpace(box) {
  return [box.space.id, ...box.items.flatMap((item) => (item.task ? [] : everySpace(item)))];
}

test("in the stored lists each task and each namespace stands once", () => {
  const inOrder = (ids) => [...ids].map(Number).sort((one, other) => one - other);
  for (const text of storedLists()) {
    const listing = readList(text);
    const box = boxesOf(listing);
    assert.deepEqual(inOrder(everyTask(box)), inOrder(listing.tasks.map(({ root }) => root)));
    assert.deepEqual(inOrder(everySpace(box)), inOrder(listing.spaces.map(({ id }) => id)));
  }
});

test("control groups as a tree, with the tasks in each", () => {
  const rows = [
    "task 1 space 0 parent 0 group 1 session 1 control 13 live",
    "task 2 space 0 parent 1 group 1 session 1 control 1 live",
    "space 0 parent - cursor 3",
    "control 0 parent - limit max count 2",
    "control 1 parent 0 limit 1 count 2",
    "control 8 parent 0 limit max count 0",
    "control 13 parent 1 limit max count 1",
  ];
  const tree = controlTree(readList(rows.map((row) => `${row}\n`).join("")));
  const told = tree.map(({ control, depth, tasks }) => [control.id, depth, tasks.map(({ root }) => root)]);
  assert.deepEqual(told, [["0", 0, []], ["1", 1, [2]], ["13", 2, [1]], ["8", 1, []]]);
});
