// What the methods take besides, and what they tell as values. What each call answers is in interface/cases.

import assert from "node:assert/strict";
import { test } from "node:test";

import { pidtab, skip } from "./package.js";

const { Table } = pidtab;

/** A test with a table of its own. */
function tested(name, use, options) {
  test(name, { skip }, () => use(new Table(options)));
}

tested("what is left out", (table) => {
  table.fork(1);
  table.setpgid(2);
  assert.deepEqual([table.getpgid(2), table.getsid(2), table.next(1), table.count(), table.mk()], [2, 1, 1, 2, 7n]);
  table.limit(7n);
  table.exit(2);
  assert.deepEqual(table.wait(1, {}), { child: 2, status: 0, killed: false });
  assert.throws(() => table.wait(1, { pid: 2, own: true }), TypeError);
});

tested("a refusal says the call and why", (table) => {
  assert.throws(() => table.getpid(99), { name: "Refusal", message: "getpid 99: ESRCH no-caller", errno: 3 });
  assert.throws(() => table.line("setpgid 1 5 -1"), { message: "setpgid 1 5 -1: EINVAL bad-group", code: "EINVAL" });
});

tested("raw lines", (table) => {
  assert.equal(table.line("fork 1 new"), "child 2 root 2");
  assert.deepEqual(table.answers(["getpid 2", "getpid 9", "fork", "x".repeat(1000), "é".repeat(104)]), [
    "1",
    "ESRCH no-caller",
    ...Array(3).fill("bad line"),
  ]);
  assert.throws(() => table.line("fork 01"), { name: "BadLine", code: "EPROTO", message: "bad line: fork 01" });
});

tested("what a call would answer", (table) => {
  table.fork(1, { newSpace: true });
  table.exit(2, 9);
  const before = table.dump();
  const { would } = table;
  assert.deepEqual([would.fork(1), would.fork(1, { newSpace: true }), would.mk()], [{ child: 3, root: 3 }, { child: 3, root: 3 }, 3n]);
  assert.deepEqual([would.wait(1), would.wait(1)], Array(2).fill({ child: 2, status: 9, killed: false }));
  assert.throws(() => would.exit(1), { code: "EBUSY", word: "root-init" });
  assert.deepEqual([would.line, would.list, table.dump()], [undefined, undefined, before]);
});

const ended = (number, status) => ({ what: "ended", number, status, killed: status === null });
const adopted = (number, parent) => ({ what: "adopted", number, parent });
const gone = (number) => ({ what: "gone", number });
const groupGone = (number) => ({ what: "group-gone", number });
const sessionGone = (number) => ({ what: "session-gone", number });
const spaceFell = (id) => ({ what: "space-fell", id });
const spaceGone = (id) => ({ what: "space-gone", id });

// 2 is the init of the namespace 1, in which are its child 3 and the children 4 and 5 of that. 5 is the init of 4 within.
tested("what calls do to tasks", (table) => {
  table.answers(["fork 1 new", "fork 2", "fork 3", "fork 3 new"]);
  const { told } = table;
  assert.deepEqual(told.exit(4, 255), { answer: undefined, effects: [ended(4, 255)] });
  assert.deepEqual(told.exit(3), { answer: undefined, effects: [ended(3, 0), adopted(4, 2), adopted(5, 2)] });
  const fallen = [spaceFell(1n), spaceFell(4n), spaceGone(4n)];
  assert.deepEqual(told.exit(2, 9).effects, [ended(2, 9), gone(3), gone(4), ended(5, null), gone(5), ...fallen]);
  assert.deepEqual(told.wait(1, { pid: 2 }), { answer: { child: 2, status: 9, killed: false }, effects: [gone(2), spaceGone(1n)] });
  assert.throws(() => told.exit(1), { code: "EBUSY", word: "root-init", message: "exit 1 0: EBUSY root-init" });
  assert.throws(() => told.wait(1), { code: "ECHILD" });
  assert.deepEqual(told.fork(1, { newSpace: true }), { answer: { child: 6, root: 6 }, effects: [] });
  assert.deepEqual(told.fork(6), { answer: { child: 2, root: 7 }, effects: [] });
  assert.deepEqual([told.setpgid(6), told.setsid(7), told.mk(), told.next(1, "task", 2)].map(({ answer }) => answer), [undefined, 2, 15n, 6]);
  assert.deepEqual([told.line, told.list, table.mk()], [undefined, undefined, 17n]);
});

// 2 leads a session, of which are its children 3 and 4, and 4 leads a group. A zombie is a member until it is reaped.
tested("what calls do to groups and sessions", (table) => {
  table.answers(["fork 1", "setsid 2", "fork 2", "fork 2", "setpgid 2 4 4", "setpgid 2 3 0"]);
  const { told } = table;
  assert.deepEqual(told.setpgid(2, 3, 2).effects, [groupGone(3)]);
  assert.deepEqual(told.exit(2, 1).effects, [ended(2, 1), adopted(3, 1), adopted(4, 1)]);
  assert.deepEqual(told.wait(1).effects, [gone(2)]);
  assert.deepEqual(told.setsid(3), { answer: 3, effects: [groupGone(2)] });
  assert.deepEqual(told.exit(4, 2).effects, [ended(4, 2)]);
  assert.deepEqual(told.wait(1).effects, [gone(4), groupGone(4), sessionGone(2)]);
});

// 3 is the init of the namespace 2, and 2 is in its group, whose number keeps the namespace.
tested("a group that keeps a namespace", (table) => {
  table.answers(["fork 1", "fork 2 new", "setpgid 2 3 0", "setpgid 2 0 3"]);
  const { told } = table;
  assert.deepEqual(told.exit(3).effects, [ended(3, 0), spaceFell(2n)]);
  assert.deepEqual(told.wait(2).effects, [gone(3)]);
  assert.deepEqual(told.setpgid(2, 0, 1).effects, [groupGone(3), spaceGone(2n)]);
});

tested("more effects than there is room for at first", (table) => {
  // Of each task there may be two effects, and one of their group and of their session.
  for (const count of [29, 30, 31, 320]) {
    const parent = table.fork(1).root;
    const children = Array.from({ length: count }, () => table.fork(parent).root);
    assert.deepEqual(table.told.exit(parent, 7).effects, [ended(parent, 7), ...children.map((child) => adopted(child, 1))]);
  }
});

tested("a fork with given numbers", (table) => {
  table.fork(1, { newSpace: true });
  const before = table.dump();
  for (const other of [{ child: 3, root: 3 }, { child: 2, root: 2 }]) assert.equal(table.forkAt(2, other), false);
  assert.equal(table.forkAt(9, { child: 2, root: 3 }), false);
  assert.equal(table.dump(), before);
  assert.equal(table.forkAt(2, table.would.fork(2)), true);
  assert.deepEqual(table.nspid(1, 3), [3, 2]);
  assert.equal(table.forkAt(1, { child: 4, root: 4 }, { newSpace: true }), true);
  assert.deepEqual(table.nspid(1, 4), [4, 1]);
  assert.throws(() => table.forkAt(1, { child: -1, root: 5 }), RangeError);
  assert.throws(() => table.forkAt(1, { child: 5 }), TypeError);
});

tested("children, members of groups and sessions, and tasks of namespaces", (table) => {
  table.fork(1);
  table.fork(1, { newSpace: true });
  table.fork(3);
  table.setsid(2);
  table.fork(2);
  table.exit(5);
  const { ask } = table;
  const children = [ask.children(1), ask.children(1, 1), ask.children(2), ask.children(1, 2), ask.children(1, 3), ask.children(3), ask.children(4), ask.children(1, 9)];
  assert.deepEqual(children, [[2, 3], [2, 3], [5], [5], [4], [2], [], []]);
  // The namespace of 4 sees no number of the group and the session of 1.
  for (const members of [(...given) => ask.groupMembers(...given), (...given) => ask.sessionMembers(...given)]) {
    assert.deepEqual([members(1), members(1, 1), members(2), members(1, 2), members(4), members(4, 1)], [[1, 3, 4], [1, 3, 4], [2, 5], [2, 5], [1, 2], []]);
    assert.deepEqual([members(1, 0, 2), members(1, 1, 4), members(1, 0, 5)], [[3, 4], [4], []]);
    assert.throws(() => members(5), { name: "Refusal", code: "ESRCH", word: "no-caller", id: null });
  }
  assert.deepEqual([ask.namespaceMembers(1), ask.namespaceMembers(1, 2, 4), ask.namespaceOwn(1), ask.namespaceOwn(1, 5, 2)], [[1, 2, 3, 4, 5], [4, 5], [1, 2, 5], [2, 5]]);
  for (const tasks of [(...given) => ask.namespaceMembers(...given), (...given) => ask.namespaceOwn(...given)]) {
    assert.deepEqual([tasks(1, 3), tasks(1, 4, 4), tasks(3), tasks(4, 1), tasks(4, 3)], [[3, 4], [4], [1, 2], [1, 2], []]);
    assert.throws(() => tasks(5), { name: "Refusal", code: "ESRCH", word: "no-caller", id: null });
  }
  assert.throws(() => ask.children(9, 1), { message: "children 9 1: ESRCH no-caller" });
  assert.equal(table.mk(), 7n);
});

tested("more children than there is room for at first", (table) => {
  const before = Array.from({ length: 300 }, () => table.fork(1).root);
  const { ask } = table;
  assert.deepEqual([ask.children(1), ask.children(1, 0, 236), ask.children(1, 0, 239)], [before, before.slice(234), before.slice(237)]);
  assert.deepEqual(ask.groupMembers(1), [1, ...before]);
});

/** Ends tasks, and before each its children. The root init sees all by their root numbers. */
function end(table, tasks) {
  for (const task of tasks) {
    end(table, table.ask.children(1, task));
    if (table.ask.stat(1, task).live) table.exit(task);
  }
}

tested("a process group, and all that come from its members", (table) => {
  table.fork(1);
  table.setpgid(1, 2, 2);
  table.fork(2);
  table.fork(2);
  table.setsid(4);
  table.fork(4);
  table.fork(1);
  end(table, table.ask.groupMembers(1, 2));
  assert.deepEqual([2, 3, 4, 5, 6].map((task) => table.ask.stat(1, task).live), [false, false, false, false, true]);
});

tested("what is directly inside namespaces and control groups", (table) => {
  table.fork(1, { newSpace: true });
  table.fork(2, { newSpace: true });
  table.fork(1, { newSpace: true });
  table.mk();
  table.mk(4n);
  const { ask } = table;
  assert.deepEqual([ask.spacesInside(), ask.spacesInside(1n), ask.spacesInside(0n, 2n), ask.spacesInside(3)], [[1n, 3n], [2n], [3n], []]);
  assert.deepEqual([ask.controlsInside(), ask.controlsInside(4n), ask.controlsInside(5n), ask.controlsInside(0n, 5n)], [[4n], [5n], [], []]);
  assert.throws(() => ask.spacesInside(4n), { name: "RangeError", message: "no namespace has the id 4: it is gone, or there was none" });
  assert.throws(() => ask.controlsInside(1n), { name: "RangeError", message: "no control group has the id 1: it is gone, or there was none" });
  for (const id of ["1", null, {}]) assert.throws(() => ask.spacesInside(id), TypeError);
  assert.throws(() => ask.controlsInside(0n, -1n), RangeError);
  assert.equal(table.mk(), 6n);
});

tested("more control groups inside than there is room for at first", (table) => {
  const made = Array.from({ length: 200 }, () => table.mk());
  assert.deepEqual([table.ask.controlsInside(), table.ask.controlsInside(0n, 150n)], [made, made.slice(149)]);
});

// The control group 2 is in 1. 3 is the init of a namespace, and its child 4 is 2 there. 2 and 4 are in 1, 5 in 2, and 6 is a zombie there.
tested("live tasks of control groups", (table) => {
  table.answers(["mk 0", "mk 1", "fork 1", "fork 1 new", "fork 3", "move 2 1", "move 4 1", "fork 1", "move 5 2", "fork 5", "exit 6 0"]);
  const { ask } = table;
  assert.deepEqual([ask.controlTasks(1), ask.controlTasks(1, 0n), ask.controlTasks(1, 1), ask.controlTasks(1, 2n)], [[1, 3], [1, 3], [2, 4], [5]]);
  assert.deepEqual([ask.controlTasks(1, 1n, 3), ask.controlTasks(1, 1n, 2 ** 32 - 1)], [[4], []]);
  // 3 and 4 see each other alone.
  assert.deepEqual([ask.controlTasks(3), ask.controlTasks(4, 1n), ask.controlTasks(3, 2n)], [[1], [2], []]);
  assert.throws(() => ask.controlTasks(6, 9n), { name: "Refusal", code: "ESRCH", word: "no-caller", id: null, message: "controlTasks 6 9: ESRCH no-caller" });
  // 4 is the id of a namespace.
  for (const id of [4n, 2n ** 64n - 1n]) assert.throws(() => ask.controlTasks(1, id), { name: "Refusal", code: "ENOENT", word: "no-control", id: null });
  for (const given of [["1"], [1, "0"], [1, 0n, "2"], [null]]) assert.throws(() => ask.controlTasks(...given), TypeError);
  for (const given of [[-1], [1, -1n], [1, 2n ** 64n], [1, 0n, 2 ** 32]]) assert.throws(() => ask.controlTasks(...given), RangeError);
  assert.equal(table.mk(), 12n);
});

tested("more live tasks than there is room for at first", (table) => {
  const all = [1, ...Array.from({ length: 300 }, () => table.fork(1).root)];
  assert.deepEqual([table.ask.controlTasks(1), table.ask.controlTasks(1, 0n, 237)], [all, all.slice(236)]);
});

/** The namespaces that a task is in, from its own outwards. */
function spacesOf({ ask }, task) {
  const spaces = [];
  for (let id = ask.stat(1, task).space; id !== null; id = spaces.at(-1).parent) spaces.push(ask.space(id));
  return spaces;
}

tested("namespaces, from one outwards", (table) => {
  // 2 is the init of a namespace, and 3 that of one within it, which ends.
  table.fork(1, { newSpace: true });
  table.fork(2, { newSpace: true });
  table.exit(3);
  assert.deepEqual(spacesOf(table, 3), [
    { id: 2n, parent: 1n, level: 2, init: 3, fallen: true },
    { id: 1n, parent: 0n, level: 1, init: 2, fallen: false },
    { id: 0n, parent: null, level: 0, init: 1, fallen: false },
  ]);
});

tested("a namespace until it is gone", (table) => {
  const { ask } = table;
  table.fork(1, { newSpace: true });
  table.join(1, 2);
  table.fork(1);
  assert.deepEqual(ask.space(1), { id: 1n, parent: 0n, level: 1, init: 2, fallen: false });
  table.exit(2);
  assert.deepEqual(ask.space(1n), { id: 1n, parent: 0n, level: 1, init: 2, fallen: true });
  table.wait(1, { pid: 2 });
  assert.deepEqual(ask.space(1n), { id: 1n, parent: 0n, level: 1, init: null, fallen: true });
  table.wait(1, { pid: 3 });
  for (const id of [1n, 2, 7n, 2n ** 64n - 1n]) {
    assert.throws(() => ask.space(id), { name: "RangeError", message: `no namespace has the id ${id}: it is gone, or there was none` });
  }
  // No read was a call.
  assert.equal(table.mk(), 7n);
});

tested("a task, read at once", (table) => {
  table.fork(1, { newSpace: true });
  const { ask } = table;
  const still = { status: null, killed: false, executed: false, subreaper: false };
  assert.deepEqual(ask.stat(1, 2), { numbers: [2, 1], root: 2, parent: 1, group: 1, session: 1, space: 1n, control: 0n, live: true, ...still });
  assert.deepEqual(ask.stat(2), { numbers: [1], root: 2, parent: 0, group: 0, session: 0, space: 1n, control: 0n, live: true, ...still });
  table.exit(2, 9);
  assert.deepEqual([ask.stat(1, 2).live, ask.stat(1, 2).status], [false, 9]);
  assert.throws(() => ask.stat(1, 5), { name: "Refusal", code: "ESRCH", word: "no-task", id: null });
});

tested("the list as values", (table) => {
  const group = table.mk();
  table.limit(group, 5);
  table.fork(1, { newSpace: true });
  table.move(2, group);
  table.join(1, 2);
  table.exit(2, 4);
  const { tasks, spaces, controls } = table.list();
  assert.deepEqual(tasks.map(({ numbers, live, status, children }) => [numbers, live, status, children]), [
    [[1], true, null, 3n],
    [[2, 1], false, 4, null],
  ]);
  assert.deepEqual(spaces, [
    { id: 0n, parent: null, cursor: 3, fallen: false },
    { id: 3n, parent: 0n, cursor: 2, fallen: true },
  ]);
  assert.deepEqual(controls, [
    { id: 0n, parent: null, limit: null, count: 2 },
    { id: group, parent: 0n, limit: 5, count: 1 },
  ]);
});
