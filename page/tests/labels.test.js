// Labels of tasks: their lines, and where they stand in a list.

import assert from "node:assert/strict";
import { test } from "node:test";

import { labelText, readLabels, withLabels } from "../labels.js";
import { readList } from "../list.js";

const LIST = `task 1 space 0 parent 0 group 1 session 1 control 0 live
task 2,1 space 1 parent 1 group 1 session 1 control 0 live
space 0 parent - cursor 3
space 1 parent 0 cursor 2
control 0 parent - limit max count 2
`;

test("a line is a root number and its label, and the last one holds", () => {
  const labels = readLabels("# Who is who.\n6 mail\n\n  1\tinit   of all \n99 nobody\n6 web");
  assert.deepEqual([...labels], [[6, "web"], [1, "init of all"], [99, "nobody"]]);
  assert.equal(readLabels("").size, 0);
});

test("a line that is none is named", () => {
  for (const line of ["web 1", "1", "01 web", "-1 web", "0 web", "2,1 web"])
    assert.throws(() => readLabels(`2 mail\n${line}`), { message: "Line 2 of the labels is no root number with its label." }, line);
});

test("the tasks of a list have their labels, and nobody else has", () => {
  const bare = readList(LIST);
  const named = withLabels(bare, readLabels("2 a <b> $& web\n9 nobody"));
  assert.deepEqual(named.tasks.map((task) => task.label), [undefined, "a <b> $& web"]);
  assert.deepEqual(bare.tasks.map((task) => task.label), [undefined, undefined]);
  assert.equal(withLabels(bare, new Map()), bare);
  const [first, second, ...others] = LIST.split("\n");
  assert.equal(labelText(LIST, named), [first, `${second} (a <b> $& web)`, ...others].join("\n"));
  assert.equal(labelText(LIST, bare), LIST);
});
