// Files that are opened, and the list that the text of a table says, by docs/SCRIPT.md.

import assert from "node:assert/strict";
import { test } from "node:test";

import { kindOfText, listOfText } from "../text.js";
import { read, storedLists } from "./stored.js";

/** The example of docs/SCRIPT.md, whose digest stands there. */
function example() {
  const [, indented] = /the text is\n\n((?: {4}.*\n)+)/.exec(read("docs/SCRIPT.md"));
  return indented.replace(/^ {4}/gm, "");
}

// By the calls that stand before the example: a zombie's group is that of a task which was reaped.
const EXAMPLE_LIST = `task 1 space 0 parent 0 group 1 session 1 control 0 live
task 2 space 0 parent 1 group 3 session 1 control 0 live
space 0 parent - cursor 4
space 2 parent 0 cursor 2 fallen
control 0 parent - limit max count 2
`;

// By examples/recovery.text, line by line. A zombie counts until it is reaped.
const RECOVERY_LIST = `task 1 space 0 parent 0 group 1 session 1 control 0 live
task 2,1 space 3 parent 1 group 1 session 1 control 1 live
task 3,2 space 3 parent 2 group 3 session 3 control 1 live
task 4,3 space 3 parent 3 group 3 session 3 control 1 exit 6
space 0 parent - cursor 5
space 3 parent 0 cursor 4
control 0 parent - limit max count 4
control 1 parent 0 limit 3 count 3
`;

test("the kinds of files", () => {
  assert.equal(kindOfText(example()), "text");
  assert.equal(kindOfText(EXAMPLE_LIST), "list");
  for (const script of ["", "fork 1\n", "task\n", "tasks 1\n", "# pidtab table 1\n"]) assert.equal(kindOfText(script), "script", script);
  for (const list of storedLists()) assert.equal(kindOfText(list), "list");
});

test("the list of a text", async () => {
  assert.equal(await listOfText(example()), EXAMPLE_LIST);
  assert.equal(await listOfText(read("examples/recovery.text")), RECOVERY_LIST);
});

/** A text with its digest, which the test has from the browser's own SHA-256. */
async function ended(text) {
  const digest = new Uint8Array(await crypto.subtle.digest("SHA-256", new TextEncoder().encode(text)));
  return `${text}end sha256 ${[...digest].map((byte) => byte.toString(16).padStart(2, "0")).join("")}\n`;
}

test("marks, and a namespace for children that is another", async () => {
  const row = "parent 1@0 group 9@0 session 9@0 control 0 children";
  const text = await ended(
    `pidtab table 1 pid-max 301 stamp 18446744073709551615\ntask 2@0 ${row} 3 live executed subreaper\ntask 5,1@3 ${row} 3 killed\n` +
      "space 0 parent - cursor 300\nspace 3 parent 0 cursor 2\ncontrol 0 parent - limit max\ncontrol 7 parent 0 limit 0\n",
  );
  const facts = "parent 1 group 9 session 9 control 0";
  assert.equal(
    await listOfText(text),
    `task 2 space 0 ${facts} live executed children 3 subreaper\ntask 5,1 space 3 ${facts} killed\n` +
      "space 0 parent - cursor 300\nspace 3 parent 0 cursor 2\n" +
      "control 0 parent - limit max count 2\ncontrol 7 parent 0 limit 0 count 0\n",
  );
});

test("what is no text of a table", async () => {
  const good = read("examples/recovery.text");
  const faults = [
    [good.slice(0, -1), "line 10: cut off, without a newline"],
    [good.replace("table 1", "table 2"), "line 1: not the head of a text of version 1"],
    [good.replace("task 2,1@3", "task 2,1"), "line 3: not a line of a text"],
    [good.replace("exit 6", "exit 7"), "line 10: wrong digest"],
    [good.replace(/end .*\n/, ""), "line 9: no digest"],
    [`${good}space 9 parent 0 cursor 2\n`, "line 10: not a line of a text"],
  ];
  for (const [text, message] of faults) await assert.rejects(listOfText(text), { message }, message);
});

test("each count of a stored list is that of the tasks in the groups below", async () => {
  // A list says less than a text, but its counts are reckoned alike.
  for (const list of storedLists()) {
    const rows = list.split("\n").map((line) => line.split(" "));
    const text = rows
      .filter(([word]) => word === "task" || word === "control")
      .map((words) =>
        words[0] === "task"
          ? `task ${words[1]}@${words[3]} parent - group 1@0 session 1@0 control ${words[11]} children ${words[3]} live`
          : words.slice(0, 6).join(" "),
      );
    const reckoned = await listOfText(await ended(`pidtab table 1 pid-max 301 stamp 1\n${text.map((line) => `${line}\n`).join("")}`));
    const controls = (from) => from.split("\n").filter((line) => line.startsWith("control "));
    assert.deepEqual(controls(reckoned), controls(list));
  }
});
