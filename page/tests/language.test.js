// Why a line is bad: the same as `pidtab-check` says.

import assert from "node:assert/strict";
import { spawnSync } from "node:child_process";
import { test } from "node:test";

import { judge, whyBad } from "../language.js";
import { examples, REPOSITORY, storedScripts } from "./stored.js";

const PYTHON = spawnSync("python3", ["--version"]).status === 0;

/** Lines of all faults, as the tests of pidtab-check have them. */
const BAD = [
  "fork 1\r", "\r", "fork 1 new\r", "FORK 1\r", "fork 1  new", "fork  1", "fork 1 ", " fork 1", " ", "fork\t1", "fork 1\tnew", "fork 01",
  "setpgid 1 -0 1", "fork +1", "exit 2 256", "fork 4294967296", "mk 18446744073709551616", "setpgid 1 2 -2147483649", "limit 1 4294967296",
  "frok 1", "Wait 1 any", "subreap 1 on", "42", "# container", "fork 1 # a child", "fork", "fork 1 old", "fork 1 new 2", "wait 1", "wait 1 pid",
  "subreaper 1 yes", "getpid 1 2", "fork 1\0", "fork \u00e4", "\u00e4 1", "x".repeat(201), "x".repeat(200), `fork 1${" ".repeat(194)}\r`,
  "9".repeat(150), "getpids 1", "getgid 1", "set 1", "getp 1", "gets 1", "ex 1", "exi 1", "mkdir 1", "m 1", "kill 2", "ps", "help", "quit",
];

/** Lines made by chance of the words of the language and of some that are none. */
function randomLines(count) {
  const commands = "fork exec exit wait setpgid setsid getpid getppid next join subreaper mk rm limit move count";
  const words = `${commands} any pid own new task on max 0 1 7 -1 01 +1 256 \u00e9 FORK # x`.split(" ");
  let seed = 7;
  const chance = (bound) => (seed = (seed * 48271) % 2147483647) % bound;
  const cut = (word) => word.slice(0, chance(word.length + 1)) + ["", " ", "\t", "s", "e", "\r"][chance(6)] + word.slice(chance(word.length + 1));
  const edit = (word) => (chance(4) > 0 ? word : cut(word));
  const line = () => Array.from({ length: 1 + chance(4) }, () => edit(words[chance(words.length)])).join(" ");
  return Array.from({ length: count }, line);
}

/** What pidtab-check says of the lines, by their places. */
function checked(lines) {
  const done = spawnSync("python3", ["-B", `${REPOSITORY}bindings/python/bin/pidtab-check`], { input: lines.map((line) => `${line}\n`).join("") });
  assert.ok(done.status === 0 || done.status === 1, String(done.stderr));
  const said = String(done.stdout).split("\n").slice(0, -1);
  const parts = said.map((text) => /^-:(\d+):(\d+): expected (.*)$/.exec(text));
  return new Map(parts.map(([, place, column, expected]) => [place - 1, { column: Number(column), expected }]));
}

test("each bad line has the reason that pidtab-check gives", { skip: !PYTHON && "no python3" }, () => {
  const lines = [...BAD, ...randomLines(3000), ...examples().flatMap((example) => example.lines)];
  const said = checked(lines);
  const good = lines.filter((_, place) => !said.has(place)).length;
  assert.ok(good > 100 && said.size > 1000, `${good} ${said.size}`);
  lines.forEach((line, place) => assert.deepEqual([line, judge(line)], [line, said.get(place) ?? null]));
});

test("what is said", () => {
  assert.equal(whyBad("fork 1\r"), "column 7: expected a newline alone, without a carriage return");
  assert.equal(whyBad("frok 1"), "column 1: expected a command: the nearest is `fork`");
  assert.equal(whyBad("exit 2 256"), "column 8: expected a status, 0 to 255");
  assert.equal(whyBad("fork 1 # a child"), "column 8: expected the end of the line or `new`");
  assert.equal(whyBad("# container"), "column 1: expected a command: there are no comments");
  assert.equal(whyBad(""), "");
});

test("the lines of the stored run are bad where they are answered so", () => {
  let judged = 0;
  for (const { lines, answers } of [...examples(), ...storedScripts()]) {
    // These are read as bytes, of which a line of ASCII has one for each character.
    const asked = lines.filter((line) => line !== "");
    asked.forEach((line, at) => /^[\0-\x7f]*$/.test(line) && assert.equal(judge(line) !== null, answers[at] === "bad line", line));
    judged += asked.length;
  }
  assert.ok(judged > 5000, String(judged));
});
