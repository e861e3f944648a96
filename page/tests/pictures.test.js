// The pictures of docs/pictures, and what tools/pictures finds where they, or the lists that they are made from, are others.

import assert from "node:assert/strict";
import { spawnSync } from "node:child_process";
import { chmodSync, cpSync, mkdtempSync, rmSync, writeFileSync } from "node:fs";
import { tmpdir } from "node:os";
import { join } from "node:path";
import { test } from "node:test";

import { read, REPOSITORY } from "./stored.js";

const PYTHON = spawnSync("python3", ["--version"]).status === 0;
const NEEDED = { skip: !PYTHON && "no python3" };
const NOT_MADE = "not what tools/pictures makes: run it";
const NO_PROGRAM = "/no/such/pidtab";

/** The status of the script in a folder, and what it writes to standard error. */
function check(top, program = NO_PROGRAM) {
  const env = { ...process.env, PIDTAB: program };
  const done = spawnSync(process.execPath, [join(top, "tools/pictures"), "--check"], { env, encoding: "utf8" });
  return [done.status, done.stderr];
}

/** What the script finds in a copy of what it needs, in which something was changed. */
function checkChanged(change) {
  const top = mkdtempSync(join(tmpdir(), "pictures-"));
  try {
    for (const name of ["tools", "page", "examples", "docs/pictures", "bindings/python", "bindings/js"]) {
      cpSync(join(REPOSITORY, name), join(top, name), { recursive: true });
    }
    return check(top, change(top));
  } finally {
    rmSync(top, { recursive: true });
  }
}

test("the stored pictures are those that are made", NEEDED, () => {
  assert.deepEqual(check(REPOSITORY), [0, ""]);
});

test("a picture that differs, one too many and one that is missing", NEEDED, () => {
  const tree = "docs/pictures/container.txt";
  assert.deepEqual(checkChanged((top) => writeFileSync(join(top, tree), "processes\n")), [1, `${tree}: ${NOT_MADE}\n`]);
  const more = "docs/pictures/more.svg";
  assert.deepEqual(checkChanged((top) => writeFileSync(join(top, more), "<svg/>\n")), [1, `${more}: ${NOT_MADE}\n`]);
  const picture = "docs/pictures/container.svg";
  assert.deepEqual(checkChanged((top) => rmSync(join(top, picture))), [1, `${picture}: ${NOT_MADE}\n`]);
});

test("a page that draws otherwise", NEEDED, () => {
  const change = (top) => writeFileSync(join(top, "page/draw.js"), read("page/draw.js").replaceAll("NSpid", "numbers"));
  const found = ["bash", "container"].map((name) => `docs/pictures/${name}.svg: ${NOT_MADE}\n`);
  assert.deepEqual(checkChanged(change), [1, found.join("")]);
});

test("a program that writes another list", NEEDED, () => {
  const [status, said] = checkChanged((top) => {
    const program = join(top, "pidtab");
    writeFileSync(program, "#!/bin/sh\ncat > /dev/null\necho task\n");
    chmodSync(program, 0o755);
    return program;
  });
  assert.equal(status, 1);
  assert.match(said, /^examples\/bash\.list: not what .*pidtab list writes\nexamples\/container\.list: not what .*pidtab list writes\n$/);
});

// By examples/container.list: a line for each namespace, task and control group, in the order of the page.
test("what the picture says", () => {
  const lines = read("docs/pictures/container.svg").split("\n").filter((line) => line.includes("<text"));
  const said = lines.map((line) => [...line.matchAll(/<text[^>]*>([^<]*)/g)].map(([, text]) => text).join(" "));
  assert.deepEqual(said, [
    "namespace 0 cursor 4",
    "1 parent none group 1 leader session 1 leader control 0 live",
    "namespace 1 cursor 3",
    "1 NSpid 2 1 parent 1 group 1 session 1 control 0 live",
    "\u2514 2 NSpid 3 2 parent 2 group 1 session 1 control 0 live",
    "Control groups",
    "0 count 3, no limit tasks 1 2 3",
  ]);
});

test("all texts are inside the picture, and no two of a line overlap", () => {
  const svg = read("docs/pictures/container.svg");
  const width = Number(/^<svg [^>]*width="(\d+)"/.exec(svg)[1]);
  for (const line of svg.split("\n")) {
    const texts = [...line.matchAll(/<text x="([\d.]+)"[^>]*textLength="([\d.]+)"/g)].map((it) => it.slice(1).map(Number));
    const ends = [0, ...texts.map(([x, length]) => x + length)];
    texts.forEach(([x], place) => assert.ok(x >= ends[place], line));
    assert.ok(ends.at(-1) < width, line);
  }
});
