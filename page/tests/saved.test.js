// A saved history as a script, by the example of docs/SAVED.md, and what is wrong with one.

import assert from "node:assert/strict";
import { spawnSync } from "node:child_process";
import { mkdtempSync, readFileSync, rmSync } from "node:fs";
import { tmpdir } from "node:os";
import { join } from "node:path";
import { test } from "node:test";

import { isSaved, readSaved } from "../saved.js";
import { read, REPOSITORY } from "./stored.js";

const HEX = /```hex\n([^`]*)```/.exec(read("docs/SAVED.md"))[1];
const EXAMPLE = Uint8Array.from(HEX.trim().split(/\s+/), (byte) => parseInt(byte, 16));

/** A copy with other bytes at a place. */
function changed(place, ...bytes) {
  const copy = EXAMPLE.slice();
  copy.set(bytes, place);
  return copy;
}

test("the example of the page", () => {
  assert.ok(isSaved(EXAMPLE));
  assert.deepEqual(readSaved(EXAMPLE), {
    pidMax: 32768,
    firstStamp: 1n,
    workers: 2,
    lines: ["fork 1 new", "nspid 1 2", "setpgid 1 0 -1"],
    answers: ["child 2 root 2", "2 1", "EINVAL bad-group"],
    torn: 0,
  });
});

test("what is no saved history", () => {
  assert.ok(!isSaved(new TextEncoder().encode("fork 1\n")));
  assert.ok(!isSaved(EXAMPLE.slice(0, 7)));
  assert.throws(() => readSaved(EXAMPLE.slice(0, 47)), { message: "it ends within its head" });
});

test("a torn end is left out", () => {
  for (const length of [48, 49, 95]) assert.deepEqual([readSaved(EXAMPLE.slice(0, length)).lines, readSaved(EXAMPLE.slice(0, length)).torn], [[], length - 48]);
  assert.equal(readSaved(EXAMPLE.slice(0, 96)).lines.length, 1);
  // A length that came to the disk before the bytes.
  const zeroes = new Uint8Array(EXAMPLE.length + 100);
  zeroes.set(EXAMPLE);
  assert.deepEqual([readSaved(zeroes).lines.length, readSaved(zeroes).torn], [3, 100]);
});

test("a wrong byte, a version and a call that are not known", () => {
  for (let place = 8; place < 48; place++) assert.throws(() => readSaved(changed(place, 200)), { message: "the head has a wrong byte" }, String(place));
  for (const place of [48, 60, 95]) assert.throws(() => readSaved(changed(place, 201)), { message: "call 0 has a wrong byte" }, String(place));
  assert.throws(() => readSaved(changed(EXAMPLE.length - 20, 7)), { message: "call 2 has a wrong byte" });
  // Entries in another order.
  const swapped = EXAMPLE.slice();
  swapped.set(EXAMPLE.subarray(96, 144), 48);
  swapped.set(EXAMPLE.subarray(48, 96), 96);
  assert.throws(() => readSaved(swapped), { message: "call 0 has a wrong byte" });
});

// All forms of the language, on tasks in seven namespaces one in the other, and each kind of an answer.
const CALLS = `fork 1 new,fork 2 new,fork 3 new,fork 4 new,fork 5 new,fork 6 new,nspid 1 7,fork 1,fork 8,getpid 1,getppid 8,getpgid 1 0,getsid 1 8,
exec 9,setpgid 8 0 0,setpgid 1 8 -1,setsid 9,mk 0,mk 19,limit 19 3,limit 20 max,move 8 19,count 0,rm 20,rm 19,next 1 task 2,next 1 group 9,
next 1 session 10,join 8 2,subreaper 1 on,subreaper 1 off,exit 9 255,wait 8 any,wait 1 own,wait 1 pid 8,exit 2 0,wait 1 group 1,wait 1 group 9,exit 1 0,getpid 99`;
const WRITE = `
import json, sys
import pidtab
with pidtab.Table(400, keep=pidtab.ALL, workers=2) as table:
    seats = [table.seat() for _ in range(2)]
    for place, line in enumerate(sys.argv[1].split(",")):
        seats[place % 2].answers([line.strip()])
    table.save(sys.argv[2])
    print(json.dumps([[entry.line, entry.answer] for entry in table.entries()]))
`;

test("a history that the library has written", (context) => {
  const folder = mkdtempSync(join(tmpdir(), "saved-"));
  try {
    const env = { ...process.env, PYTHONPATH: join(REPOSITORY, "bindings/python") };
    const done = spawnSync("python3", ["-B", "-c", WRITE, CALLS, join(folder, "history")], { env, encoding: "utf8" });
    if (done.status !== 0) return context.skip("no library for Python");
    const entries = JSON.parse(done.stdout);
    const saved = readSaved(new Uint8Array(readFileSync(join(folder, "history"))));
    assert.deepEqual(saved.lines, CALLS.split(",").map((line) => line.trim()));
    assert.deepEqual(saved.lines.map((line, place) => [line, saved.answers[place]]), entries);
    assert.deepEqual([saved.pidMax, saved.workers, saved.torn], [400, 2, 0]);
    assert.ok(saved.answers.includes("7 6 5 4 3 2 1"));
  } finally {
    rmSync(folder, { recursive: true });
  }
});
