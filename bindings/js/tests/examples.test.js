// The examples and the stored scripts by the package, and what its page says.

import assert from "node:assert/strict";
import { spawnSync } from "node:child_process";
import { readdirSync, readFileSync } from "node:fs";
import { test } from "node:test";
import { fileURLToPath } from "node:url";

import { examples, storedScripts } from "../../../page/tests/stored.js";
import { pidtab, skip } from "./package.js";

const { Table } = pidtab;
const PACKAGE = new URL("../../../out/js/", import.meta.url);
const ENTRY = new URL("pidtab.js", PACKAGE).href;
const EXAMPLES = new URL("../examples/", import.meta.url);

test("the examples and the stored scripts, with a dump and a load in the middle", { skip }, () => {
  const scripts = [...examples(), ...storedScripts()];
  assert.ok(scripts.length > 40);
  for (const { name, pidMax, lines, answers, list } of scripts) {
    const asked = lines.filter((line) => line !== "");
    const half = asked.length >> 1;
    const table = new Table({ pidMax });
    const told = table.answers(asked.slice(0, half));
    const again = Table.load(table.dump());
    assert.deepEqual([...told, ...again.answers(asked.slice(half))], answers, name);
    if (list !== null) assert.equal(again.listText(), list, name);
    checkStack(again, name);
  }
});

/** Sees to it that most of the stack, which begins at the least address, was never written. */
function checkStack(table, name) {
  const unused = new Uint8Array(table._instance.memory.buffer, 0, 2 ** 16);
  assert.ok(unused.every((byte) => byte === 0), name);
}

/** The code of a language in a page. */
function blocks(page, language) {
  return [...page.matchAll(new RegExp(`^\`\`\`${language}\\n([^]*?)^\`\`\``, "gm"))].map(([, text]) => text);
}

test("the examples of the page print what it says", { skip }, () => {
  const page = readFileSync(new URL("../README.md", import.meta.url), "utf8");
  const [codes, printed] = [blocks(page, "js"), blocks(page, "text")];
  assert.ok(codes.length === 2 && printed.length === 2);
  for (const [place, code] of codes.entries()) {
    const run = spawnSync(process.execPath, ["--input-type=module"], { input: code.replace('"pidtab"', JSON.stringify(ENTRY)) });
    assert.equal(String(run.stdout), printed[place], String(run.stderr));
  }
});

/** What an example in a file says at its end that it prints. */
function printedBy(code) {
  const [, shown] = code.split("\n// It prints\n//\n");
  return shown.replace(/^\/\/ {5}/gm, "");
}

test("the examples in files print what they say at their ends", { skip }, () => {
  const names = readdirSync(EXAMPLES).sort();
  assert.deepEqual(names, ["controls", "effects", "end_group", "hang_up", "reach", "reserve", "spaces"].map((name) => `${name}.js`));
  for (const name of names) {
    // In the package, `pidtab` is the package itself.
    const run = spawnSync(process.execPath, [fileURLToPath(new URL(`examples/${name}`, PACKAGE))]);
    assert.equal(String(run.stdout), printedBy(readFileSync(new URL(name, EXAMPLES), "utf8")), name + run.stderr);
  }
});
