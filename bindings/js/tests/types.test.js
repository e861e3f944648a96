// The types, by the compiler of TypeScript: types.ts compiles, and each of its lines that is wrong is found.

import assert from "node:assert/strict";
import { spawnSync } from "node:child_process";
import { test } from "node:test";
import { fileURLToPath } from "node:url";

import * as pidtab from "./package.js";
import { read } from "../../../page/tests/stored.js";

const TYPES = fileURLToPath(new URL("types.ts", import.meta.url));
const WORDS = ["--noEmit", "--strict", "--target", "es2020", "--module", "es2020", "--moduleResolution", "node"];
const compiler = spawnSync("tsc", ["--version"]);

test("types.ts compiles", { skip: compiler.status !== 0 && "no tsc" }, () => {
  const done = spawnSync("tsc", [...WORDS, TYPES]);
  assert.equal(done.status, 0, String(done.stdout));
});

test("the types name what the package exports", { skip: pidtab.skip }, () => {
  const typed = [...read("bindings/js/pidtab.d.ts").matchAll(/^export (?:class|const|function) (\w+)/gm)].map(([, name]) => name);
  assert.deepEqual(typed.sort(), Object.keys(pidtab.pidtab).sort());
});

test("the types name the methods that there are", { skip: pidtab.skip }, () => {
  const { Table } = pidtab.pidtab;
  const methods = (kind) => kind && kind !== Object.prototype ? [...Object.getOwnPropertyNames(kind), ...methods(Object.getPrototypeOf(kind))] : [];
  const typed = new Set([...read("bindings/js/pidtab.d.ts").matchAll(/^  (?:static )?(\w+)\(/gm)].map(([, name]) => name));
  const found = [Table.prototype, new Table().ask, Table.load(new Table().dump()).seat()].flatMap(methods);
  const named = found.filter((name) => !name.startsWith("_"));
  for (const name of named.filter((it) => typeof Table.prototype[it] === "function")) assert.ok(typed.has(name), name);
});
