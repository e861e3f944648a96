// The heap of the module.

import assert from "node:assert/strict";
import { test } from "node:test";

import { pidtab, skip } from "./package.js";

test("blocks lie apart, at addresses that 16 divides", { skip }, () => {
  const { exports, memory } = new pidtab.Table()._instance;
  const held = new Map();
  let seed = 1;
  const random = (bound) => (seed = (seed * 48271) % 2147483647) % bound;
  const bytes = (at, size) => new Uint8Array(memory.buffer, at, size);
  for (let step = 0; step < 5000; step++) {
    const size = random(10) === 0 ? random(100000) : random(300);
    const at = exports.take(size);
    assert.equal(at % 16, 0);
    bytes(at, size).fill(step % 251);
    held.set(at, { size, value: step % 251 });
    const [some, { size: length, value }] = [...held][random(held.size)];
    assert.ok(bytes(some, length).every((byte) => byte === value), `step ${step}`);
    if (random(2) === 0) exports.give(some), held.delete(some);
  }
});
