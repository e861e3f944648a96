// A script in the address.

import assert from "node:assert/strict";
import { test } from "node:test";

import { hashOf, scriptOf } from "../link.js";

test("a script is written as a URL writes text", () => {
  // By RFC 3986: a newline is %0A, a space %20, and a letter beyond ASCII its bytes of UTF-8.
  assert.equal(hashOf("fork 1 new\nmk 0\n"), "#script=fork%201%20new%0Amk%200%0A");
  assert.equal(hashOf("\u00e4#&"), "#script=%C3%A4%23%26");
  assert.equal(scriptOf("#script=fork%201%0Afork%201%20new"), "fork 1\nfork 1 new");
});

test("each script comes back", () => {
  const scripts = ["", "fork 1\n", "100% of # & = + ?\n\n", "\u00e4 \u{1f600}\t", "x".repeat(100000)];
  for (const script of scripts) assert.equal(scriptOf(hashOf(script)), script);
});

test("another address has no script", () => {
  for (const hash of ["", "#", "#scripts", "#list=fork%201", "script=fork"]) assert.equal(scriptOf(hash), null);
});

test("one that is cut or is no text is told in a sentence", () => {
  for (const hash of ["#script=fork%2", "#script=%", "#script=%ff", "#script=%C3"]) {
    assert.throws(() => scriptOf(hash), { message: "The script in the address cannot be read: part of it is missing or is no text." }, hash);
  }
});
