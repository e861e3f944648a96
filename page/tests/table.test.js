// The table of the page, by the built module: what the stored scripts answer, and a state that is had again.

import assert from "node:assert/strict";
import { readFileSync } from "node:fs";
import { test } from "node:test";

import { useModule } from "../../bindings/js/src/instance.js";
import { skip } from "../../bindings/js/tests/package.js";
import { KEPT_EVERY, Player } from "../play.js";
import { PlayedTable } from "../table.js";
import { examples, REPOSITORY, storedScripts } from "./stored.js";

if (!skip) useModule(new WebAssembly.Module(readFileSync(`${REPOSITORY}out/js/pidtab.wasm`)));

const newPlayer = () => new Player((pidMax) => new PlayedTable({ pidMax }));

test("the stored scripts", { skip }, () => {
  const player = newPlayer();
  const scripts = [...examples(), ...storedScripts()];
  assert.ok(scripts.length > 40);
  for (const { name, pidMax, lines, answers, list } of scripts) {
    const told = player.play(pidMax, lines).filter((answer) => answer !== "");
    assert.deepEqual(told, answers, name);
    if (list !== null) assert.equal(player.listsAround(lines.length).after, list, name);
  }
});

test("a step back is the table that it was", { skip }, () => {
  const lines = Array.from({ length: 3 * KEPT_EVERY }, () => "fork 1");
  const player = newPlayer();
  player.play(32768, lines);
  const places = [3 * KEPT_EVERY, 250, 100, 99, 1, 0, 201, 200, 300];
  const stepped = places.map((place) => player.listsAround(place).after);
  const alone = places.map((place) => {
    const other = newPlayer();
    other.play(32768, lines.slice(0, place));
    return other.listsAround(place).after;
  });
  assert.deepEqual(stepped, alone);
});

test("a state is had again where the memory has grown since", { skip }, () => {
  const table = new PlayedTable();
  table.fork(1);
  const [state, text] = [table.save(), table.dump()];
  const size = state.byteLength;
  let forks = 0;
  for (; table.save().byteLength === size; forks++) table.fork(1);
  const grown = table.dump();
  table.restore(state);
  assert.equal(table.dump(), text);
  for (let made = 0; made < forks; made++) table.fork(1);
  assert.equal(table.dump(), grown);
});

test("lines that are none", { skip }, () => {
  const lines = ["", "fork", "fork 01", "fork 4294967296", "exit 2 256", "a".repeat(201), "fork 1\r", "fo\0rk 1", "fork 1"];
  assert.deepEqual(newPlayer().play(32768, lines), ["", ...Array(7).fill("bad line"), "child 2 root 2"]);
});
