// Scripts over a table that only notes what it is asked.

import assert from "node:assert/strict";
import { test } from "node:test";

import { KEPT_EVERY, kindOf, lineAt, linesOf, MOST_KEPT, MOST_LINES, NEAR, Player } from "../play.js";

/** A table whose answers and lists tell of all lines since it was opened; it notes what it is asked. */
function noting(bytesOf = () => 1) {
  const asked = [];
  let made = [];
  const note = (word, answer) => {
    asked.push(word);
    return answer;
  };
  return {
    asked,
    save: () => ({ made: [...made], byteLength: bytesOf(made.length) }),
    restore: (state) => note("restore", void (made = [...state.made])),
    open: (pidMax) => note(`open ${pidMax}`, void (made = [pidMax])),
    answerTo: (text) => note(text, `answer ${made.push(text) - 1}`),
    listText: () => note("list", `list of ${made.join(" ")}`),
  };
}

/** A player over such a table. */
function playerOf(table) {
  return new Player((pidMax) => {
    table.open(pidMax);
    return table;
  });
}

/** As many lines, which all differ. */
function manyLines(count) {
  return Array.from({ length: count }, (_, at) => `line ${at}`);
}

test("lines end at newlines", () => {
  assert.deepEqual(linesOf(""), []);
  assert.deepEqual(linesOf("a\n\nb\n"), ["a", "", "b"]);
  assert.deepEqual(linesOf("a\nb"), ["a", "b"]);
  assert.deepEqual(linesOf("\n"), [""]);
});

test("each line is asked once, of a table with the bound", () => {
  const table = noting();
  assert.deepEqual(playerOf(table).play(301, ["fork 1", "exit 2 0"]), ["answer 1", "answer 2"]);
  assert.deepEqual(table.asked, ["open 301", "fork 1", "exit 2 0"]);
});

test("the list before a line and after it", () => {
  const player = playerOf(noting());
  player.play(400, ["a", "b", "c"]);
  assert.deepEqual(player.listsAround(2), { before: "list of 400 a", after: "list of 400 a b" });
  assert.deepEqual(player.listsAround(3), { before: "list of 400 a b", after: "list of 400 a b c" });
});

test("before the first line there is one list, and no earlier one", () => {
  const player = playerOf(noting());
  player.play(400, ["a"]);
  assert.deepEqual(player.listsAround(0), { before: null, after: "list of 400" });
});

test("another bound is another table", () => {
  const player = playerOf(noting());
  player.play(400, ["a"]);
  player.play(500, ["a"]);
  assert.equal(player.listsAround(1).after, "list of 500 a");
});

test("a script that was changed is played from the change on", () => {
  const player = playerOf(noting());
  for (const lines of [["a", "b", "c"], ["a", "x", "c"], ["a", "x"], [], ["b"], manyLines(350), [...manyLines(210), "y"], manyLines(300)]) {
    assert.deepEqual(player.play(400, lines), lines.map((_, at) => `answer ${at + 1}`));
    for (const place of [lines.length, 0, Math.floor(lines.length / 2)]) {
      assert.equal(player.listsAround(place).after, ["list of 400", ...lines.slice(0, place)].join(" "));
    }
  }
});

test("no step of a long script plays more than the lines behind a kept state, nor does a key at its end", () => {
  const table = noting();
  const player = playerOf(table);
  const lines = manyLines(MOST_LINES);
  player.play(400, lines);
  const asks = (work) => {
    table.asked.length = 0;
    work();
    return table.asked.filter((word) => word.startsWith("line ")).length;
  };
  for (const place of [MOST_LINES, MOST_LINES - 1, MOST_LINES - 2, 2550, 2549, 100, 99, 4999]) {
    assert.ok(asks(() => player.listsAround(place)) <= KEPT_EVERY, String(place));
  }
  assert.ok(asks(() => player.play(400, [...lines.slice(0, -1), "line x"])) <= KEPT_EVERY);
});

/** The places of the kept states in their order, and their bytes together without the first. */
function keptOf(player) {
  const places = [...player.states.keys()].sort((one, other) => one - other);
  return [places, places.slice(1).reduce((sum, place) => sum + player.states.get(place).byteLength, 0)];
}

test("states of many bytes are thinned out evenly, and one is kept near the place", () => {
  // 1 MiB at first, and 12 MiB at 23,000 lines.
  const table = noting((lines) => 2 ** 20 + lines * 500);
  const player = playerOf(table);
  player.play(400, manyLines(23000));
  const [places, bytes] = keptOf(player);
  // So many of 6 MiB on average have room; every 800th line gives 28 states, and every 400th would give 57.
  assert.deepEqual(places, Array.from({ length: 29 }, (_, at) => at * 800));
  assert.ok(bytes <= MOST_KEPT);
  const asks = (place) => {
    table.asked.length = 0;
    assert.equal(player.listsAround(place).after, `list of 400 ${manyLines(place).join(" ")}`);
    return table.asked.filter((word) => word.startsWith("line ")).length;
  };
  const far = [];
  for (let place = 22999; place > 22799; place--) if (asks(place) > NEAR + 1) far.push(place);
  assert.ok(far.length <= 200 / NEAR, `${far}`);
  for (const place of [11000, 3, 22000, 799, 800, 801]) assert.ok(asks(place) <= 800, String(place));
});

test("a key at the end of a long script plays few lines", () => {
  const table = noting(() => 2 ** 24);
  const player = playerOf(table);
  const lines = manyLines(23000);
  player.play(400, lines);
  for (const key of ["x", "xy", "xyz"]) {
    table.asked.length = 0;
    player.play(400, [...lines.slice(0, -1), key]);
    assert.ok(table.asked.length <= NEAR + 2, String(table.asked.length));
  }
  // From a change on, the states after it are those of other lines.
  player.play(400, ["y", ...lines]);
  assert.equal(player.listsAround(23001).after, `list of 400 y ${lines.join(" ")}`);
});

test("a state that is too large is not kept, and the first one stays", () => {
  const player = playerOf(noting(() => MOST_KEPT + 1));
  player.play(400, manyLines(1000));
  assert.deepEqual(keptOf(player)[0], [0]);
  assert.equal(player.listsAround(999).after, `list of 400 ${manyLines(999).join(" ")}`);
});

test("where the table stops, the next look begins at a kept state", () => {
  const table = noting();
  const player = playerOf(table);
  player.play(400, ["a", "b"]);
  const { answerTo } = table;
  table.answerTo = () => {
    answerTo("half");
    throw new Error("stopped");
  };
  assert.throws(() => player.play(400, ["a", "b", "c"]), { message: "stopped" });
  table.answerTo = answerTo;
  assert.equal(player.listsAround(2).after, "list of 400 a b");
});

test("the line of a place in a text", () => {
  assert.deepEqual([0, 2, 3, 4, 5].map((place) => lineAt("ab\n\nc", place)), [1, 1, 2, 3, 3]);
});

test("kinds of answers", () => {
  const kinds = {
    "": "none",
    "bad line": "bad",
    "no memory": "bad",
    spent: "bad",
    "ESRCH no-caller": "refused",
    "EAGAIN pids-limit 4": "refused",
    end: "told",
    "child 2 root 2": "told",
    "3 2": "told",
  };
  for (const [answer, kind] of Object.entries(kinds)) assert.equal(kindOf(answer), kind, answer);
});
