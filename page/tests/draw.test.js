// Which boxes are drawn open, and how much of them, over elements that only keep what they are given.

import assert from "node:assert/strict";
import { before, test } from "node:test";

import { changesBetween } from "../changes.js";
import { Controls, MOST_ITEMS, MOST_OPEN, Spaces } from "../draw.js";
import { readFilter } from "../filter.js";
import { readList } from "../list.js";
import { listOfContainers } from "./containers.js";
import { Element } from "./fields.js";

before(() => (globalThis.document = { createElement: () => new Element() }));

/** All elements of a class in one. */
function below(element, name) {
  const found = element.children.flatMap((child) => (child instanceof Element ? below(child, name) : []));
  return element.attributes.class?.split(" ").includes(name) ? [element, ...found] : found;
}

function draw(list, filter = "", opened = new Map()) {
  const listing = readList(list);
  const changes = changesBetween(null, listing);
  const spaces = new Spaces(listing, changes, readFilter(filter), opened);
  return { spaces, drawn: spaces.draw(), controls: new Controls(listing, changes) };
}

/** Whether the boxes that were drawn are open. */
function open(drawn) {
  return below(drawn, "space").map((box) => box.attributes.open === "");
}

/** Opens or folds a box, as a press on its head does. */
function press(spaces, box, isOpen) {
  box.open = isOpen;
  spaces.toggle(box);
}

test("few tasks are all shown", () => {
  const { drawn } = draw(listOfContainers(3, 2));
  assert.deepEqual(open(drawn), [true, true, true, true]);
  assert.equal(below(drawn, "task").length, 10);
  assert.equal(below(drawn, "inside").length, 0);
});

test("of many tasks the inner namespaces are folded, and say what is in them", () => {
  const { drawn } = draw(listOfContainers(1000, 20));
  const [outer, ...inner] = open(drawn);
  assert.equal(outer, true);
  assert.deepEqual([inner.length, new Set(inner)], [1000, new Set([false])]);
  assert.equal(below(drawn, "task").length, 1);
  assert.equal(below(drawn, "inside")[0].said, "21 tasks, 1 zombie");
});

test("one that is opened is drawn then, and once", () => {
  const opened = new Map();
  const { spaces, drawn } = draw(listOfContainers(100, 20), "", opened);
  const [, , box] = below(drawn, "space");
  press(spaces, box, true);
  assert.equal(below(box, "task").length, 21);
  press(spaces, box, false);
  press(spaces, box, true);
  assert.equal(below(box, "task").length, 21);
  assert.deepEqual([...opened], [["22", true]]);
});

test("what was opened or folded stays so in the next list", () => {
  const few = open(draw(listOfContainers(3, 2), "", new Map([["4", false]])).drawn);
  assert.deepEqual(few, [true, true, false, true]);
  const many = open(draw(listOfContainers(100, 20), "", new Map([["22", true], ["0", true]])).drawn);
  assert.deepEqual(many.slice(0, 4), [true, false, true, false]);
});

test("one that is folded says what is in it", () => {
  const { spaces, drawn } = draw(listOfContainers(3, 2));
  const [outer, box] = below(drawn, "space");
  press(spaces, box, false);
  assert.deepEqual(below(box, "inside").map((it) => it.said), ["3 tasks, 1 zombie"]);
  press(spaces, outer, false);
  assert.equal(below(outer, "inside").at(0).said, "10 tasks, 3 zombies, 3 namespaces");
});

test("where a filter lets few tasks through, they are all shown", () => {
  const list = listOfContainers(MOST_OPEN, 2);
  assert.equal(below(draw(list, "zombie").drawn, "task").length, MOST_OPEN);
  assert.equal(below(draw(list, "live").drawn, "task").length, 1);
});

test("of many items so many are drawn, and more at each press", () => {
  const all = 2 * MOST_ITEMS + 10;
  const { drawn, spaces, controls } = draw(listOfContainers(all - 1, 0));
  const [, list] = drawn.children;
  const groups = controls.draw();
  const rows = () => [list.children.length, list.lastElementChild.said, groups.children.length, groups.lastElementChild.said];
  const left = `${MOST_ITEMS.toLocaleString("en")} more of 3,010`;
  assert.deepEqual(rows(), [MOST_ITEMS + 1, left, MOST_ITEMS + 1, left]);
  for (const more of [`10 more of 3,010`, null]) {
    spaces.showMore(drawn);
    controls.showMore(groups);
    if (more) assert.deepEqual(rows(), [2 * MOST_ITEMS + 1, more, 2 * MOST_ITEMS + 1, more]);
  }
  assert.deepEqual([list.children.length, groups.children.length], [all, all]);
});

test("of a control group with many tasks the first numbers are told", () => {
  const { controls } = draw(`${listOfContainers(1, 60)}`);
  const numbers = Array.from({ length: 40 }, (_, at) => at + 2).join(" ");
  assert.ok(controls.draw().said.includes(`tasks ${numbers} and 21 more`));
});
