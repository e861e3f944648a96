// The drawing of a list: nested boxes of namespaces with their tasks, and the tree of control groups.

import { countIn, sift } from "./filter.js";
import { boxesOf, controlTree } from "./layout.js";

/** Where more tasks are shown, the boxes in the outermost one are folded, and drawn once they are opened. */
export const MOST_OPEN = 400;

/** So many items of a box or of the control groups are drawn, and at each press as many more. */
export const MOST_ITEMS = 1500;

/** So many numbers of tasks stand beside a control group. */
const MOST_HOMES = 40;

/** Deeper rows stand no further in: their parents are told in words too. */
const MOST_INDENT = 16;

// By which hues of neighbours lie far apart.
const GOLDEN_ANGLE = 137.508;

// What makes an element: the browser, unless a picture is made.
let createElement = (name) => document.createElement(name);

/** Does some work whose elements a function of its own makes. */
export function withElements(create, work) {
  const before = createElement;
  createElement = create;
  try {
    return work();
  } finally {
    createElement = before;
  }
}

/** An element with attributes and children; a child may be a text, or null for none. */
export function make(name, attributes, ...children) {
  const element = createElement(name);
  for (const [key, value] of Object.entries(attributes)) element.setAttribute(key, value);
  element.append(...children.flat().filter((child) => child !== null));
  return element;
}

function span(className, ...children) {
  return make("span", { class: className }, ...children);
}

/** The parts of a row, with a space between two, for who hears or copies it. */
function spaced(parts) {
  return parts.filter((part) => part !== null).flatMap((part) => [part, " "]);
}

/** A word with its value, as "parent 1". */
function fact(word, value, more = "") {
  return span(`fact ${word}`, `${word} `, make("b", {}, String(value)), more);
}

/** What kind of an end, as `wait` would tell it. */
function lifeOf(task) {
  if (task.live) return span("life live", "live");
  return span("life zombie", task.status === null ? "zombie, killed" : `zombie, exit ${task.status}`);
}

/** A mark that tells by a word that the row is new or has changed. */
function markOf(mark) {
  return mark ? span(`mark ${mark}`, mark) : null;
}

/** A group or a session, with the mark of its leader, and a dot in a colour of its own. */
function belongs(word, number, task) {
  const found = fact(word, number, number === task.root ? span("leads", " leader") : "");
  found.style.setProperty("--hue", String((number * GOLDEN_ANGLE) % 360));
  return found;
}

/** What somebody has called it, if somebody has. */
function labelOf(task) {
  return task.label ? [" ", span("label", `(${task.label})`)] : [];
}

function numbersOf(task) {
  const all = task.numbers.length > 1 ? span("nspid", `NSpid ${task.numbers.join(" ")}`) : null;
  return span("numbers", make("b", {}, String(task.own)), " ", all, ...labelOf(task));
}

function wordsOf(task) {
  const words = [
    task.executed ? "executed" : null,
    task.subreaper ? "subreaper" : null,
    task.children === null ? null : `children into ${task.children}`,
  ];
  return words.map((word) => (word ? span("word", word) : null));
}

/** How far in a row stands. */
function indent(depth) {
  return { style: `--depth: ${Math.min(depth, MOST_INDENT)}`, ...(depth > 0 && { "data-deep": "" }) };
}

function factsOf(task, mark) {
  return [
    fact("parent", task.parent || "none"),
    belongs("group", task.group, task),
    belongs("session", task.session, task),
    fact("control", task.control),
    span("state", ...spaced([lifeOf(task), ...wordsOf(task), markOf(mark)])),
  ];
}

function taskRow({ task, depth }, marks) {
  const mark = marks.tasks.get(task.id);
  return make(
    "li",
    { class: `row task ${task.live ? "" : "ended"} ${mark}`, ...indent(depth), "data-root": task.id, "data-parent": task.parent },
    ...spaced([numbersOf(task), span("facts", ...spaced(factsOf(task, mark)))]),
  );
}

/** A count with its word, as "1 task" and "2 tasks"; null for none. */
function counted(count, word) {
  return count > 0 ? `${count.toLocaleString("en")} ${word}${count === 1 ? "" : "s"}` : null;
}

/** What a box has, in words. */
export function sayInside(box) {
  const { tasks, ended, spaces } = countIn(box);
  const parts = [counted(tasks, "task") ?? "no task", counted(ended, "zombie"), counted(spaces, "namespace")];
  return parts.filter((part) => part !== null).join(", ");
}

/** Items from one on, as many as are drawn in one go, and after them a button if there are more. */
function drawnFrom(items, from, draw) {
  const end = from + MOST_ITEMS;
  const drawn = items.slice(from, end).map(draw);
  if (end >= items.length) return drawn;
  const words = `${Math.min(items.length - end, MOST_ITEMS).toLocaleString("en")} more of ${items.length.toLocaleString("en")}`;
  return [...drawn, make("li", { class: "more" }, make("button", { type: "button" }, words))];
}

/** Draws more in a list that ends with a button for it. */
function appendMore(list, items, draw) {
  list.lastElementChild.remove();
  list.append(...drawnFrom(items, list.children.length, draw));
}

/** The namespaces of a list as boxes. Which are open may be told by their ids, and stays so from one list to the next. */
export class Spaces {
  constructor(listing, changes, filter = null, opened = new Map()) {
    this.root = sift(boxesOf(listing), filter);
    this.marks = changes.marks;
    this.opened = opened;
    this.inside = countIn(this.root);
    this.boxes = new Map();
    this.drawItem = (item) =>
      item.task ? taskRow(item, this.marks) : make("li", { class: "nested", ...indent(item.depth) }, this.drawBox(item));
  }

  /** All of them, as they are at first. */
  draw() {
    return this.drawBox(this.root);
  }

  isOpen(box) {
    return this.opened.get(box.space.id) ?? (box === this.root || this.inside.tasks <= MOST_OPEN);
  }

  drawBox(box) {
    const { space } = box;
    const mark = this.marks.spaces.get(space.id);
    const open = this.isOpen(box);
    this.boxes.set(space.id, box);
    const fallen = space.fallen ? span("life zombie", "fallen") : null;
    const parts = [`namespace ${space.id}`, fact("cursor", space.cursor), fallen, markOf(mark), open ? null : span("inside", sayInside(box))];
    const list = make("ul", { role: "list" }, ...(open ? drawnFrom(box.items, 0, this.drawItem) : []));
    const state = open ? { open: "" } : {};
    return make("details", { class: `space ${mark}`, "data-space": space.id, ...state }, make("summary", {}, ...spaced(parts)), list);
  }

  /** Notes that the box of an element was opened or folded by somebody, and draws what is in it where that is not there yet. */
  toggle(element) {
    const box = this.boxes.get(element.dataset.space);
    const [head, list] = element.children;
    if (element.open === this.isOpen(box)) return;
    this.opened.set(box.space.id, element.open);
    if (element.open && list.children.length === 0) list.append(...drawnFrom(box.items, 0, this.drawItem));
    if (!head.querySelector(".inside")) head.append(span("inside", sayInside(box)));
  }

  /** Draws more of the box of an element. */
  showMore(element) {
    appendMore(element.children[1], this.boxes.get(element.dataset.space).items, this.drawItem);
  }
}

/** The namespaces of a list, with the marks of what is new or has changed. */
export function drawSpaces(listing, changes, filter = null, opened = new Map()) {
  return new Spaces(listing, changes, filter, opened).draw();
}

/** A bar of how much of the limit is used, or its room where there is none. Its words stand beside it. */
function meterOf(control) {
  const { count, limit } = control;
  const full = count < limit ? count / limit : 1;
  return make("span", { class: limit === null ? "meter none" : "meter", "aria-hidden": "true" }, make("span", { style: `--full: ${full}` }));
}

function sayCount(control) {
  const { count, limit } = control;
  if (limit === null) return `${count}, no limit`;
  const more = count > limit ? ", above its limit" : count === limit ? ", no fork more" : "";
  return `${count} of ${limit}${more}`;
}

/** The numbers of the tasks whose home a control group is, of many only the first ones. */
function homesOf(tasks) {
  if (tasks.length === 0) return null;
  const left = tasks.length - MOST_HOMES;
  const more = left > 0 ? ` and ${left.toLocaleString("en")} more` : "";
  const named = tasks.slice(0, MOST_HOMES).map((task) => (task.label ? `${task.root} (${task.label})` : task.root));
  return span("fact homes", "tasks ", make("b", {}, named.join(" ")), more);
}

function controlRow({ control, depth, tasks }, marks) {
  const mark = marks.controls.get(control.id);
  const full = control.limit !== null && control.count >= control.limit ? "full" : "";
  const facts = [meterOf(control), span("fact count", "count ", make("b", {}, sayCount(control))), homesOf(tasks), markOf(mark)];
  return make(
    "li",
    { class: `row control ${full} ${mark}`, ...indent(depth), "data-control": control.id },
    ...spaced([span("numbers", make("b", {}, control.id)), span("facts", ...spaced(facts))]),
  );
}

/** The control groups of a list. */
export class Controls {
  constructor(listing, changes) {
    this.nodes = controlTree(listing);
    this.drawNode = (node) => controlRow(node, changes.marks);
  }

  draw() {
    return make("ul", { role: "list" }, ...drawnFrom(this.nodes, 0, this.drawNode));
  }

  /** Draws more in the list that was drawn. */
  showMore(list) {
    appendMore(list, this.nodes, this.drawNode);
  }
}

/** The control groups of a list, with the marks of what is new or has changed. */
export function drawControls(listing, changes) {
  return new Controls(listing, changes).draw();
}
