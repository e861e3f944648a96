// A list as a picture, in SVG: what draw.js makes of it, placed in the colours of page.css.

import { drawControls, drawSpaces, withElements } from "./draw.js";

// Lengths in pixels. All letters have one width, and each text has its length written with it, so that no font moves the next one.
const LETTER = 7.5;
const SIZE = 12.5;
const LINE = 24;
const INDENT = 18;
const PADDING = 10;
const GAP = 12;
const DOT = 12;
const PILL = 6;
const METER = 90;

/** An element as draw.js makes it, as far as it asks. */
class Drawn {
  constructor(name) {
    Object.assign(this, { name, attributes: {}, children: [], properties: {} });
    this.style = { setProperty: (key, value) => (this.properties[key] = value) };
  }
  setAttribute(key, value) {
    this.attributes[key] = value;
  }
  append(...children) {
    this.children.push(...children);
  }
  get classes() {
    return (this.attributes.class ?? "").split(" ");
  }
  is(name) {
    return this.classes.includes(name);
  }
  /** Its elements of a class, or all of them. */
  below(name = null) {
    return this.children.filter((it) => it instanceof Drawn && (name === null || it.is(name)));
  }
  get text() {
    return this.children.map((it) => (it instanceof Drawn ? it.text : it)).join("");
  }
  /** A property of its style, as "--depth". */
  styled(key) {
    return new RegExp(`${key}: ([\\d.]+)`).exec(this.attributes.style ?? "")?.[1];
  }
}

function escaped(text) {
  return text.replace(/&/g, "&amp;").replace(/</g, "&lt;");
}

function tag(name, attributes, inside = "") {
  const words = Object.entries(attributes).map(([key, value]) => ` ${key}="${typeof value === "number" ? +value.toFixed(2) : value}"`);
  return inside === "" ? `<${name}${words.join("")}/>` : `<${name}${words.join("")}>${inside}</${name}>`;
}

/** A text with the classes that give its colour. */
function write(text, x, y, classes) {
  if (text.trim() === "") return "";
  const begin = text.length - text.trimStart().length;
  const shown = text.trim();
  return tag("text", { x: x + begin * LETTER, y, class: classes, textLength: shown.length * LETTER }, escaped(shown));
}

/** The texts of an element with their classes: those of the elements that they are in, and "b" for bold ones. */
function textsOf(element, outer = []) {
  const classes = [...outer, ...element.classes, ...(element.name === "b" ? ["b"] : [])].filter((it) => it !== "");
  return element.children.flatMap((it) => (it instanceof Drawn ? textsOf(it, classes) : [{ text: it, classes: classes.join(" ") }]));
}

function isPill(element) {
  return element.is("word") || element.is("zombie");
}

function hasDot(element) {
  return element.properties["--hue"] !== undefined;
}

/** How wide an element without others beside it is. */
function widthOf(element) {
  if (element.is("meter")) return METER;
  return element.text.length * LETTER + (hasDot(element) ? DOT : 0) + (isPill(element) ? 2 * PILL : 0);
}

function paintDot(element, x, y) {
  const fill = `hsl(${+(+element.properties["--hue"]).toFixed(1)} 55% 55%)`;
  return element.is("group") ? tag("circle", { cx: x + 4, cy: y - 4, r: 4, fill }) : tag("rect", { x, y: y - 8, width: 8, height: 8, fill });
}

function paintMeter(element, x, y) {
  if (element.is("none")) return "";
  const full = Number(element.below()[0].styled("--full"));
  const place = { x, y: y - 9, height: 9, rx: 4 };
  return tag("rect", { ...place, width: METER, class: "meter" }) + tag("rect", { ...place, width: METER * full, class: "used" });
}

/** An element of a row at its place. */
function paintPart(element, x, y) {
  if (element.is("meter")) return paintMeter(element, x, y);
  const pill = isPill(element) ? PILL : 0;
  let at = x + pill + (hasDot(element) ? DOT : 0);
  const edge = { x, y: y - 13, width: widthOf(element), height: 18, rx: 9, class: `pill ${element.attributes.class}` };
  const texts = textsOf(element).map(({ text, classes }) => {
    at += text.length * LETTER;
    return write(text, at - text.length * LETTER, y, classes);
  });
  return (hasDot(element) ? paintDot(element, x, y) : "") + (pill ? tag("rect", edge) : "") + texts.join("");
}

/** The parts of a row after its numbers. */
function drawnFacts(row) {
  return row.below("facts")[0].below().flatMap((it) => (it.is("state") ? it.below() : [it]));
}

function depthOf(row) {
  return Number(row.styled("--depth")) * INDENT;
}

/** How wide each column of some rows is: the numbers with their indents, and then the facts by their places. */
function columnsOf(rows) {
  const widths = [];
  for (const row of rows) {
    const parts = [depthOf(row) + widthOf(row.below("numbers")[0]), ...drawnFacts(row).map(widthOf)];
    parts.forEach((width, place) => (widths[place] = Math.max(widths[place] ?? 0, width)));
  }
  return widths;
}

function paintRow(row, x, y, columns) {
  const state = ["ended", "full"].filter((it) => row.is(it)).join(" ");
  const branch = row.attributes["data-deep"] === undefined ? "" : write("\u2514", x + depthOf(row) - 14, y, "branch");
  const numbers = paintPart(row.below("numbers")[0], x + depthOf(row), y);
  let at = x;
  const facts = drawnFacts(row).map((it, place) => {
    at += columns[place] + GAP;
    return paintPart(it, at, y);
  });
  return tag("g", state ? { class: state } : {}, branch + numbers + facts.join("")) + "\n";
}

/** How far a row reaches: its last part takes what it needs, and each before it its column. */
function rowWidth(row, columns) {
  const facts = drawnFacts(row);
  const before = columns.slice(0, facts.length);
  return before.reduce((sum, width) => sum + width + GAP, 0) + widthOf(facts.at(-1));
}

/** Rows one below the other, among which boxes may be: what is painted, its width and its height. */
function paintItems(items, x, y, level) {
  const rows = items.filter((it) => it.is("row"));
  const columns = columnsOf(rows);
  const painted = { text: "", width: Math.max(0, ...rows.map((it) => rowWidth(it, columns))), height: 0 };
  for (const item of items) {
    const at = y + painted.height + 17;
    const inner = item.is("nested") ? paintBox(item.below()[0], x + depthOf(item), y + painted.height + 3, level + 1) : null;
    painted.text += inner ? inner.text : item.is("row") ? paintRow(item, x, at, columns) : `${write(item.text, x, at, "b")}\n`;
    painted.width = Math.max(painted.width, inner ? depthOf(item) + inner.width : 0);
    painted.height += inner ? inner.height + 6 : LINE;
  }
  return painted;
}

/** The box of a namespace. */
function paintBox(box, x, y, level) {
  const [head, list] = box.below();
  let at = x + PADDING;
  const words = head.children.map((it) => {
    const part = it instanceof Drawn ? it : Object.assign(new Drawn("b"), { children: [it] });
    at += part.text === " " ? GAP : widthOf(part);
    return part.text === " " ? "" : paintPart(part, at - widthOf(part), y + 18);
  });
  const items = paintItems(list.below(), x + PADDING, y + LINE + 2, level);
  const width = Math.max(items.width + 2 * PADDING, at - x + PADDING);
  const height = items.height + LINE + 8;
  const edge = tag("rect", { x, y, width, height, rx: 8, class: level % 2 ? "space inner" : "space" });
  return { text: `${edge}\n${words.join("")}\n${items.text}`, width, height };
}

const FONT = `text { font: ${SIZE}px "DejaVu Sans Mono", Menlo, Consolas, "Liberation Mono", monospace; white-space: pre; }
.b { font-weight: 600; }
`;

// The classes of draw.js in the colours of page.css. Some viewers know no variables, so their values are written.
const RULES = `text { fill: var(--quiet); }
.b { fill: var(--text); }
.leads, .word { fill: var(--accent); }
.zombie, .ended .numbers.b { fill: var(--ended); }
.branch { fill: var(--space-edge); }
.ground { fill: var(--panel); }
.space { fill: var(--space); stroke: var(--space-edge); }
.space.inner { fill: var(--panel); }
.pill { fill: none; stroke: var(--accent); }
.pill.zombie { stroke: var(--ended); }
.meter { fill: none; stroke: var(--edge); }
.used { fill: var(--meter); }
.full .used { fill: var(--meter-full); }
`;

/** The colours of the page by their names: the light ones and the dark ones. */
function coloursOf(css) {
  const blocks = [...css.matchAll(/:root \{([^}]*)\}/g)];
  return blocks.map(([, text]) => new Map([...text.matchAll(/--([\w-]+): (#[0-9a-f]{6});/g)].map(([, name, colour]) => [name, colour])));
}

function styleOf(css) {
  const [light, dark] = coloursOf(css).map((colours) => RULES.replace(/var\(--([\w-]+)\)/g, (_, name) => colours.get(name)));
  return `<style>\n${FONT}${light}@media (prefers-color-scheme: dark) {\n${dark}}\n</style>\n`;
}

/** The picture of a list with what has changed in it, by a title and the text of page.css. What is shown of it is as `drawSpaces` has it. */
export function pictureOf(listing, changes, title, css, shown = {}) {
  const { filter = null, opened } = shown;
  const drawn = withElements((name) => new Drawn(name), () => ({
    spaces: drawSpaces(listing, changes, filter, opened),
    controls: drawControls(listing, changes),
  }));
  const spaces = paintBox(drawn.spaces, PADDING, PADDING, 0);
  const below = spaces.height + 2 * PADDING;
  const controls = paintItems(drawn.controls.below(), 2 * PADDING, below + LINE, 0);
  const width = Math.ceil(Math.max(spaces.width, controls.width + PADDING) + 2 * PADDING);
  const height = Math.ceil(below + LINE + controls.height + PADDING);
  const head = { xmlns: "http://www.w3.org/2000/svg", width, height, viewBox: `0 0 ${width} ${height}`, role: "img" };
  const ground = tag("rect", { width, height, rx: 8, class: "ground" });
  const groups = `${write("Control groups", 2 * PADDING, below + 14, "b")}\n${controls.text}`;
  const inside = `\n<title>${escaped(title)}</title>\n${styleOf(css)}${ground}\n${spaces.text}${groups}`;
  return `${tag("svg", head, inside)}\n`;
}
