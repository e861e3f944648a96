// The list of a table, as `pidtab list` writes it (docs/SCRIPT.md, "The list").

// The fields of each line in their order, each with its type. The first stands after the word of its line, and others after their names.
// Written by tools/interface: fields.
const LINE_FIELDS = {
  task: { numbers: "numbers", space: "id", parent: "number", group: "number", session: "number", control: "id", live: "state", status: "status", executed: "mark", children: "apart", subreaper: "mark" },
  space: { id: "id", parent: "root", cursor: "number", fallen: "mark" },
  control: { id: "id", parent: "root", limit: "limit", count: "count" },
};
// The end of fields.

// How a field of each type is written, after its word.
const WRITTEN = {
  numbers: (word, name) => `${word} (?<${name}>\\d+(?:,\\d+)*)`,
  number: (word, name) => `${word} (?<${name}>\\d+)`,
  root: (word, name) => `${word} (?<${name}>-|\\d+)`,
  limit: (word, name) => `${word} (?<${name}>max|\\d+)`,
  state: (word, name) => ` (?:(?<${name}>live)|killed|`,
  status: (word, name) => `exit (?<${name}>\\d+))`,
  mark: (word, name) => `(?<${name}>${word})?`,
  apart: (word, name) => `(?:${word} (?<${name}>\\d+))?`,
};

/** The lines of a kind. */
function pattern(kind) {
  const written = Object.entries(LINE_FIELDS[kind]).map(([name, type], place) => (WRITTEN[type] ?? WRITTEN.number)(place === 0 ? kind : ` ${name}`, name));
  return new RegExp(`^${written.join("")}$`);
}

const LINES = new Map(Object.keys(LINE_FIELDS).map((kind) => [kind, pattern(kind)]));

// How many bits a number has: 64, but those of these types. An id is a BigInt.
const BITS = { numbers: 32, number: 32, limit: 32, status: 8 };
const ID_TYPES = ["id", "root", "apart"];

/** What the word says of a field of the type; an undefined one where a number is too great. */
function valueOf(type, word) {
  if (type === "mark" || type === "state") return word !== undefined;
  if (word === undefined || word === "-" || word === "max") return null;
  const numbers = word.split(",").map(ID_TYPES.includes(type) ? BigInt : Number);
  if (numbers.some((it) => it >= 2 ** (BITS[type] ?? 64))) return undefined;
  return type === "numbers" ? numbers : numbers[0];
}

/** What the line says of the kind; null where it is none of a list. */
export function readRow(kind, line) {
  const found = LINES.get(kind)?.exec(line)?.groups;
  if (!found) return null;
  const row = Object.fromEntries(Object.entries(LINE_FIELDS[kind]).map(([name, type]) => [name, valueOf(type, found[name])]));
  if (Object.values(row).includes(undefined)) return null;
  return kind === "task" ? { ...row, root: row.numbers[0], killed: !row.live && row.status === null } : row;
}

/** The rows of a list by their kinds, each as `rowOf` reads its line; an Error names the first line that is none of a list. */
export function readRows(text, rowOf) {
  if (text === "") throw new Error("line 1: no list");
  const lines = text.split("\n");
  if (lines.pop() !== "") throw new Error(`line ${lines.length + 1}: cut off, without a newline`);
  const listing = { tasks: [], spaces: [], controls: [] };
  for (const [place, line] of lines.entries()) {
    const kind = line.slice(0, Math.max(line.indexOf(" "), 0));
    const row = rowOf(kind, line);
    if (!row) throw new Error(`line ${place + 1}: not a line of a list`);
    listing[`${kind}s`].push(row);
  }
  return listing;
}

/** What the text of a list says; an Error names the first line that is none of a list. */
export function readListing(text) {
  return readRows(text, readRow);
}
