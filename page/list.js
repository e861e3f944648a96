// The list of a table as the page draws it: the rows of bindings/js, each with its kind, its line, and its ids as words, which name elements of the page.

import { readRow, readRows } from "../bindings/js/src/listing.js";

/** The id as a word, but null where there is none. */
function word(id) {
  return id === null ? null : String(id);
}

function pageTask(task, line) {
  const { numbers, root, space, control, children } = task;
  const ids = { id: String(root), space: word(space), control: word(control), children: word(children) };
  return { kind: "task", line, own: numbers.at(-1), ...task, ...ids };
}

function pageSpace(space, line) {
  return { kind: "space", line, ...space, id: word(space.id), parent: word(space.parent) };
}

function pageControl(control, line) {
  return { kind: "control", line, ...control, id: word(control.id), parent: word(control.parent) };
}

const PAGE_ROWS = { task: pageTask, space: pageSpace, control: pageControl };

/** The row of a line; null where it is none of a list. */
function pageRow(kind, line) {
  const row = readRow(kind, line);
  return row && PAGE_ROWS[kind](row, line);
}

// The rows of the last two lists by their lines: a step leaves most lines as they were, and to read one takes longer than all else.
let [known, earlier] = [new Map(), new Map()];

/** What the text of a list says; an Error names the first line that is none of a list. Rows are shared by lists, and stay as they are. */
export function readList(text) {
  const rows = new Map();
  const listing = readRows(text, (kind, line) => {
    const row = known.get(line) ?? earlier.get(line) ?? pageRow(kind, line);
    rows.set(line, row);
    return row;
  });
  [known, earlier] = [rows, known];
  return listing;
}
