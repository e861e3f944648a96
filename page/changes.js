// What a call has changed: the rows of two lists, compared.

/** Of each row of the later list whether it is "new", "changed" or "" (as it was), by its kind and id. */
function marksOf(before, after) {
  const [old, marks] = [new Map(), new Map()];
  for (const row of before) old.set(row.id, row.line);
  for (const { id, line } of after) marks.set(id, !old.has(id) ? "new" : old.get(id) === line ? "" : "changed");
  return marks;
}

/** The rows of the earlier list that the later one has no more. */
function goneOf(before, after) {
  const ids = new Set(after.map((row) => row.id));
  return before.filter((row) => !ids.has(row.id));
}

/** How the later list differs from the earlier one; without an earlier one nothing is new. */
export function changesBetween(before, after) {
  const earlier = before ?? after;
  const compare = (compareRows) => ({
    tasks: compareRows(earlier.tasks, after.tasks),
    spaces: compareRows(earlier.spaces, after.spaces),
    controls: compareRows(earlier.controls, after.controls),
  });
  return { marks: compare(marksOf), gone: compare(goneOf) };
}

const NAMES = { tasks: "task", spaces: "namespace", controls: "control group" };

/** The things of a kind by their names, as "task 2, namespace 1". */
function sayThings(idsOf) {
  return Object.keys(NAMES).flatMap((kind) => idsOf(kind).map((id) => `${NAMES[kind]} ${id}`)).join(", ");
}

/** What has changed, in words. */
export function sayChanges(changes) {
  const marked = (mark) => sayThings((kind) => [...changes.marks[kind]].filter(([, of]) => of === mark).map(([id]) => id));
  const gone = sayThings((kind) => changes.gone[kind].map((row) => row.id));
  const parts = { new: marked("new"), changed: marked("changed"), gone };
  const said = Object.entries(parts).filter(([, things]) => things).map(([mark, things]) => `${mark}: ${things}`);
  return said.join("; ") || "nothing changed";
}
