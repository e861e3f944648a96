// A file that is opened: a script, a list, or the text of a table (docs/SCRIPT.md, "Appendix: the text of a table"), of which the list is made.

const NAME = "(\\d+)(?:,\\d+)*@\\d+";
const HEAD = /^pidtab table 1 pid-max \d+ stamp \d+$/;
const TASK_LINE = new RegExp(
  `^task (\\d+(?:,\\d+)*)@(\\d+) parent (?:-|${NAME}) group ${NAME} session ${NAME} control (\\d+) children (\\d+)` +
    " (live|killed|exit \\d+)( executed)?( subreaper)?$",
);
const SPACE_LINE = /^space \d+ parent (?:-|\d+) cursor \d+(?: fallen)?$/;
const CONTROL_LINE = /^control (\d+) parent (-|\d+) limit (?:max|\d+)$/;
const END = /^end sha256 ([0-9a-f]{64})$/;

/** What a text is: the "text" of a table, a "list", or else a "script". */
export function kindOfText(text) {
  if (text.startsWith("pidtab table ")) return "text";
  return /^task \d/.test(text) ? "list" : "script";
}

/** The line of the list for a task of a text, with its control group. */
function listedTask(line) {
  const found = TASK_LINE.exec(line);
  if (!found) return null;
  const [, numbers, space, parent = "0", group, session, control, children, life, executed = "", subreaper = ""] = found;
  const into = children === space ? "" : ` children ${children}`;
  const facts = `space ${space} parent ${parent} group ${group} session ${session} control ${control} ${life}`;
  return { control, line: `task ${numbers} ${facts}${executed}${into}${subreaper}` };
}

/** How many tasks each control group has, with those of the groups below it. A group stands after the one above it. */
function countsOf(tasks, controls) {
  const counts = new Map(controls.map(({ id }) => [id, 0]));
  for (const { control } of tasks) counts.set(control, counts.get(control) + 1);
  for (const { id, parent } of controls.toReversed()) if (parent !== "-") counts.set(parent, counts.get(parent) + counts.get(id));
  return counts;
}

/** Sees to it that a text is whole: its last line has the SHA-256 of all before it. A page that is no secure context has none. */
async function checkDigest(text, lines) {
  const [, wanted] = END.exec(lines.at(-1)) ?? [];
  if (!wanted) throw new Error(`line ${lines.length}: no digest`);
  if (!globalThis.crypto?.subtle) return;
  const bytes = new TextEncoder().encode(text.slice(0, text.lastIndexOf("end ")));
  const digest = new Uint8Array(await crypto.subtle.digest("SHA-256", bytes));
  const found = [...digest].map((byte) => byte.toString(16).padStart(2, "0")).join("");
  if (found !== wanted) throw new Error(`line ${lines.length}: wrong digest`);
}

/** The list of the table that a text says; an Error names the first line that is none of such a text. */
export async function listOfText(text) {
  const lines = text.split("\n");
  if (lines.pop() !== "") throw new Error(`line ${lines.length + 1}: cut off, without a newline`);
  if (!HEAD.test(lines[0])) throw new Error("line 1: not the head of a text of version 1");
  const rows = { tasks: [], spaces: [], controls: [] };
  for (const [place, line] of lines.slice(1, -1).entries()) {
    const task = listedTask(line);
    const [, id, parent] = CONTROL_LINE.exec(line) ?? [];
    if (task) rows.tasks.push(task);
    else if (SPACE_LINE.test(line)) rows.spaces.push(line);
    else if (id) rows.controls.push({ id, parent, line });
    else throw new Error(`line ${place + 2}: not a line of a text`);
  }
  await checkDigest(text, lines);
  const counts = countsOf(rows.tasks, rows.controls);
  const controls = rows.controls.map(({ id, line }) => `${line} count ${counts.get(id)}`);
  return [...rows.tasks.map(({ line }) => line), ...rows.spaces, ...controls].map((line) => `${line}\n`).join("");
}
