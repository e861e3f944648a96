// Which tasks are shown: a filter in words, and the boxes with what it lets through.

/** Words after which a number stands, each with the field of a task that it is compared with. */
const FIELDS = new Map([
  ["namespace", "space"],
  ["parent", "parent"],
  ["group", "group"],
  ["session", "session"],
  ["control", "control"],
]);

/** Words that stand alone. */
const STATES = new Map([
  ["live", (task) => task.live],
  ["zombie", (task) => !task.live],
  ["killed", (task) => !task.live && task.status === null],
  ["executed", (task) => task.executed],
  ["subreaper", (task) => task.subreaper],
]);

const FILTER_WORDS = `a number of a task, ${[...STATES.keys()].join(", ")}, or ${[...FIELDS.keys()].join(", ")} with a number`;

/** What the words ask of a task, from a place on: the test, and how many words it takes. */
function testAt(words, at) {
  const [word, number] = [words[at], words[at + 1]];
  const field = FIELDS.get(word);
  if (field && /^\d+$/.test(number ?? "")) return { test: (task) => String(task[field]) === number, length: 2 };
  if (STATES.has(word)) return { test: STATES.get(word), length: 1 };
  if (/^\d+$/.test(word)) return { test: (task) => task.numbers.includes(Number(word)), length: 1 };
  throw new Error(`A filter has no "${word}"${field ? " without a number" : ""}: it takes ${FILTER_WORDS}.`);
}

/** Whether a task is let through, as a function; null where all are. Each of the words has to hold. An Error says which word is none. */
export function readFilter(text) {
  const words = text.trim().split(/\s+/);
  if (words[0] === "") return null;
  const tests = [];
  for (let at = 0; at < words.length; ) {
    const { test, length } = testAt(words, at);
    tests.push(test);
    at += length;
  }
  return (task) => tests.every((test) => test(task));
}

/** A box with the tasks that are let through, and the boxes in it that have such; itself as it is where there is no filter. */
export function sift(box, filter) {
  if (filter === null) return box;
  const items = box.items.map((item) => (item.task ? (filter(item.task) ? item : null) : sift(item, filter)));
  return { ...box, items: items.filter((item) => item !== null && (item.task || item.items.length > 0)) };
}

/** How many tasks a box has, with those of the boxes in it, how many of them have ended, and how many boxes these are. */
export function countIn(box) {
  const count = { tasks: 0, ended: 0, spaces: 0 };
  for (const item of box.items) {
    const inner = item.task ? { tasks: 1, ended: item.task.live ? 0 : 1, spaces: 0 } : countIn(item);
    count.tasks += inner.tasks;
    count.ended += inner.ended;
    count.spaces += inner.spaces + (item.task ? 0 : 1);
  }
  return count;
}
