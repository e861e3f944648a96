// Names of tasks by their root numbers, which are outside of the table. One goes when its number is another task's.

/** What is not printed, or ends a line. */
const UNPRINTABLE = /(?! )[\p{C}\p{Z}]/u;

/** The text, if it is a label. */
function checkLabel(text) {
  if (typeof text !== "string") throw new TypeError(`a label is a string, or null for none, not a ${typeof text}`);
  if (text === "" || UNPRINTABLE.test(text)) throw new RangeError(`a label is some printable text of one line, not ${JSON.stringify(text)}`);
  return text;
}

/** Names a task that queries find, or takes its name away by null. */
export function nameTask(labels, ask, task, text) {
  const [root] = ask.stat(1, task).numbers;
  if (text === null) labels.delete(root);
  else labels.set(root, checkLabel(text));
}

/** The list, whose tasks get their names. */
export function nameTasks(labels, listing) {
  for (const task of listing.tasks) if (labels.has(task.root)) task.label = labels.get(task.root);
  return listing;
}
