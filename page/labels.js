// Labels of tasks, which are outside of the table: on each line a root number and its label, as `pidtab-tree --labels` takes them.

const LABEL_LINE = /^([1-9][0-9]*)\s+(\S.*)$/;

/** The labels by root numbers, of which the last holds. An Error says which line is none; an empty one and one that begins with # say nothing. */
export function readLabels(text) {
  const labels = new Map();
  for (const [place, line] of text.split("\n").entries()) {
    const said = line.trim();
    if (said === "" || said.startsWith("#")) continue;
    const found = LABEL_LINE.exec(said);
    if (!found) throw new Error(`Line ${place + 1} of the labels is no root number with its label.`);
    labels.set(Number(found[1]), found[2].replace(/\s+/g, " "));
  }
  return labels;
}

/** The list, whose tasks have their labels. */
export function withLabels(listing, labels) {
  const labelled = (task) => (labels.has(task.root) ? { ...task, label: labels.get(task.root) } : task);
  return labels.size === 0 ? listing : { ...listing, tasks: listing.tasks.map(labelled) };
}

/** The text of a list, with the labels after the lines of their tasks. */
export function labelText(list, { tasks }) {
  const labels = new Map(tasks.filter((task) => task.label).map((task) => [task.line, task.label]));
  return labels.size === 0 ? list : list.replace(/^task .*$/gm, (line) => (labels.has(line) ? `${line} (${labels.get(line)})` : line));
}
