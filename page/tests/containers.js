// A list of many containers: the root init, and for each one a namespace and a control group with an init and its children.

/** The list; of the children of each init the last one is a zombie. */
export function listOfContainers(containers, children) {
  const rows = { tasks: ["task 1 space 0 parent 0 group 1 session 1 control 0 live"], spaces: [], controls: [] };
  for (let at = 0, root = 1; at < containers; at++) {
    const [id, init] = [root, ++root];
    const facts = `group 1 session 1 control ${id}`;
    rows.tasks.push(`task ${init},1 space ${id} parent 1 ${facts} live`);
    for (let own = 2; own < children + 2; own++) {
      rows.tasks.push(`task ${++root},${own} space ${id} parent ${init} ${facts} ${own === children + 1 ? "exit 0" : "live"}`);
    }
    rows.spaces.push(`space ${id} parent 0 cursor ${children + 2}`);
    rows.controls.push(`control ${id} parent 0 limit max count ${children + 1}`);
  }
  const tasks = rows.tasks.length;
  const root = [`space 0 parent - cursor ${tasks + 1}`, `control 0 parent - limit max count ${tasks}`];
  return [...rows.tasks, root[0], ...rows.spaces, root[1], ...rows.controls].map((row) => `${row}\n`).join("");
}
