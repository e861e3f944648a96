// Tells the namespaces of a table from the root inwards, each with its own tasks.

import { Table } from "pidtab";

/** The namespace, and then each directly inside it. */
function tellSpace(table, id) {
  const space = table.ask.space(id);
  // Where the init was reaped, nobody is left but zombies whose parents are outside.
  const tasks = space.init === null ? [] : table.ask.namespaceOwn(1, space.init);
  console.log(`${"  ".repeat(space.level)}namespace ${id}${space.fallen ? ", fallen" : ""}:`, ...tasks);
  for (const inner of table.ask.spacesInside(id)) tellSpace(table, inner);
}

const table = new Table();
// 2 is the init of a namespace, in which is its child 3, and 4 that of one within it. 5 is the init of another one, which ends.
table.fork(1, { newSpace: true });
table.fork(2);
table.fork(3, { newSpace: true });
table.fork(1, { newSpace: true });
table.exit(5);
tellSpace(table, 0n);

// It prints
//
//     namespace 0: 1
//       namespace 1: 2 3
//         namespace 3: 4
//       namespace 4, fallen: 5
