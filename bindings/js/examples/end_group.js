// Ends a process group with all that come from its members, also those that have left it.

import { Table } from "pidtab";

/** Ends tasks, and first the children of each. The root init sees all by their root numbers. */
function endAll(table, tasks) {
  for (const task of tasks) {
    endAll(table, table.ask.children(1, task));
    if (table.ask.stat(1, task).live) {
      table.exit(task);
      console.log(`${task} ends`);
    }
  }
}

const table = new Table();
// 2 leads a group, in which are its child 3 and 5, a child of that. The other child 4 leads a session of its own, and 6 is a child of 4.
table.fork(1);
table.setpgid(1, 2, 2);
for (const parent of [2, 2, 3]) table.fork(parent);
table.setsid(4);
table.fork(4);
endAll(table, table.ask.groupMembers(1, 2));

// It prints
//
//     5 ends
//     3 ends
//     6 ends
//     4 ends
//     2 ends
