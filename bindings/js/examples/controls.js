// Tells the control groups of a table from the root inwards, each with its live tasks, as systemd-cgls does, and its count.

import { Table } from "pidtab";

/** The control group, and then each directly inside it. The root init sees all tasks by their root numbers. */
function tellControl(table, id, depth = 0) {
  console.log(`${"  ".repeat(depth)}control group ${id} has ${table.ask.count(id)}:`, ...table.ask.controlTasks(1, id));
  for (const inner of table.ask.controlsInside(id)) tellControl(table, inner, depth + 1);
}

const table = new Table();
// A service has a control group, and two workers one inside it each. A child is in the control group of its parent, until it is moved.
const service = table.mk();
const [first, second] = [table.mk(service), table.mk(service)];
table.fork(1);
table.move(2, service);
for (let child = 3; child <= 6; child++) table.fork(2);
table.move(4, first);
table.move(5, second);
// 6 is a zombie until 2 waits for it: it counts, and is no live task.
table.exit(6);
tellControl(table, 0n);

// It prints
//
//     control group 0 has 6: 1
//       control group 1 has 5: 2 3
//         control group 2 has 1: 4
//         control group 3 has 1: 5
