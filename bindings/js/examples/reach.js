// Tells whom kill(2) of -1 reaches: all whom its caller's namespace sees, but the init there and the caller. To a zombie it does nothing.

import { Refusal, Table } from "pidtab";

/** Them by their root numbers. The init of each namespace is 1 there, so the members from 2 on are all others. */
function reached(table, caller) {
  const seen = table.ask.namespaceMembers(caller, 0, 2).map((number) => table.ask.stat(caller, number));
  return seen.filter((task) => task.live && task.root !== caller).map((task) => task.root);
}

const table = new Table();
// 2 is the init of a namespace, and 3, 4 and 5 are its children. 4 is a zombie, and 5 is the init of a namespace within it. 6 is beside them.
table.fork(1, { newSpace: true });
table.fork(2);
table.fork(2);
table.fork(2, { newSpace: true });
table.fork(1);
table.exit(4);
for (let caller = 1; caller <= 6; caller++) {
  try {
    console.log(`${caller} reaches:`, ...reached(table, caller));
  } catch (fault) {
    if (!(fault instanceof Refusal)) throw fault;
    console.log(`${caller} reaches:`, fault.word);
  }
}

// It prints
//
//     1 reaches: 2 3 5 6
//     2 reaches: 3 5
//     3 reaches: 5
//     4 reaches: no-caller
//     5 reaches:
//     6 reaches: 2 3 5
