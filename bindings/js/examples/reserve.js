// A supervisor prepares for a child before it is there, and has the one that it has prepared for, or none.

import { Table } from "pidtab";

/** Forks with the numbers that were told. Where another one is faster, they are told anew. */
function forkAsTold(table, caller) {
  for (;;) {
    const told = table.would.fork(caller);
    console.log(`a room for ${told.child}, in the root ${told.root}`);
    // Meanwhile another one forks, once.
    if (told.root === 3) table.fork(1);
    if (table.forkAt(caller, told)) return told;
    console.log("taken");
  }
}

const table = new Table();
const container = table.fork(1, { newSpace: true });
const { root } = forkAsTold(table, container.root);
console.log(...table.nspid(1, root));

// It prints
//
//     a room for 2, in the root 3
//     taken
//     a room for 2, in the root 4
//     4 2
