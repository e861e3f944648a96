// Tells whom the end of a session's leader reaches by its terminal (exit(3)): the foreground process group gets a SIGHUP, and all of the session lose
// the terminal. The table has no terminals: which group is in the foreground, tcgetpgrp(3) says.

import { Table } from "pidtab";

/** Those that live, by their root numbers, but the caller. */
function others(table, caller, numbers) {
  const seen = numbers.map((number) => table.ask.stat(caller, number));
  return seen.filter((task) => task.live && task.root !== caller).map((task) => task.root);
}

/** The group has its number in the namespace of the leader. */
function tellHangUp(table, leader, foreground) {
  if (table.ask.getsid(leader) !== table.ask.getpid(leader)) {
    console.log(`${leader} leads no session`);
    return;
  }
  console.log(`${leader} ends`);
  console.log("  a SIGHUP for:", ...others(table, leader, table.ask.groupMembers(leader, foreground)));
  console.log("  no terminal for:", ...others(table, leader, table.ask.sessionMembers(leader)));
}

const table = new Table();
// 2 leads a session. Its children 3 and 4 are in the foreground, in the group 3, and 5 is in its own. 6, a child of 5, leads another session.
table.fork(1);
table.setsid(2);
for (const group of [3, 3, 5]) table.setpgid(2, table.fork(2).child, group);
table.fork(5);
table.setsid(6);
tellHangUp(table, 2, 3);
tellHangUp(table, 5, 5);

// It prints
//
//     2 ends
//       a SIGHUP for: 3 4
//       no terminal for: 3 4 5
//     5 leads no session
