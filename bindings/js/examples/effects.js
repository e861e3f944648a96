// A supervisor that has a process of Linux for each task does what each call says: it kills, hands children on, and forgets, also what it kept of a
// group.

import { Table } from "pidtab";

/** What has become of a task, a process group or a session, by its root number, or of a namespace. */
function said(effect) {
  switch (effect.what) {
    case "ended":
      return `${effect.number} ${effect.killed ? "is killed" : `ends with ${effect.status}`}`;
    case "adopted":
      return `${effect.number} is a child of ${effect.parent} now`;
    case "gone":
      return `${effect.number} is gone`;
    case "group-gone":
      return `the process group ${effect.number} is gone`;
    case "session-gone":
      return `the session ${effect.number} is gone`;
    case "space-fell":
      return `the namespace ${effect.id} has fallen`;
    case "space-gone":
      return `the namespace ${effect.id} is gone`;
  }
}

function follow(what, { effects }) {
  console.log(what);
  for (const effect of effects) console.log(`  ${said(effect)}`);
}

const table = new Table();
// 2 is the init of a namespace, in which are its child 3 and the children 4 and 5 of that. 5 leads a session, and 6 is its child.
table.fork(1, { newSpace: true });
for (const parent of [2, 3, 3]) table.fork(parent);
table.setsid(5);
table.fork(5);
for (const task of [3, 2]) follow(`exit ${task}`, table.told.exit(task, 7));
follow("wait 1", table.told.wait(1));

// It prints
//
//     exit 3
//       3 ends with 7
//       4 is a child of 2 now
//       5 is a child of 2 now
//     exit 2
//       2 ends with 7
//       3 is gone
//       4 is killed
//       4 is gone
//       5 is killed
//       5 is gone
//       6 is killed
//       6 is gone
//       the process group 5 is gone
//       the session 5 is gone
//       the namespace 1 has fallen
//     wait 1
//       2 is gone
//       the namespace 1 is gone
