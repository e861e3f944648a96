// What a user of the types writes, and what the compiler has to refuse. Nothing here is run.

import { BadText, Effect, Entry, Forked, Lines, Listing, Queries, Reaped, Refusal, SpaceStat, Stat, Table, Told, toJson } from "../pidtab.js";

const table = new Table({ pidMax: 400 });
const child: Forked = table.fork(1, { newSpace: true });
const reaped: Reaped | null = table.wait(1, { pid: child.child });
const numbers: number[] = table.nspid(1, child.root);
const group: bigint = table.mk();
table.limit(group, null);
table.move(child.root, Number(group));
const listing: Listing = Table.load(table.dump()).list();
const stat: Stat = table.ask.stat(1);
const space: SpaceStat = table.ask.space(stat.space);
const belonging: number[] = [...table.ask.children(1), ...table.ask.groupMembers(1, 2), ...table.ask.sessionMembers(1, 0, 3), ...table.ask.namespaceMembers(1, 0, 3), ...table.ask.namespaceOwn(1), ...table.ask.controlTasks(1, 2n, 3)];
table.label(child.root, "nginx");
table.label(child.root, null);
const label: string | undefined = listing.tasks[0].label;
const json: string[] = [toJson(listing), toJson(stat), toJson(space), toJson(child), toJson(reaped), toJson(group), toJson(numbers), toJson(table.rm(group))];

const { answer, effects }: Told<Forked> = table.told.fork(1, { newSpace: true });
const waited: Reaped | null = table.told.wait(answer.root, { own: true }).answer;
function say(effect: Effect): string {
  if (effect.what === "ended") return effect.killed ? "killed" : `exit ${effect.status}`;
  if (effect.what === "adopted") return `a child of ${effect.parent}`;
  if (effect.what === "space-fell" || effect.what === "space-gone") return `namespace ${effect.id + 0n}`;
  return `${effect.what} ${effect.number + 0}`;
}
const said: string[] = effects.map(say);

const line: string = new Lines().fork(1, { newSpace: true });

function count(queries: Queries): number {
  return queries.count();
}
count(table);
count(table.ask);

const kept = new Table({ keep: Infinity, workers: 2, firstStamp: 5 });
const seat = kept.seat();
count(seat);
const ordinal: bigint | null = seat.ordinal;
for (const entry of kept.entries()) {
  const same: Entry = entry;
  Table.load(table.dump(), { keep: 4096n, recorded: [0, 0n] }).replay([same]);
}

try {
  table.line("fork 1");
} catch (fault) {
  if (fault instanceof Refusal) console.log(fault.code, fault.word, fault.id);
  if (fault instanceof BadText) console.log(fault.line, fault.why);
}

console.log(line, said, waited?.status, kept.seat().told.exit(2).effects, reaped?.status, numbers, listing, stat, ordinal, label, json);

// @ts-expect-error: a number of a process is no text
table.getpid("1");
// @ts-expect-error: there is no such use
table.next(1, "thread");
// @ts-expect-error: what is asked is no call
table.ask.fork(1);
// @ts-expect-error: a status may be null
const status: number = table.wait(1)!.status;
// @ts-expect-error: so many entries is a number
new Table({ keep: "4096" });
// @ts-expect-error: a table is of one thread
new Table({ threads: true });
// @ts-expect-error: a text has its bound
Table.load("", { pidMax: 400 });
// @ts-expect-error: what is told takes what the call takes
table.told.exit("2");
// @ts-expect-error: it is no line
table.told.line("exit 2 0");
// @ts-expect-error: not each effect has a parent
const parent: number = effects[0].parent;
// @ts-expect-error: a name is a text
table.label(1, 5);
// @ts-expect-error: a table tells no functions
toJson(count);
// @ts-expect-error: it has no table, and so no list
new Lines().list();
// @ts-expect-error: nobody sets it
seat.ordinal = 1n;
