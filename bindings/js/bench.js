// What a call costs: the least time of several turns, as `node bindings/js/bench.js [FOLDER OF THE PACKAGE]` prints it.

import { resolve } from "node:path";
import { pathToFileURL } from "node:url";

const folder = process.argv[2] ?? "out/js";
const { Table } = await import(pathToFileURL(resolve(folder, "pidtab.js")));
const TURNS = 20;

/** Prints the least time of a call. */
function time(name, count, use) {
  let least = Infinity;
  for (let turn = 0; turn < TURNS; turn++) {
    const before = process.hrtime.bigint();
    for (let made = 0; made < count; made++) use();
    least = Math.min(least, Number(process.hrtime.bigint() - before) / count);
  }
  console.log(`${name}: ${least.toFixed(0)} ns, ${(1000 / least).toFixed(2)} million a second`);
}

/** A fork, an exit and a wait. */
function cycle(calls) {
  calls.exit(calls.fork(1).root);
  calls.wait(1);
}

const table = new Table({ pidMax: 4194304 });
time("getpid", 200000, () => table.getpid(1));
time("getpid by ask", 200000, () => table.ask.getpid(1));
time("getpid as a line", 100000, () => table.line("getpid 1"));
time("fork, exit and wait", 50000, () => cycle(table));
time("stat", 100000, () => table.ask.stat(1));
time("mk and rm", 50000, () => table.rm(table.mk()));
time("a refusal that is caught", 5000, () => {
  try {
    table.getpid(9);
  } catch {
    // As it should be.
  }
});
for (let made = 0; made < 10000; made++) table.fork(1);
time("fork, exit and wait among 10,000", 50000, () => cycle(table));
time("a table", 200, () => new Table().close());

const kept = new Table({ keep: Infinity, pidMax: 4194304 });
const seat = kept.seat();
time("getpid by a seat", 50000, () => seat.getpid(1));
kept.checkpoint();
