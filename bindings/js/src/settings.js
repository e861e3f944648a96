// With what a table is opened.

import { checkLong, checkOptions, checkRange, GREATEST_LONG } from "./bounds.js";
import { DEFAULT_PID_MAX, GREATEST_PID_MAX, LEAST_PID_MAX, MOST_WORKERS } from "./header.js";

/** How many entries are kept, as the module has it: 0 where there is no history, and the greatest number for all of it. */
const keptOf = (keep) => (keep === Infinity ? GREATEST_LONG : checkLong("keep", keep));

/** How many workers there are, whose calls a history counts. */
function checkWorkers(workers, kept) {
  if (checkRange("workers", workers, 1, MOST_WORKERS) > 1 && kept === 0n) throw new RangeError("workers count the calls of a history: open it with keep");
  return workers;
}

/** The settings of a new table, with what is left out. */
export function checkSettings(options) {
  const { pidMax = DEFAULT_PID_MAX, keep = 0, workers = 1, firstStamp = 1n } = checkOptions(options, "pidMax", "keep", "workers", "firstStamp");
  const kept = keptOf(keep);
  return {
    pidMax: checkRange("pidMax", pidMax, LEAST_PID_MAX, GREATEST_PID_MAX),
    kept,
    workers: checkWorkers(workers, kept),
    firstStamp: checkLong("firstStamp", firstStamp, 1n),
  };
}

/** The settings of a table that a text makes, with the counts of the calls that each worker made before. */
export function checkLoad(options) {
  const { keep = 0, workers, recorded } = checkOptions(options, "keep", "workers", "recorded");
  const kept = keptOf(keep);
  const counts = recorded === undefined ? null : [...recorded].map((count) => checkLong("recorded", count));
  if (counts !== null && kept === 0n) throw new RangeError("recorded counts the calls of a history: open it with keep");
  const most = checkWorkers(workers === undefined ? (counts?.length ?? 1) : workers, kept);
  if (counts !== null && counts.length !== most) throw new RangeError(`recorded has a number for each of ${most} workers, not ${counts.length}`);
  return { kept, workers: most, recorded: counts ?? Array(most).fill(0n) };
}

/** `pidMax` and the stamp of the next call, of a text that was loaded: `pidtab table 1 pid-max N stamp S`. */
export function headOf(text) {
  const head = typeof text === "string" ? text : new TextDecoder().decode(text.subarray(0, 99));
  const [, , , , pidMax, , stamp] = head.split("\n", 1)[0].split(" ");
  return { pidMax: Number(pidMax), stamp: BigInt(stamp) };
}
