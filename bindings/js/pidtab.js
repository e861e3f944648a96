// Linux process identifiers as one table, in this process: the package as it is imported, with the module beside it.

import { useModule } from "./src/instance.js";

/** The bytes of a file beside this one: from the disk in Node, and else by the network. */
async function readBeside(name) {
  const url = new URL(name, import.meta.url);
  if (url.protocol === "file:") return (await import("node:fs/promises")).readFile(url);
  const found = await fetch(url);
  if (!found.ok) throw new Error(`pidtab: no ${url}: status ${found.status}`);
  return found.arrayBuffer();
}

useModule(await WebAssembly.compile(await readBeside("./pidtab.wasm")));

export { DEFAULT_PID_MAX, GREATEST_PID_MAX, LEAST_PID_MAX } from "./src/header.js";
export { BadLine, BadText, Differs, NoHistory, NoMemory, NotKept, PidtabError, Refusal, SeatsTaken, Spent, TableClosed } from "./src/faults.js";
export { toJson } from "./src/json.js";
export { Lines } from "./src/lines.js";
export { readListing } from "./src/listing.js";
export { Table } from "./src/table.js";
