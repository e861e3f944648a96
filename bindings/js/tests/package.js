// The built package, as it is imported, or why it cannot be tried.

import { existsSync, readFileSync } from "node:fs";

const FOLDER = new URL("../../../out/js/", import.meta.url);
const MODULE = new URL("pidtab.wasm", FOLDER);

function missing() {
  if (!existsSync(MODULE)) return "no module out/js/pidtab.wasm: `make js` builds it";
  return WebAssembly.validate(readFileSync(MODULE)) ? false : "the module has 64-bit memory: `make js` lowers it where wasm-opt is there";
}

export const skip = missing();

/** What the package exports. */
export const pidtab = skip ? {} : await import(new URL("pidtab.js", FOLDER));
