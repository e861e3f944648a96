// What page/build puts into the page.

import assert from "node:assert/strict";
import { spawnSync } from "node:child_process";
import { test } from "node:test";

import { examples, REPOSITORY } from "./stored.js";

const PYTHON = spawnSync("python3", ["--version"]).status === 0;

/** What a function of page/build answers. */
function built(name) {
  const code = `import runpy, sys; sys.stdout.write(runpy.run_path(sys.argv[1])["${name}"]())`;
  const done = spawnSync("python3", ["-B", "-c", code, `${REPOSITORY}page/build`]);
  assert.equal(done.status, 0, String(done.stderr));
  return String(done.stdout);
}

test("the examples begin with the one that explains itself", { skip: !PYTHON && "no python3" }, () => {
  const names = JSON.parse(built("examples")).map(({ name }) => name);
  assert.equal(names[0], "container");
  assert.deepEqual([...names].sort(), examples().map(({ name }) => name).sort());
});

test("the parts of the script are one script", { skip: !PYTHON && "no python3" }, () => {
  const done = spawnSync(process.execPath, ["--input-type=module", "--check"], { input: built("script") });
  assert.equal(done.status, 0, String(done.stderr));
});
