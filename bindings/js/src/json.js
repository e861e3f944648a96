// What a table tells as JSON, as docs/list.schema.json has it. JSON.stringify takes no BigInt.

import { Refusal } from "./faults.js";

/** How a task stands. */
function stateOf({ live, killed }) {
  if (live) return "live";
  return killed ? "killed" : "exited";
}

/** The fields of an object with their names in the schema. */
function fieldsOf(value) {
  if (value instanceof Refusal) return [["error", value.code], ["word", value.word], ["id", value.id]];
  const isTask = value.numbers !== undefined;
  // The numbers of a listed task begin with the root's.
  const isListed = isTask && value.children !== undefined;
  const fields = Object.entries(value).filter(([name]) => name !== "killed" && !(isListed && name === "root"));
  return fields.map(([name, it]) => (isTask && name === "live" ? ["state", stateOf(value)] : [name, it]));
}

/** A list, a task, the answer of a call or a refusal as JSON, in one line. */
export function toJson(value) {
  if (value === undefined || value === null) return "null";
  if (typeof value === "bigint") return String(value);
  if (Array.isArray(value)) return `[${value.map(toJson).join(",")}]`;
  if (typeof value === "object") return `{${fieldsOf(value).map(([name, it]) => `"${name}":${toJson(it)}`).join(",")}}`;
  if (["string", "number", "boolean"].includes(typeof value)) return JSON.stringify(value);
  throw new TypeError(`a table tells no ${typeof value}`);
}
