// The cases of interface/cases, whose README says what each step is: by lines, by methods and by calls that tell what they did, on tables and on one with
// a history.

import assert from "node:assert/strict";
import { readdirSync, readFileSync } from "node:fs";
import { test } from "node:test";

import { pidtab, skip } from "./package.js";

const { BadText, Lines, PidtabError, Refusal, Table, readListing, toJson } = pidtab;
const FOLDER = new URL("../../../interface/cases/", import.meta.url);
// Written by tools/interface: queries.
const QUERIES = ["getpid", "nspid", "getppid", "count", "getpgid", "getsid", "next"];
// The end of queries.

/** The name that interface/statuses.tbl has for a fault, or the answer that a refusal is. */
function sayFault(fault) {
  if (fault instanceof Refusal) return [fault.code, fault.word, fault.id].filter((it) => it !== null).join(" ");
  if (fault instanceof BadText) return `line ${fault.line}: ${fault.why}`;
  if (fault instanceof RangeError) return fault.message === "an empty line has no answer" ? "EMPTY_LINE" : "OUT_OF_RANGE";
  const names = { BadLine: "BAD_LINE", Spent: "SPENT", NotKept: "NOT_KEPT", Differs: "DIFFERS" };
  if (!(fault instanceof PidtabError) || !(fault.name in names)) throw fault;
  return names[fault.name];
}

/** What a call tells, or why there is nothing to tell. */
function told(call) {
  try {
    return call();
  } catch (fault) {
    return sayFault(fault);
  }
}

const sayEnd = ({ killed, status }) => (killed ? "killed" : `exit ${status}`);

/** What has become of a task, a group, a session or a namespace. */
const sayEffect = (it) => [it.what, it.number ?? it.id, ...({ ended: [sayEnd(it)], adopted: [it.parent] }[it.what] ?? [])].join(" ");

const saySpace = ({ id, parent, level, init, fallen }) => `space ${id} parent ${parent ?? "-"} level ${level} init ${init ?? "-"}${fallen ? " fallen" : ""}`;

/** What the method of the line tells, or the refusal. */
function byItsMethod(table, line) {
  const [name, first, word, number] = line.split(" ");
  const caller = Number(first);
  const methods = {
    fork: () => table.fork(caller, { newSpace: word === "new" }),
    wait: () => table.wait(caller, { any: {}, own: { own: true }, pid: { pid: Number(number) }, group: { group: Number(number) } }[word]),
    next: () => table.next(caller, word, Number(number)),
    setpgid: () => table.setpgid(caller, Number(word), Number(number)),
    subreaper: () => table.subreaper(caller, word === "on"),
    limit: () => table.limit(BigInt(first), word === "max" ? null : Number(word)),
    move: () => table.move(caller, BigInt(word)),
    mk: () => table.mk(BigInt(first)),
    rm: () => table.rm(BigInt(first)),
    count: () => table.count(BigInt(first)),
  };
  try {
    return methods[name] ? methods[name]() : table[name](caller, ...(word === undefined ? [] : [Number(word)]));
  } catch (fault) {
    if (fault instanceof Refusal) return fault;
    throw fault;
  }
}

/** The answer that the line has, and after it what its call does. */
function sayTold({ told }, line) {
  const it = byItsMethod(told, line);
  return it instanceof Refusal ? sayFault(it) : [say(it.answer, line.split(" ")[0]), ...it.effects.map(sayEffect)].join(", ");
}

/** What a method tells as the answer to its line. */
function say(told, name) {
  if (told instanceof Refusal) return sayFault(told);
  if (told === null || told === undefined) return { wait: "none", next: "end" }[name] ?? "ok";
  if (Array.isArray(told)) return told.join(" ");
  if (typeof told !== "object") return name === "mk" ? `control ${told}` : String(told);
  return "root" in told ? `child ${told.child} root ${told.root}` : `reaped ${told.child} ${sayEnd(told)}`;
}

function sayTask(it) {
  const marks = (it.executed ? " executed" : "") + (it.subreaper ? " subreaper" : "");
  const family = `root ${it.root} space ${it.space} parent ${it.parent} group ${it.group} session ${it.session} control ${it.control}`;
  return `${it.numbers.join(",")} ${family} ${it.live ? "live" : sayEnd(it)}${marks}`;
}

/** What a question tells, in words. */
function sayAnswer(found) {
  if (Array.isArray(found)) return found.join(" ") || "none";
  return "numbers" in found ? sayTask(found) : saySpace(found);
}

/** A number of a step as a method takes it: one of 64 bits stays a BigInt. */
const short = (number) => (number <= 0xffffffffn ? Number(number) : number);

/** What a case has open. */
class World {
  tables = [];
  kept = null;

  begin(kept, tables) {
    Object.assign(this, { kept, tables, at: 0 });
    this.seats = Array.from({ length: kept.workers }, () => kept.seat());
    assert.throws(() => kept.seat(), { name: "SeatsTaken" });
  }

  open([pidMax, workers, firstStamp, keep]) {
    const isAlone = workers === 1n && firstStamp === 1n && keep === 0n;
    const tables = () => (isAlone ? [0, 1, 2].map(() => new Table({ pidMax: Number(pidMax) })) : []);
    const kept = told(() => new Table({ pidMax: Number(pidMax), workers: Number(workers), firstStamp, keep: keep || Infinity }));
    if (typeof kept === "string") {
      if (isAlone) assert.equal(told(tables), kept);
      return kept;
    }
    this.begin(kept, tables());
    this.isWhole = firstStamp === 1n;
    return "";
  }

  load(text, counts) {
    const isAlone = counts.length === 1 && counts[0] === 0n;
    const tables = () => (isAlone ? [0, 1, 2].map(() => Table.load(text)) : []);
    const kept = told(() => Table.load(text, { keep: Infinity, recorded: counts }));
    if (typeof kept === "string") {
      if (isAlone) assert.equal(told(tables), kept);
      return kept;
    }
    this.begin(kept, tables());
    this.isWhole = false;
    return "";
  }

  reload() {
    const text = this.kept.dump();
    const { at, tables } = this;
    for (const table of tables) assert.equal(table.dump(), text);
    assert.equal(this.load(text, this.seats.map(({ worker }) => this.kept.worker(worker))), "");
    assert.equal(this.kept.dump(), text);
    Object.assign(this, { at, tables: tables.map(() => Table.load(text)) });
  }

  /** The answer, which is the same by each way. */
  call(line) {
    const [seat, [byLine, byMethod, telling]] = [this.seats[this.at], this.tables];
    const answer = told(() => seat.line(line));
    if (byLine) assert.equal(told(() => byLine.line(line)), answer);
    if (/^[A-Z_]+$/.test(answer)) return answer;
    assert.deepEqual(this.kept.entry(seat.ordinal), { ordinal: seat.ordinal, worker: this.at, line, answer });
    const [name] = line.split(" ");
    const asked = [this.kept.ask, seat.ask, ...(byMethod ? [byMethod.ask] : [])];
    for (const queries of asked) QUERIES.includes(name) ? assert.equal(say(byItsMethod(queries, line), name), answer) : assert.equal(queries[name], undefined);
    if (byMethod) assert.equal(say(byItsMethod(byMethod.would, line), name), answer, line);
    if (byMethod) assert.equal(say((this.told = byItsMethod(byMethod, line)), name), answer, line);
    if (telling) assert.equal(sayTold(telling, line).split(", ")[0], answer, line);
    return answer;
  }

  /** The answer, and what the call does, which are the same of each table. */
  callTold(line) {
    const seat = this.seats[this.at];
    const [found, ...others] = [seat, ...this.tables].map((it) => sayTold(it, line));
    for (const other of others) assert.equal(other, found);
    assert.deepEqual(this.kept.entry(seat.ordinal), { ordinal: seat.ordinal, worker: this.at, line, answer: found.split(", ")[0] });
    return found;
  }

  /** What a question tells, which is the same of each table. */
  question(name, numbers) {
    const [found, ...others] = [this.kept, ...this.tables].map(({ ask }) => told(() => sayAnswer(ask[name](...numbers))));
    for (const other of others) assert.equal(other, found);
    return found;
  }

  /** The history on a second table: the same replies, counts and list; or it stops at an entry with another answer, or of a worker that is none. */
  replay(change, place) {
    const entries = [...this.kept.entries()];
    const { pidMax, workers } = this.kept;
    const again = new Table({ pidMax, workers, keep: Infinity });
    if (change === "differs") entries[place].answer += "7";
    if (change === "stranger") entries[place].worker = workers;
    const stopped = told(() => String(again.replay(entries)));
    assert.equal(stopped, { differs: "DIFFERS", stranger: "OUT_OF_RANGE" }[change] ?? String(entries.length));
    const recorded = { differs: place + 1, stranger: place }[change] ?? entries.length;
    assert.equal(again.counts().recorded, BigInt(recorded));
    if (!change) assert.equal(again.listText(), this.kept.listText());
  }

  end() {
    if (this.isWhole && this.kept.counts().firstKept === 0n) this.replay();
    this.isWhole = false;
  }

  /** What a step of a history tells. */
  read(word, [first, most]) {
    const { kept } = this;
    const steps = {
      counts: () => Object.values(kept.counts()).join(" "),
      worker: () => String(kept.worker(Number(first))),
      entry: () => (({ worker, line, answer }) => `${worker} ${line}: ${answer}`)(kept.entry(first)),
      read: () => String(Math.min([...kept.entries(first)].length, Number(most))),
      checkpoint: () => kept.checkpoint() ?? "DONE",
      checkpoint_at: () => (kept.checkpointAt(first) ? "DONE" : "AGAIN"),
    };
    return told(steps[word]);
  }

  /** What a step tells. */
  make(step, text) {
    const [word, ...words] = step.split(" ");
    const numbers = words.filter((it) => /^\d+$/.test(it)).map(BigInt);
    if (word === "case" || word === "open") this.end();
    if (word === "open") return this.open(numbers);
    if (word === "load") return this.load(text, numbers);
    if (["counts", "worker", "entry", "read", "checkpoint", "checkpoint_at"].includes(word)) return this.read(word, numbers);
    if (word === "told") return this.callTold(words.join(" "));
    const question = word.replace(/_(.)/g, (_, letter) => letter.toUpperCase());
    if (!QUERIES.includes(word) && typeof this.kept?.ask[question] === "function") return this.question(question, numbers.map(short));
    if (word === "json") return this.call(words.join(" ")) && toJson(this.told);
    if (word === "parse") return lineOfFault(text);
    const steps = {
      case: () => {},
      reload: () => this.reload(),
      seat: () => (this.at = Number(numbers[0])),
      each: () => {
        for (let number = numbers[0]; number <= numbers[1]; number++) assert.doesNotMatch(this.call(words.slice(2).join(" ").replaceAll("#", number)), /^[A-Z]/);
      },
      list: () => [this.kept, ...this.tables].forEach((it) => assert.equal(it.listText(), text)),
      dump: () => [this.kept, ...this.tables].forEach((it) => assert.equal(it.dump(), text)),
      differs: () => this.replay(word, Number(numbers[0])),
      stranger: () => this.replay(word, Number(numbers[0])),
      damage: () => damage(text),
    };
    if (!(word in steps)) return this.call(step);
    steps[word]();
    return "";
  }
}

/** No table is made of the text with a byte changed, or with its end cut off. */
function damage(text) {
  for (let place = 0; place < text.length; place++) {
    const changed = text.slice(0, place) + String.fromCharCode(text.charCodeAt(place) ^ 1) + text.slice(place + 1);
    for (const wrong of [text.slice(0, place), changed]) assert.throws(() => Table.load(wrong), { name: "BadText" });
  }
}

/** Where a text is no list. */
function lineOfFault(text) {
  try {
    return `a list of ${readListing(text).tasks.length} tasks`;
  } catch ({ message }) {
    return message.split(":")[0];
  }
}

/** This package has no list of an opening, and no call as numbers. */
const isLeftOut = (step) => step.startsWith("opening") || (step.startsWith("numbers") && step.endsWith("OUT_OF_RANGE"));

for (const name of readdirSync(FOLDER).filter((it) => it.endsWith(".cases"))) {
  test(`the cases of ${name}`, { skip }, () => {
    const cases = readFileSync(new URL(name, FOLDER), "utf8").replaceAll("\n\t", "\u0001").split(/\n(?=case )/).slice(1);
    for (const lines of cases.map((it) => it.split("\n").filter((line) => line !== "" && !line.startsWith("#")))) {
      const world = new World();
      for (const line of lines.filter((it) => !isLeftOut(it))) {
        const [said, ...below] = line.split("\u0001");
        const [step, wanted = ""] = said.split(" -> ");
        const text = below.map((it) => `${it}\n`).join("").replaceAll("\\r", "\r");
        const made = step.startsWith("numbers") ? byItsMethod(new Lines(), wanted) : world.make(step.replaceAll("\\r", "\r").replaceAll("\\0", "\0"), text);
        assert.equal(made, wanted, line);
      }
      world.end();
    }
  });
}
