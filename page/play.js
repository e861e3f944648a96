// A script, line by line: what each line is answered, and the list that stands after it.

/** The most lines that the page plays. */
export const MOST_LINES = 30000;

/** After so many lines the state of the table is kept, so that a step need not play all lines before it: at first, and twice as many whenever it is too much. */
export const KEPT_EVERY = 100;

/** Kept states have no more bytes than this together, not counting the first one and that near the place. */
export const MOST_KEPT = 2 ** 28;

/** Where states are further apart, one more is kept so many lines before the place, so that the next steps back play no more than these. */
export const NEAR = 50;

/** The lines of a script: each ends at a newline, and what stands after the last newline is a line too. */
export function linesOf(text) {
  const lines = text.split("\n");
  if (lines.at(-1) === "") lines.pop();
  return lines;
}

/** How many lines two scripts have in common at their beginnings. */
function commonLines(one, other) {
  const most = Math.min(one.length, other.length);
  let count = 0;
  while (count < most && one[count] === other[count]) count++;
  return count;
}

/** Plays a script over a table, and shows the table around any of its lines. What was played before is not played again. */
export class Player {
  /** A table with a bound is opened by the function. */
  constructor(openTable) {
    this.openTable = openTable;
    this.forget(null);
  }

  /** Forgets all that was played, and begins with a table of the bound. */
  forget(pidMax) {
    this.lines = [];
    this.answers = [];
    this.pidMax = pidMax;
    this.states = new Map();
    this.every = KEPT_EVERY;
    // The place and the state near the place that was gone to last, if there is one.
    this.near = null;
    // Of which line the table is; -1 where there is none.
    this.place = -1;
  }

  /** A new table, which is the state before the first line. */
  begin(pidMax) {
    this.forget(null);
    this.table = this.openTable(pidMax);
    this.forget(pidMax);
    this.place = 0;
    this.keep();
  }

  /** What `pidtab run` answers to each line; an empty line has no answer. */
  play(pidMax, lines) {
    if (pidMax !== this.pidMax) this.begin(pidMax);
    const same = commonLines(this.lines, lines);
    this.dropStates((place) => place > same);
    if (this.near?.place > same) this.near = null;
    if (this.states.size === 1) this.every = KEPT_EVERY;
    this.lines = lines;
    this.answers.length = same;
    if (this.place > same) this.place = -1;
    this.goTo(lines.length);
    return this.answers;
  }

  /** The list before and after one of the lines, which are counted from 1; the list after line 0 is that of a new table. */
  listsAround(place) {
    this.goTo(Math.max(place - 1, 0));
    const before = place > 0 ? this.table.listText() : null;
    this.goTo(place);
    return { before, after: this.table.listText() };
  }

  /** Has the table be that after the line, from the nearest state before it. */
  goTo(place) {
    const from = this.nearest(place);
    if (this.place < from.place || this.place > place) {
      this.table.restore(from.state);
      this.place = from.place;
    }
    while (this.place < place) {
      if (this.place === place - NEAR && this.every > KEPT_EVERY) this.near = { place: this.place, state: this.table.save() };
      this.step();
    }
  }

  /** The last place up to one of which there is a state, with the state. */
  nearest(place) {
    const kept = Math.max(...[...this.states.keys()].filter((it) => it <= place));
    if (this.near && this.near.place <= place && this.near.place > kept) return this.near;
    return { place: kept, state: this.states.get(kept) };
  }

  /** Plays the next line. */
  step() {
    const at = this.place;
    // Where the table stops, it is that of no line.
    this.place = -1;
    this.answers[at] = this.table.answerTo(this.lines[at]);
    this.place = at + 1;
    if (this.place % this.every === 0 && !this.states.has(this.place)) this.keep();
  }

  /** Keeps the state. Where there are too many bytes, every second state goes, also of those to come. */
  keep() {
    const state = this.table.save();
    while (this.keptBytes() + state.byteLength > MOST_KEPT && this.states.size > 1) {
      this.every *= 2;
      this.dropStates((place) => place % this.every !== 0);
    }
    if (this.place === 0 || (this.place % this.every === 0 && this.keptBytes() + state.byteLength <= MOST_KEPT)) this.states.set(this.place, state);
  }

  /** How many bytes the kept states have, without the first. */
  keptBytes() {
    let bytes = 0;
    for (const [place, state] of this.states) if (place > 0) bytes += state.byteLength;
    return bytes;
  }

  dropStates(goes) {
    for (const place of this.states.keys()) if (goes(place)) this.states.delete(place);
  }
}

/** Which line the byte of a text is in, counted from 1. */
export function lineAt(text, position) {
  return text.slice(0, position).split("\n").length;
}

/** What kind of an answer it is: "none" of an empty line, "bad" where no call was made, "refused", "told". */
export function kindOf(answer) {
  if (answer === "") return "none";
  if (["bad line", "no memory", "spent"].includes(answer)) return "bad";
  return answer.startsWith("E") ? "refused" : "told";
}
