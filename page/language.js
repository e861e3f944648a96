// Why a line is bad, in the words of `pidtab-check` (bindings/python/pidtab/language.py), which a test compares.

import { nearestOf } from "./nearest.js";

const LONGEST_LINE = 200;
const END_OF_LINE = "the end of the line";

// Written by tools/interface: forms.
const FORMS = [
  "fork C|fork C new|exec C|exit C S|wait C any|wait C pid P|wait C own|wait C group P",
  "setpgid C G G|setsid C|getpid C|getppid C|getpgid C P|getsid C P|nspid C P|next C task P",
  "next C group P|next C session P|join C P|subreaper C on|subreaper C off|mk I|rm I",
  "limit I N|limit I max|move T I|count I",
].flatMap((forms) => forms.split("|"));
// The end of forms.

const COMMANDS = [...new Set(FORMS.map((form) => form.split(" ")[0]))];

// A word that is a number: what it is, the least and the greatest. A limit above 4194304 is refused, but the line is good.
const KINDS = {
  C: ["a caller", 0n, 2n ** 32n - 1n],
  T: ["a task", 0n, 2n ** 32n - 1n],
  P: ["a process number", 0n, 2n ** 32n - 1n],
  N: ["a limit", 0n, 2n ** 32n - 1n],
  S: ["a status", 0n, 255n],
  G: ["a number", -(2n ** 31n), 2n ** 31n - 1n],
  I: ["the id of a control group", 0n, 2n ** 64n - 1n],
};

/** Whether a word is the one of a form, or a number of its kind. */
function fits(word, wanted) {
  if (!KINDS[wanted]) return word === wanted;
  const [, least, greatest] = KINDS[wanted];
  if (word.length > LONGEST_LINE || !/^(0|-?[1-9][0-9]*)$/.test(word)) return false;
  return least <= BigInt(word) && BigInt(word) <= greatest;
}

/** What may stand at a place, in words. */
function sayWords(wanted) {
  const say = (it) => (KINDS[it] ? `${KINDS[it][0]}, ${KINDS[it][1]} to ${KINDS[it][2]}` : it === END_OF_LINE ? it : `\`${it}\``);
  return [...new Set(wanted.map(say))].join(" or ");
}

function sayCommand(word) {
  if (word.startsWith("#")) return "a command: there are no comments";
  const near = nearestOf(word.toLowerCase(), COMMANDS);
  return near ? `a command: the nearest is \`${near}\`` : `a command: one of ${COMMANDS.join(", ")}`;
}

function sayNumber(word, wanted) {
  const said = sayWords(wanted);
  if (/^([+-]?0+[0-9]+|-0)$/.test(word)) return `${said}, without a leading zero`;
  return word.startsWith("+") ? `${said}, without a plus sign` : said;
}

/** What was expected at a place of a line. */
function sayExpected(words, place, wanted) {
  if (words[place] === "") return "one space between two words, and none before the first or after the last";
  if (words[place]?.includes("\t")) return "one space between two words, not a tab";
  if (place === 0) return sayCommand(words[0]);
  return place < words.length ? sayNumber(words[place], wanted) : sayWords(wanted);
}

/** The first place where no form goes on, with what the forms so far have there; null for the words of a form. */
function judgeWords(words) {
  let forms = FORMS.map((form) => [...form.split(" "), END_OF_LINE]);
  for (const [place, word] of words.entries()) {
    const kept = forms.filter((form) => form[place] !== END_OF_LINE && fits(word, form[place]));
    if (kept.length === 0) return { place, wanted: forms.map((form) => form[place]) };
    forms = kept;
  }
  const wanted = forms.map((form) => form[words.length]);
  return wanted.includes(END_OF_LINE) ? null : { place: words.length, wanted };
}

/** A line as bytes, each a character: columns are counted in bytes. */
function bytesOf(line) {
  return Array.from(new TextEncoder().encode(line), (byte) => String.fromCharCode(byte)).join("");
}

function judgeBytes(line) {
  if (line === "") return null;
  if (line.length > LONGEST_LINE) return { column: LONGEST_LINE + 1, expected: `at most ${LONGEST_LINE} bytes in a line` };
  if (line.endsWith("\r")) {
    return judgeBytes(line.slice(0, -1)) ?? { column: line.length, expected: "a newline alone, without a carriage return" };
  }
  const words = line.split(" ");
  const found = judgeWords(words);
  if (!found) return null;
  const { place, wanted } = found;
  // The byte after the words before it and their spaces; after the last word it is the line's end.
  const before = words.slice(0, place).reduce((sum, word) => sum + word.length + 1, 0);
  const tab = Math.max(words[place]?.indexOf("\t") ?? -1, 0);
  return { column: before + (place < words.length ? 1 : 0) + tab, expected: sayExpected(words, place, wanted) };
}

/** What is wrong with a line: the column of the byte, counted from 1, and what was expected there; null for a good or an empty line. */
export function judge(line) {
  return judgeBytes(bytesOf(line));
}

/** The same in words, or "". */
export function whyBad(line) {
  const fault = judge(line);
  return fault ? `column ${fault.column}: expected ${fault.expected}` : "";
}
