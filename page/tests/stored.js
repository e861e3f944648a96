// What the repository has in writing: the examples, and the stored scripts.

import { readdirSync, readFileSync } from "node:fs";
import { fileURLToPath } from "node:url";

export const REPOSITORY = fileURLToPath(new URL("../..", import.meta.url));

export function read(name) {
  return readFileSync(REPOSITORY + name, "utf8");
}

/** The examples that have answers, each with its answers and its list. */
export function examples() {
  const names = readdirSync(`${REPOSITORY}examples`).filter((name) => name.endsWith(".answers"));
  return names.map((file) => {
    const name = file.replace(".answers", "");
    const [script, answers, list] = ["script", "answers", "list"].map((kind) => read(`examples/${name}.${kind}`));
    return { name, pidMax: 32768, lines: script.split("\n").slice(0, -1), answers: answers.split("\n").slice(0, -1), list };
  });
}

/** The lines that a line of a stored file stands for: `3* child 2.. root 5` is three, in which the first number rises by one from each to the next. */
function linesOf(line) {
  const run = line.match(/^(\d+)\* (.*)$/s);
  if (run === null) return [line];
  return Array.from({ length: Number(run[1]) }, (_, step) => run[2].replace(/(\d+)\.\./g, (_, number) => String(Number(number) + step)));
}

/** A stored file by its heads, as "# empty 32768 listed": the head's words and the lines below it. */
function parts(name) {
  const texts = readFileSync(REPOSITORY + name, "latin1").split("# ").slice(1);
  return texts.map((text) => {
    const [head, ...lines] = text.replace(/\n$/, "").split("\n").flatMap(linesOf);
    return { head, words: head.split(" "), lines };
  });
}

/** The stored scripts that the gate plays; a list is null where none is stored. */
export function storedScripts() {
  const told = parts("stored/answers");
  return parts("stored/scripts").map(({ head, words, lines }, at) => {
    if (told[at].head !== head) throw new Error(`no answers to ${head}`);
    const asked = lines.filter((line) => line !== "").length;
    const list = told[at].lines.slice(asked).map((line) => `${line}\n`).join("");
    return { name: words[0], pidMax: Number(words[1]), lines, answers: told[at].lines.slice(0, asked), list: words[2] ? list : null };
  });
}

/** All lists that are stored. */
export function storedLists() {
  return [...examples(), ...storedScripts()].filter(({ list }) => list !== null).map(({ list }) => list);
}
