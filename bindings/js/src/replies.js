// What replies, tasks, namespaces and effects tell, as values: words of the memory from a place on. What has 64 bits is a BigInt, and all else a number.

import { EFFECT, ERRNOS, KILLED, KIND, REPLY, SPACE, TASK, WHAT } from "./header.js";
import { wordOf } from "./faults.js";

const long = (longs, at, field) => longs[(at + field) / 2];

const LIVES = { status: null, killed: false };

/** The status of an ended child or task, which is null where the fall of its namespace killed it. */
function ending(status) {
  return status === KILLED ? { status: null, killed: true } : { status, killed: false };
}

/** So many words from a place on. */
export function numbersAt(words, at, count) {
  const numbers = [];
  for (let place = 0; place < count; place++) numbers.push(words[at + place]);
  return numbers;
}

export const nothing = () => undefined;
export const aNumber = ({ words }, at) => words[at + REPLY.first];
export const anId = ({ longs }, at) => long(longs, at, REPLY.first);
export const aChild = ({ words }, at) => ({ child: words[at + REPLY.first], root: words[at + REPLY.second] });
export const theNumbers = ({ words }, at) => numbersAt(words, at + REPLY.levels, words[at + REPLY.count]);
export const theNext = ({ words }, at) => (words[at + REPLY.kind] === KIND.END ? null : words[at + REPLY.first]);

export function anEndedChild({ words }, at) {
  if (words[at + REPLY.kind] === KIND.NONE_YET) return null;
  const { status, killed } = ending(words[at + REPLY.second]);
  return { child: words[at + REPLY.first], status, killed };
}

/** The word, and the id that may be after it, of a reply or of a task that is refused. */
export function refusalAt({ words, longs }, at) {
  return wordOf(words[at + REPLY.refusal], long(longs, at, REPLY.first));
}

/** A task as a namespace sees it. */
export function aTask({ words, longs }, at) {
  const live = words[at + TASK.ended] === 0;
  const { status, killed } = live ? LIVES : ending(words[at + TASK.status]);
  return {
    numbers: numbersAt(words, at + TASK.levels, words[at + TASK.count]),
    root: words[at + TASK.root],
    parent: words[at + TASK.parent],
    group: words[at + TASK.group],
    session: words[at + TASK.session],
    space: long(longs, at, TASK.space),
    control: long(longs, at, TASK.control),
    live,
    status,
    killed,
    executed: words[at + TASK.executed] === 1,
    subreaper: words[at + TASK.subreaper] === 1,
  };
}

/** A namespace in one read. */
export function aSpace({ words, longs }, at) {
  const level = words[at + SPACE.level];
  return {
    id: long(longs, at, SPACE.id),
    parent: level === 0 ? null : long(longs, at, SPACE.parent),
    level,
    init: words[at + SPACE.init] || null,
    fallen: words[at + SPACE.fallen] === 1,
  };
}

/** Effects stand one after another, and the value at the end of each has 64 bits. */
const EFFECT_WORDS = EFFECT.value + 2;
export const EFFECT_BYTES = 4 * EFFECT_WORDS;

/** What has become of a task, a group, a session or a namespace, by the kind of the effect. The value is a number, and an id a BigInt. */
const EFFECTS = {
  [WHAT.TASK_ENDED]: (number, status) => ({ what: "ended", number, ...ending(status) }),
  [WHAT.TASK_ADOPTED]: (number, parent) => ({ what: "adopted", number, parent }),
  [WHAT.TASK_GONE]: (number) => ({ what: "gone", number }),
  [WHAT.GROUP_GONE]: (number) => ({ what: "group-gone", number }),
  [WHAT.SESSION_GONE]: (number) => ({ what: "session-gone", number }),
  [WHAT.SPACE_FELL]: (number, value, id) => ({ what: "space-fell", id }),
  [WHAT.SPACE_GONE]: (number, value, id) => ({ what: "space-gone", id }),
};

/** So many effects from a place on. */
export function effectsAt({ words, longs }, at, count) {
  const effects = [];
  for (let place = at; place < at + EFFECT_WORDS * count; place += EFFECT_WORDS) {
    const tell = EFFECTS[words[place + EFFECT.what]];
    effects.push(tell(words[place + EFFECT.number], words[place + EFFECT.value], long(longs, place, EFFECT.value)));
  }
  return effects;
}

const reaped = ({ child, status }) => `reaped ${child} ${status === null ? "killed" : `exit ${status}`}`;

/** The answer of the script language that a reply is, by its kind. */
const ANSWERS = {
  [KIND.FORKED]: (it, at) => `child ${aChild(it, at).child} root ${aChild(it, at).root}`,
  [KIND.OK]: () => "ok",
  [KIND.NUMBER]: (it, at) => String(aNumber(it, at)),
  [KIND.LEVELS]: (it, at) => theNumbers(it, at).join(" "),
  [KIND.REAPED]: (it, at) => reaped(anEndedChild(it, at)),
  [KIND.NONE_YET]: () => "none",
  [KIND.COUNTED]: (it, at) => String(anId(it, at)),
  [KIND.CONTROL]: (it, at) => `control ${anId(it, at)}`,
  [KIND.END]: () => "end",
  [KIND.REFUSED]: (it, at) => [ERRNOS[it.words[at + REPLY.error]], ...refusalAt(it, at).filter((word) => word !== null)].join(" "),
};

export function answerAt(instance, at) {
  return ANSWERS[instance.words[at + REPLY.kind]](instance, at);
}
