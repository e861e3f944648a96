// The calls: a method for each, raw lines, and the list. pidtab.d.ts says what each takes, answers and throws.
//
// What has these methods says by `_open` which instance it is, by `_call`, `_line`, `_forkAt` and `_callTold` how a call is made there, and by
// `_forked` what a new task is told to.

import { checkLong, checkNumber, checkOptions, checkRange, checkSigned } from "./bounds.js";
import { faultOf, readRefusal, Refusal, shorten } from "./faults.js";
import { KIND, OPERATION, REPLY, STATUS, TASK, TREE, USES, WHICH, WHOM } from "./header.js";
import { readListing } from "./listing.js";
import { aChild, anEndedChild, anId, aNumber, aSpace, aTask, EFFECT_BYTES, effectsAt, nothing, numbersAt, refusalAt, theNext, theNumbers } from "./replies.js";

/** What the program answers to a line that no call was made of, by the status of the library. */
const NOT_MADE = { [STATUS.BAD_LINE]: "bad line", [STATUS.NO_MEMORY]: "no memory", [STATUS.SPENT]: "spent" };

/** The room for a first try of a page, in numbers. */
const SHORT_PAGE = 64;

/** How many times as long the next room of a page is: so all tries of a list together cost little more than the last one. */
const GROWTH = 4;

/** The same of effects. */
const SHORT_ROOM = 64;

/** The text, if it is a line that has an answer. */
function checkLine(text) {
  if (typeof text !== "string") throw new TypeError(`a line is a string, not a ${typeof text}`);
  if (text === "") throw new RangeError("an empty line has no answer");
  if (text.includes("\n")) throw new RangeError(`more than one line: ${shorten(text)}`);
  return text;
}

/** Which children a wait means: the choice with its number. */
function select(which) {
  const { pid, own = false, group } = checkOptions(which, "pid", "own", "group");
  if ((pid !== undefined) + Boolean(own) + (group !== undefined) > 1) throw new TypeError("at most one of pid, own and group");
  if (own) return [WHICH.OWN_GROUP, 0];
  if (pid !== undefined) return [WHICH.CHILD, checkNumber("pid", pid)];
  return group === undefined ? [WHICH.ANY, 0] : [WHICH.GROUP, checkNumber("group", group)];
}

/** The choice of a fork: 1 for a new namespace. As most forks have no options, these are looked at only where they are given. */
function forkChoice(options) {
  return options !== undefined && checkOptions(options, "newSpace").newSpace ? 1 : 0;
}

/** The number of what a next looks for. */
function choiceOf(use) {
  const choice = USES.indexOf(use);
  if (choice < 0) throw new RangeError(`a use is "task", "group" or "session", not ${shorten(String(use))}`);
  return choice;
}

/** What may be asked of a table and changes nothing. On a table each is a call, which uses a stamp; those of its `ask` are none. */
export class Queries {
  /** Makes the call that was written: what it is answered, in its form. */
  _made(instance, form) {
    return this._replied(instance, form, this._call(instance));
  }

  /** What a call is answered that was made, if the status says so. */
  _replied(instance, form, status) {
    if (status !== STATUS.DONE) throw faultOf(status, instance.callLine());
    instance.refresh();
    const at = instance.at.reply.word;
    if (instance.words[at + REPLY.kind] !== KIND.REFUSED) return form(instance, at);
    throw new Refusal(instance.words[at + REPLY.error], ...refusalAt(instance, at), instance.callLine());
  }

  _make(form, operation, caller, number = 0, choice = 0) {
    const instance = this._open();
    instance.writeCall(operation, checkNumber("caller", caller), number, choice);
    return this._made(instance, form);
  }

  /** The same of a call that takes the id of a control group. */
  _makeOf(form, operation, id, caller = 0, number = 0, choice = 0) {
    const instance = this._open();
    instance.writeId(checkLong("control", id));
    instance.writeCall(operation, caller, number, choice);
    return this._made(instance, form);
  }

  // Written by tools/interface: queries.
  getpid(caller) {
    return this._make(aNumber, OPERATION.GETPID, caller);
  }

  nspid(caller, pid) {
    return this._make(theNumbers, OPERATION.NSPID, caller, checkNumber("pid", pid));
  }

  getppid(caller) {
    return this._make(aNumber, OPERATION.GETPPID, caller);
  }

  count(control = 0n) {
    return this._makeOf(aNumber, OPERATION.COUNT, control);
  }

  getpgid(caller, pid = 0) {
    return this._make(aNumber, OPERATION.GETPGID, caller, checkNumber("pid", pid));
  }

  getsid(caller, pid = 0) {
    return this._make(aNumber, OPERATION.GETSID, caller, checkNumber("pid", pid));
  }

  next(caller, use = "task", start = 0) {
    return this._make(theNext, OPERATION.NEXT, caller, checkNumber("start", start), choiceOf(use));
  }
  // The end of queries.
}

/** The methods, on the instance of somebody else. */
const onOwner = (Methods) =>
  class extends Methods {
    constructor(owner) {
      super();
      this._owner = owner;
    }

    _open() {
      return this._owner._open();
    }
  };

/** The queries of a table as what is no call: they use no stamp, and are not recorded. */
export class Ask extends onOwner(Queries) {
  _call(instance) {
    return instance.ask();
  }

  // Written by tools/interface: questions.
  stat(caller, pid = 0) {
    return this._task("stat", [checkNumber("caller", caller), checkNumber("pid", pid)], [], `stat ${caller} ${pid}`);
  }

  children(caller, pid = 0, start = 0) {
    return this._numbers("page", [checkNumber("caller", caller), WHOM.CHILDREN, checkNumber("pid", pid), checkNumber("start", start)], [], `children ${caller} ${pid}`);
  }

  groupMembers(caller, group = 0, start = 0) {
    return this._numbers("page", [checkNumber("caller", caller), WHOM.GROUP_MEMBERS, checkNumber("group", group), checkNumber("start", start)], [], `groupMembers ${caller} ${group}`);
  }

  sessionMembers(caller, session = 0, start = 0) {
    return this._numbers("page", [checkNumber("caller", caller), WHOM.SESSION_MEMBERS, checkNumber("session", session), checkNumber("start", start)], [], `sessionMembers ${caller} ${session}`);
  }

  namespaceMembers(caller, pid = 0, start = 0) {
    return this._numbers("page", [checkNumber("caller", caller), WHOM.NAMESPACE_MEMBERS, checkNumber("pid", pid), checkNumber("start", start)], [], `namespaceMembers ${caller} ${pid}`);
  }

  namespaceOwn(caller, pid = 0, start = 0) {
    return this._numbers("page", [checkNumber("caller", caller), WHOM.NAMESPACE_OWN, checkNumber("pid", pid), checkNumber("start", start)], [], `namespaceOwn ${caller} ${pid}`);
  }

  space(id) {
    return this._space("space", [], [checkLong("id", id)], `space ${id}`, "namespace");
  }

  spacesInside(id = 0n, start = 0n) {
    return this._ids("inside", [TREE.SPACES], [checkLong("id", id), checkLong("start", start)], `spacesInside ${id}`, "namespace");
  }

  controlsInside(id = 0n, start = 0n) {
    return this._ids("inside", [TREE.CONTROLS], [checkLong("id", id), checkLong("start", start)], `controlsInside ${id}`, "control group");
  }

  controlTasks(caller, control = 0n, start = 0) {
    return this._numbers("control_tasks", [checkNumber("caller", caller), checkNumber("start", start)], [checkLong("control", control)], `controlTasks ${caller} ${control}`);
  }
  // The end of questions.

  /** The instance, and what a function answers that is given these numbers, and those of 64 bits beside; `asked` is told where it fails. */
  _status(name, numbers, longs, asked) {
    const instance = this._open();
    instance.writeNumbers(longs);
    const status = instance[name](...numbers);
    if (status !== STATUS.DONE && status !== STATUS.OUT_OF_RANGE) throw faultOf(status, asked);
    return [instance, status];
  }

  /** A task that is read at once. */
  _task(name, numbers, longs, asked) {
    const [instance] = this._status(name, numbers, longs, asked);
    instance.refresh();
    const at = instance.at.task.word;
    if (instance.words[at + TASK.error] === 0) return aTask(instance, at);
    throw new Refusal(instance.words[at + TASK.error], instance.words[at + TASK.refusal] === 1 ? "no-caller" : "no-task", null, asked);
  }

  /** A namespace that is read at once, which may not be there. */
  _space(name, numbers, longs, asked, what) {
    const [instance, status] = this._status(name, numbers, longs, asked);
    if (status === STATUS.OUT_OF_RANGE) throw absent(what, longs[0]);
    instance.refresh();
    return aSpace(instance, instance.at.space.word);
  }

  /** All ids of something that may not be there, as `_numbers` has all numbers. Their count is told after those that are given. */
  _ids(name, numbers, longs, asked, what, room = SHORT_PAGE) {
    const [count, ids] = this._open().withRoom(8 * room, asked, (address) => {
      const [instance, status] = this._status(name, [...numbers, address, room], longs, asked);
      if (status === STATUS.OUT_OF_RANGE) throw absent(what, longs[0]);
      instance.refresh();
      const told = Number(instance.numberAt(longs.length));
      return [told, Array.from(instance.longs.subarray(address / 8, address / 8 + Math.min(told, room)))];
    });
    return count > room ? this._ids(name, numbers, longs, asked, what, room * GROWTH) : ids;
  }

  /** All numbers that are written into a room. Where one more is counted than it takes, there are more, and a longer one is taken: none comes meanwhile. */
  _numbers(name, numbers, longs, asked, room = SHORT_PAGE) {
    const [count, found] = this._open().withRoom(4 * room, asked, (address) => {
      const [instance, status] = this._status(name, [...numbers, address, room], longs, asked);
      if (status !== STATUS.DONE) throw faultOf(status, asked);
      instance.refresh();
      const { words } = instance;
      const at = instance.at.reply.word;
      if (words[at + REPLY.kind] === KIND.REFUSED) throw new Refusal(words[at + REPLY.error], ...refusalAt(instance, at), asked);
      const told = words[at + REPLY.first];
      return [told, numbersAt(words, address / 4, Math.min(told, room))];
    });
    return count > room ? this._numbers(name, numbers, longs, asked, room * GROWTH) : found;
  }
}

/** That nothing has the id that was asked for. */
const absent = (what, id) => new RangeError(`no ${what} has the id ${id}: it is gone, or there was none`);

/** A method for each call. */
export class EachCall extends Queries {
  fork(caller, options) {
    const child = this._make(aChild, OPERATION.FORK, caller, 0, forkChoice(options));
    this._forked(child.root);
    return child;
  }

  wait(caller, which) {
    // As this is what most waits mean, it takes no object apart.
    if (which === undefined) return this._make(anEndedChild, OPERATION.WAIT, caller);
    const [choice, number] = select(which);
    return this._make(anEndedChild, OPERATION.WAIT, caller, number, choice);
  }

  // Written by tools/interface: calls.
  exec(caller) {
    return this._make(nothing, OPERATION.EXEC, caller);
  }

  exit(caller, status = 0) {
    return this._make(nothing, OPERATION.EXIT, caller, checkRange("status", status, 0, 255));
  }

  setpgid(caller, pid = 0, group = 0) {
    this._open().writeGroups(checkSigned("pid", pid), checkSigned("group", group));
    return this._make(nothing, OPERATION.SETPGID, caller);
  }

  setsid(caller) {
    return this._make(aNumber, OPERATION.SETSID, caller);
  }

  mk(parent = 0n) {
    return this._makeOf(anId, OPERATION.MK, parent);
  }

  rm(control) {
    return this._makeOf(nothing, OPERATION.RM, control);
  }

  limit(control, most = null) {
    return this._makeOf(nothing, OPERATION.LIMIT, control, 0, most === null ? 0 : checkNumber("most", most), most === null ? 0 : 1);
  }

  move(task, control) {
    return this._makeOf(nothing, OPERATION.MOVE, control, checkNumber("task", task));
  }

  join(caller, pid) {
    return this._make(nothing, OPERATION.JOIN, caller, checkNumber("pid", pid));
  }

  subreaper(caller, on = true) {
    return this._make(nothing, OPERATION.SUBREAPER, caller, 0, on ? 1 : 0);
  }
  // The end of calls.
}

/** What each call would answer now: nothing changes, and it is neither counted nor recorded. */
export class Would extends onOwner(EachCall) {
  _call(instance) {
    return instance.would();
  }

  /** No task is new. */
  _forked() {}
}

/** The calls, each of which is made, and tells what it did beside its answer. */
export class Telling extends onOwner(EachCall) {
  /** Where the room is too short, no call was made, and it is taken anew as the call takes it. */
  _made(instance, form, room = SHORT_ROOM) {
    const told = instance.withRoom(EFFECT_BYTES * room, instance.callLine(), (address) => {
      const [status, count] = this._owner._callTold(instance, address, room);
      if (status === STATUS.NO_ROOM) return count;
      const answer = this._replied(instance, form, status);
      return { answer, effects: effectsAt(instance, address / 4, count) };
    });
    return typeof told === "number" ? this._made(instance, form, told) : told;
  }

  fork(caller, options) {
    const told = super.fork(caller, options);
    this._owner._forked(told.answer.root);
    return told;
  }

  /** The owner is told of a new task by `fork`. */
  _forked() {}
}

export class Calls extends EachCall {
  /** The status of the line, whose answer is in the instance then. */
  _asked(instance, text) {
    const status = this._line(instance, instance.writeLine(checkLine(text)));
    if (status !== STATUS.DONE && !NOT_MADE[status]) throw faultOf(status, shorten(text));
    return status;
  }

  /** The answer, of a call that was made. */
  _answerOfCall(text) {
    const instance = this._open();
    const status = this._asked(instance, text);
    if (status !== STATUS.DONE) throw faultOf(status, shorten(text));
    return this._noted(instance.answer());
  }

  /** The answer. That of a fork, as `child 2 root 3`, tells of a new task. */
  _noted(answer) {
    if (answer.startsWith("child ")) this._forked(Number(answer.slice(answer.lastIndexOf(" "))));
    return answer;
  }

  _answer(text) {
    const instance = this._open();
    const status = this._asked(instance, text);
    return status === STATUS.DONE ? this._noted(instance.answer()) : NOT_MADE[status];
  }

  line(text) {
    const answer = this._answerOfCall(text);
    // No other answer begins so: all others are lower case or digits.
    if (answer.startsWith("E")) throw readRefusal(text, answer);
    return answer;
  }

  answers(texts) {
    if (typeof texts === "string") throw new TypeError("answers takes many lines, not one string");
    return Array.from(texts, (text) => this._answer(text));
  }

  forkAt(caller, { child, root }, options) {
    const numbers = [checkNumber("caller", caller), forkChoice(options), checkNumber("child", child), checkNumber("root", root)];
    const status = this._forkAt(this._open(), numbers);
    if (status === STATUS.DIFFERS) return false;
    if (status !== STATUS.DONE) throw faultOf(status, `fork ${caller}`);
    this._forked(root);
    return true;
  }

  list() {
    return readListing(this.listText());
  }

  listText() {
    const instance = this._open();
    return instance.written(instance.list, "list");
  }
}
