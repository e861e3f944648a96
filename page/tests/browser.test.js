// The built page in a headless Chromium.

import assert from "node:assert/strict";
import { existsSync, mkdtempSync, rmSync, writeFileSync } from "node:fs";
import { tmpdir } from "node:os";
import { join } from "node:path";
import { after, before, describe, test } from "node:test";
import { pathToFileURL } from "node:url";

import { MOST_LINES } from "../play.js";
import { Browser, findChromium } from "./browser.js";
import { listOfContainers } from "./containers.js";
import { examples, read, REPOSITORY } from "./stored.js";

const PAGE = `${REPOSITORY}out/page/pidtab.html`;
const program = findChromium();
const missing = () => (!program ? "no Chromium" : !existsSync(PAGE) && "no page out/page/pidtab.html: `make page` builds it");

const ANSWERS = `[...document.querySelectorAll("#answers li span:last-child")].map((it) => it.textContent)`;
const LIST = `document.getElementById("list").textContent`;
const NOW = `document.getElementById("now").textContent`;
const PLACE = `document.getElementById("place").value`;
const FAULT = `document.getElementById("fault").hidden ? "" : document.getElementById("fault").textContent`;

/** The rows of the drawing: each namespace and each task in it, with its parent and whether it has ended. */
const DRAWN = `[...document.querySelectorAll("#spaces .space")].map((box) => [box.dataset.space,
  ...[...box.querySelectorAll(":scope > ul > .task")].map(
    (row) => [row.dataset.root, row.dataset.parent, row.classList.contains("ended")].join(" "))])`;

/** The same, as a list says it. */
function drawnOf(list) {
  const rows = list.split("\n").map((line) => line.split(" "));
  const tasks = rows.filter(([word]) => word === "task");
  const tasksIn = (id) => tasks.filter((words) => words[3] === id);
  const told = (words) => `${words[1].split(",")[0]} ${words[5]} ${words[12] !== "live"}`;
  return rows.filter(([word]) => word === "space").map(([, id]) => [id, ...tasksIn(id).map(told)]);
}

function sorted(boxes) {
  return boxes.map(([id, ...tasks]) => [id, ...tasks.sort()]).sort();
}

describe("the page", { skip: missing() }, () => {
  let browser;

  before(async () => {
    browser = new Browser(program);
    await browser.open(pathToFileURL(PAGE).href, `document.body?.dataset.ready`);
  });

  after(() => browser.close());

  const choose = (name) =>
    browser.value(`(() => { const it = document.getElementById("example"); it.value = "${name}"; it.dispatchEvent(new Event("change"));
      return it.value; })()`);
  const write = (text) =>
    browser.value(`(() => { const it = document.getElementById("script"); it.value = ${JSON.stringify(text)}; it.selectionStart = it.value.length;
      it.dispatchEvent(new Event("input")); })()`);
  const focus = (id) => browser.value(`document.getElementById("${id}").focus()`);

  test("each example has its answers, its list and its drawing", async () => {
    const all = examples();
    assert.ok(all.length >= 8);
    for (const { name, answers, list } of all) {
      assert.equal(await choose(name), name);
      assert.deepEqual(await browser.value(ANSWERS), answers, name);
      assert.equal(await browser.value(LIST), list, name);
      assert.deepEqual(sorted(await browser.value(DRAWN)), sorted(drawnOf(list)), name);
    }
  });

  test("a label stands at its task, as a text", async () => {
    const label = (text) =>
      browser.value(`(() => { const it = document.getElementById("labels"); it.value = ${JSON.stringify(text)}; it.dispatchEvent(new Event("input"));
        return [...document.querySelectorAll("#spaces .label")].map((it) => [it.closest(".task").dataset.root, it.textContent]); })()`);
    await choose("container");
    assert.deepEqual(await label("1 systemd\n2 <b>web</b>\n4194303 nobody"), [["1", "(systemd)"], ["2", "(<b>web</b>)"]]);
    assert.ok((await browser.value(LIST)).includes(" (<b>web</b>)\n"));
    assert.deepEqual(await label(""), []);
  });

  test("the slider shows the table after each line", async () => {
    await choose("container");
    await focus("place");
    await browser.press("Home");
    const rows = ["task 1 space 0 parent 0 group 1 session 1 control 0 live"];
    assert.equal(await browser.value(LIST), `${rows[0]}\nspace 0 parent - cursor 2\ncontrol 0 parent - limit max count 1\n`);
    await browser.press("ArrowRight");
    rows.push("task 2,1 space 1 parent 1 group 1 session 1 control 0 live");
    const after = "space 0 parent - cursor 3\nspace 1 parent 0 cursor 2\ncontrol 0 parent - limit max count 2\n";
    assert.equal(await browser.value(LIST), `${rows.join("\n")}\n${after}`);
    assert.equal(await browser.value(PLACE), "1");
    const said = "After line 1 of 8: fork 1 new \u2192 child 2 root 2";
    assert.equal(await browser.value(NOW), `${said}new: task 2, namespace 1; changed: namespace 0, control group 0`);
    assert.equal(await browser.value(`document.getElementById("place").getAttribute("aria-valuetext")`), "line 1 of 8");
    assert.deepEqual(await browser.value(`[...document.querySelectorAll("#spaces .mark")].map((it) => it.textContent)`), ["changed", "new", "new"]);
  });

  test("the table follows the cursor in the script", async () => {
    await choose("fall");
    await focus("script");
    await browser.value(`document.getElementById("script").setSelectionRange(0, 0)`);
    await browser.press("ArrowDown");
    await browser.press("ArrowDown");
    assert.equal(await browser.value(PLACE), "3");
    assert.deepEqual(sorted(await browser.value(DRAWN)), [["0", "1 0 false"], ["1", "2 1 false", "3 2 false"], ["3", "4 3 false"]]);
  });

  test("the buttons step by a line, and end where the script does", async () => {
    await choose("orphans");
    const press = (id) => browser.value(`document.getElementById("${id}").click()`);
    const end = (id) => `document.getElementById("${id}").getAttribute("aria-disabled")`;
    const state = () => browser.value(`[${end("back")}, ${PLACE}, ${end("on")}].join(" ")`);
    assert.equal(await state(), "false 8 true");
    await press("back");
    assert.equal(await state(), "false 7 false");
    for (let at = 0; at < 9; at++) await press("back");
    assert.equal(await state(), "true 0 false");
    await press("on");
    assert.equal(await state(), "false 1 false");
  });

  test("a press on an answer or on a number shows the table after that line", async () => {
    await choose("shell");
    await browser.value(`document.querySelector("#answers li:nth-child(5) span").click()`);
    assert.equal(await browser.value(PLACE), "5");
    await browser.value(`document.querySelector("#gutter li:nth-child(8)").click()`);
    assert.equal(await browser.value(PLACE), "8");
  });

  test("the parent and the children of the task under the pointer are marked", async () => {
    await choose("recovery");
    const tell = (kind, at) => browser.value(`document.querySelector('${at}').dispatchEvent(new PointerEvent("${kind}", { bubbles: true }))`);
    const marked = () =>
      browser.value(`["parent", "child"].map((it) => [...document.querySelectorAll("#spaces .is-" + it)].map((row) => row.dataset.root))`);
    await tell("pointerover", '#spaces [data-root="3"] .numbers');
    assert.deepEqual(await marked(), [["2"], ["5"]]);
    await tell("pointerleave", "#spaces");
    assert.deepEqual(await marked(), [[], []]);
  });

  test("a script of one's own, with bad lines, empty ones and a refusal", async () => {
    await write("fork 1\n\nFORK 1\ngetpid 9\ngetpid 2");
    assert.deepEqual(await browser.value(ANSWERS), ["child 2 root 2", "", "bad line", "ESRCH no-caller", "2"]);
    const kinds = `[...document.querySelectorAll("#answers li")].map((it) => it.className)`;
    assert.deepEqual(await browser.value(kinds), ["told", "none", "bad", "refused", "told"]);
    assert.equal(await browser.value(`document.getElementById("example").value`), "");
  });

  test("a bad line says why, where it is shown and under the pointer", async () => {
    await write("fork 1\nFORK 1");
    const why = "column 1: expected a command: the nearest is `fork`";
    assert.ok((await browser.value(NOW)).startsWith(`After line 2 of 2: FORK 1 \u2192 bad line: ${why}`));
    const title = `(() => { const it = document.querySelector("#answers .bad span:last-child");
      it.dispatchEvent(new PointerEvent("pointerover", { bubbles: true })); return it.parentElement.title; })()`;
    assert.equal(await browser.value(title), why);
  });

  test("a script of one's own stays, and goes into the address", async () => {
    await write("getpid 1");
    await choose("fall");
    await choose("");
    assert.deepEqual(await browser.value(ANSWERS), ["1"]);
    await browser.value(`document.getElementById("link").click()`);
    assert.equal(await browser.value("location.hash"), "#script=getpid%201");
    await browser.value(`location.hash = "#script=mk%200"`);
    await browser.until(`document.getElementById("script").value === "mk 0"`);
    await browser.value(`location.hash = "#script=%"`);
    await browser.until(`(${FAULT}).startsWith("The script in the address cannot be read")`);
    await browser.value(`location.hash = ""`);
  });

  test("keys write a script", async () => {
    await write("");
    await focus("script");
    for (const key of "mk 0") await browser.press(key, key);
    assert.deepEqual(await browser.value(ANSWERS), ["control 1"]);
  });

  test("a line of markup stays text", async () => {
    await write("<b>fork 1</b>");
    assert.deepEqual(await browser.value(ANSWERS), ["bad line"]);
    assert.equal(await browser.value(`document.querySelectorAll("#answers b, #now b b").length`), 0);
  });

  test("pid_max, and one out of range", async () => {
    const bound = (value) =>
      browser.value(`(() => { const it = document.getElementById("pid-max"); it.value = "${value}"; it.dispatchEvent(new Event("input")); })()`);
    await write(`${"fork 1\n".repeat(300)}getpid 300\n`);
    await bound(301);
    assert.equal(await browser.value(FAULT), "");
    assert.deepEqual((await browser.value(ANSWERS)).slice(-3), ["child 300 root 300", "EAGAIN no-number 0", "300"]);
    const opacity = `getComputedStyle(document.getElementById("spaces")).opacity`;
    assert.equal(await browser.value(opacity), "1");
    for (const value of [300, 4194305, "", 301.5]) {
      await bound(value);
      assert.ok((await browser.value(opacity)) < 1);
      assert.equal(await browser.value(FAULT), "pid_max is 301 to 4194304.");
    }
    await bound(32768);
    assert.equal(await browser.value(FAULT), "");
    assert.equal((await browser.value(ANSWERS))[299], "child 301 root 301");
  });

  test("control groups with counts and limits", async () => {
    const rows = () =>
      browser.value(`[...document.querySelectorAll("#controls .control")].map((it) => it.textContent.replace(/\\s+/g, " ").trim())`);
    await choose("recovery");
    assert.deepEqual(await rows(), ["0 count 4, no limit tasks 1", "1 count 3 of 3, no fork more tasks 2 3 5", "12 count 0, no limit new"]);
    await choose("limit");
    const limited = ["0 count 2, no limit", "1 count 2 of 1, above its limit tasks 2"];
    assert.deepEqual(await rows(), [...limited, "13 count 1, no limit tasks 1", "8 count 0, no limit"]);
  });

  test("many namespaces, one in another", async () => {
    const lines = Array.from({ length: 32 }, (_, at) => `fork ${at + 1} new`);
    await write([...lines, "nspid 1 33", "fork 33 new"].join("\n"));
    const numbers = Array.from({ length: 33 }, (_, at) => 33 - at).join(" ");
    assert.deepEqual((await browser.value(ANSWERS)).slice(-2), [numbers, "ENOSPC too-deep"]);
    assert.equal(await browser.value(`document.querySelectorAll("${".space ".repeat(33)}").length`), 1);
    assert.equal(await browser.value(`document.documentElement.scrollWidth <= document.documentElement.clientWidth`), true);
  });

  test("a long script is cut, and says so", async () => {
    const played = (count) => browser.until(`document.getElementById("place").max === "${count}"`);
    await write("getpid 1\n".repeat(MOST_LINES));
    await played(MOST_LINES);
    assert.equal(await browser.value(FAULT), "");
    await write(`${"getpid 1\n".repeat(MOST_LINES)}getpid 1`);
    await browser.until(`(${FAULT}) !== ""`);
    await played(MOST_LINES);
    assert.equal(await browser.value(FAULT), "Only the first 30,000 lines are played.");
    await choose("container");
  });

  test("the rows of a long script are drawn where they are in sight", async () => {
    await write(Array.from({ length: 10000 }, (_, at) => `getpid ${at + 2}`).join("\n"));
    await browser.until(`document.getElementById("place").max === "10000"`);
    const first = () => browser.value(`document.querySelector("#gutter li").textContent`);
    assert.equal(await first(), "1");
    // The row of the last line stands where its number says, in sight.
    await browser.value(`(() => { const it = document.getElementById("editor"); it.scrollTop = it.scrollHeight; })()`);
    await browser.until(`document.querySelector("#gutter li:last-child").textContent === "10000"`);
    const bottoms = `["#gutter", "#answers"].map((id) => document.querySelector(id + " li:last-child").getBoundingClientRect().bottom)`;
    const [one, other] = await browser.value(bottoms);
    const edge = await browser.value(`document.getElementById("editor").getBoundingClientRect().bottom`);
    assert.ok(one === other && one <= edge && edge - one < 100, `${one} ${other} ${edge}`);
    await choose("container");
  });

  test("a press on the head of a namespace folds it, and it stays so from line to line", async () => {
    await choose("container");
    const open = () => browser.value(`[...document.querySelectorAll("#spaces .space")].map((box) => box.open)`);
    assert.deepEqual(await open(), [true, true]);
    await browser.value(`document.querySelector("#spaces .space .space > summary").click()`);
    await browser.until(`document.querySelector("#spaces .space .space > summary .inside")`);
    assert.deepEqual(await open(), [true, false]);
    await browser.value(`document.getElementById("back").click()`);
    assert.deepEqual(await open(), [true, false]);
    await choose("container");
    assert.deepEqual(await open(), [true, true]);
  });

  test("1,000 containers of a list are shown soon, and a filter finds tasks of theirs", async () => {
    const folder = mkdtempSync(join(tmpdir(), "pidtab-list-"));
    const file = join(folder, "web.list");
    writeFileSync(file, listOfContainers(1000, 20));
    const begun = Date.now();
    await browser.chooseFile("file", file);
    await browser.until(`document.querySelectorAll("#spaces .space .space").length === 1000`);
    assert.ok(Date.now() - begun < 10_000, `${Date.now() - begun} ms`);
    rmSync(folder, { recursive: true });
    assert.equal(await browser.value(NOW), "The table of the file web.list21,001 tasks, 1,000 zombies, 1,000 namespaces");
    assert.equal(await browser.value(`document.querySelectorAll("#controls .control").length`), 1001);
    const tasks = `document.querySelectorAll("#spaces .task").length`;
    assert.equal(await browser.value(tasks), 1);
    await browser.value(`document.querySelector("#spaces .space .space > summary").click()`);
    await browser.until(`${tasks} === 22`);
    const filter = (text) =>
      browser.value(`(() => { const it = document.getElementById("filter"); it.value = "${text}"; it.dispatchEvent(new Event("input")); })()`);
    await filter("control 43");
    assert.equal(await browser.value(`document.getElementById("found").textContent`), "21 tasks, 1 zombie, 1 namespace");
    assert.equal(await browser.value(tasks), 21);
    await filter("");
    await choose("container");
  });

  test("files with a script and with the text of a table", async () => {
    await browser.chooseFile("file", `${REPOSITORY}examples/fall.script`);
    await browser.until(`document.getElementById("about").textContent === "The script of the file fall.script."`);
    assert.equal(await browser.value(`document.getElementById("script").value`), read("examples/fall.script"));
    await browser.chooseFile("file", `${REPOSITORY}examples/recovery.text`);
    await browser.until(`(${NOW}) === "The table of the file recovery.text4 tasks, 1 zombie, 1 namespace"`);
    assert.deepEqual(sorted(await browser.value(DRAWN)), sorted(drawnOf(await browser.value(LIST))));
    await choose("container");
  });

  test("who hears the page is told what each part is", async () => {
    await choose("recovery");
    const { nodes } = await browser.ask("Accessibility.getFullAXTree");
    const named = nodes.filter(({ ignored }) => !ignored).map(({ role, name }) => `${role?.value}: ${name?.value}`);
    const wanted = [
      "combobox: Example",
      "spinbutton: pid_max",
      "searchbox: Show tasks",
      "textbox: Script, a call on each line",
      "slider: After which line",
      "button: One line back",
      "list: Answers, one for each line",
      "heading: What is proved, and what this page adds",
    ];
    for (const it of wanted) assert.ok(named.includes(it), it);
    const controls = nodes.filter(({ ignored, role }) => !ignored && /^(button|slider|textbox|searchbox|combobox|spinbutton)$/.test(role?.value));
    assert.deepEqual(controls.filter(({ name }) => !name?.value), []);
    const heard = await browser.value(`document.querySelector("#answers li:nth-child(8)").textContent`);
    assert.equal(heard, "line 8, fork 3: EAGAIN pids-limit 1");
  });

  // In the order of the page, from its top.
  test("the tab key reaches each control", async () => {
    await choose("recovery");
    await browser.value(`document.activeElement.blur(), scrollTo(0, 0)`);
    await focus("example");
    const reached = [];
    for (let at = 0; at < 11; at++) {
      reached.push(await browser.value(`document.activeElement.id || document.activeElement.localName`));
      await browser.press("Tab");
    }
    const first = reached.filter((id) => id !== "editor");
    assert.deepEqual(first.slice(0, 10), ["example", "pid-max", "file", "link", "script", "summary", "back", "place", "on", "filter"]);
  });

  test("nothing was loaded but the page, and nothing went wrong", () => {
    assert.deepEqual(browser.told("Network.requestWillBeSent").map(({ request }) => request.url), [pathToFileURL(PAGE).href]);
    assert.deepEqual(browser.told("Runtime.exceptionThrown"), []);
    assert.deepEqual(browser.told("Log.entryAdded"), []);
    assert.deepEqual(browser.told("Runtime.consoleAPICalled"), []);
  });
});
