// The page's script over elements that only keep what they are given: which script is shown, and when it is played.

import assert from "node:assert/strict";
import { test } from "node:test";

import { Kept, loadPage, saved } from "./fields.js";
import { read } from "./stored.js";

const EXAMPLES = [
  { name: "container", about: "a container", script: "fork 1 new\n" },
  { name: "fall", about: "a fall", script: "fork 1\nexit 2 0\n" },
];
const pause = (time) => new Promise((resolve) => setTimeout(resolve, time));

test("the first example is shown first", async () => {
  const { find } = await loadPage(EXAMPLES, "");
  assert.deepEqual([find("example").value, find("script").value, find("about").textContent], ["container", "fork 1 new\n", "a container"]);
});

test("one's own script stays where an example is chosen", async () => {
  const { find, fire } = await loadPage(EXAMPLES, "");
  fire("script", "input", "getpid 1");
  fire("pid-max", "input", "400");
  assert.equal(find("example").value, "");
  fire("example", "change", "fall");
  assert.equal(find("script").value, "fork 1\nexit 2 0\n");
  fire("example", "change", "");
  assert.deepEqual([find("script").value, find("pid-max").value], ["getpid 1", "400"]);
  assert.equal(find("answers").children.length, 1);
});

test("the table is marked as that of earlier settings where a bound is refused", async () => {
  const { find, fire, body } = await loadPage(EXAMPLES, "");
  for (const value of ["300", "4194305", "", "301.5"]) {
    fire("pid-max", "input", value);
    assert.ok(body.classes.has("refused"), value);
    assert.equal(find("fault").textContent, "pid_max is 301 to 4194304.");
  }
  fire("pid-max", "input", "301");
  assert.ok(!body.classes.has("refused"));
});

test("a bad line has its reason", async () => {
  const { find, fire } = await loadPage(EXAMPLES, "");
  fire("script", "input", "getpid 1\nFORK 1");
  const why = "column 1: expected a command: the nearest is `fork`";
  assert.equal(find("now").said, `After line 2 of 2: FORK 1 \u2192 bad line: ${why}nothing changed`);
});

test("the script of the address is shown as one's own", async () => {
  const { find, fire } = await loadPage(EXAMPLES, "#script=getpid%201%0Amk%200");
  assert.deepEqual([find("script").value, find("example").value], ["getpid 1\nmk 0", ""]);
  fire("example", "change", "fall");
  fire("example", "change", "");
  assert.equal(find("script").value, "getpid 1\nmk 0");
  fire("link", "click");
  assert.equal(globalThis.location.hash, "#script=getpid%201%0Amk%200");
});

test("an address that cannot be read is told in a sentence", async () => {
  const { find } = await loadPage(EXAMPLES, "#script=%");
  assert.equal(find("fault").textContent, "The script in the address cannot be read: part of it is missing or is no text.");
  assert.equal(find("fault").hidden, false);
  assert.equal(find("script").value, "fork 1 new\n");
});

test("a long script is played once nobody has typed for a while, and each key is answered soon", async () => {
  const { find, fire } = await loadPage(EXAMPLES, "");
  const script = "getpid 1\n".repeat(4990);
  const start = performance.now();
  for (let key = 0; key < 5; key++) {
    fire("script", "input", script + "mk 0".slice(0, key));
    fire("script", "keyup");
  }
  assert.ok(performance.now() - start < 5 * 100, `${performance.now() - start} ms`);
  assert.equal(find("place").max, "1");
  await pause(400);
  assert.equal(find("place").max, "4991");
});

test("an example that is chosen while a long script waits is what is shown", async () => {
  const { find, fire } = await loadPage(EXAMPLES, "");
  fire("script", "input", "getpid 1\n".repeat(4990));
  fire("example", "change", "fall");
  await pause(300);
  assert.equal(find("answers").children.length, 2);
  fire("example", "change", "");
  assert.equal(find("place").max, "4990");
});

test("of a long script the rows in sight are drawn, and others once they come into sight", async () => {
  const { find, fire } = await loadPage(EXAMPLES, "");
  fire("script", "input", Array.from({ length: 20000 }, (_, at) => `getpid ${at + 1}`).join("\n"));
  await pause(400);
  const rows = () => find("gutter").children.map((row) => row.said);
  assert.ok(rows().length < 1000, String(rows().length));
  assert.equal(rows()[0], "1");
  // The rows of the stand-in are a pixel high.
  find("editor").scrollTop = 15000;
  fire("editor", "scroll");
  assert.ok(rows().includes("15001") && rows().length < 1000);
  assert.equal(find("answers").children[0].said, `line ${rows()[0]}, getpid ${rows()[0]}: 1`);
});

const LIST = `task 1 space 0 parent 0 group 1 session 1 control 0 live
task 2,1 space 1 parent 1 group 1 session 1 control 0 live
task 3,2 space 1 parent 2 group 1 session 1 control 0 exit 7
space 0 parent - cursor 4
space 1 parent 0 cursor 3
control 0 parent - limit max count 3
`;

test("a file with a script is shown as one's own script", async () => {
  const { find, choose } = await loadPage(EXAMPLES, "");
  await choose("mine.script", "getpid 1\nmk 0\n");
  assert.deepEqual([find("script").value, find("example").value], ["getpid 1\nmk 0\n", ""]);
  assert.equal(find("about").textContent, "The script of the file mine.script.");
  assert.equal(find("answers").children.length, 2);
});

test("the table of a file with a list is shown, until a line of the script is", async () => {
  const { find, fire, choose } = await loadPage(EXAMPLES, "");
  await choose("web.list", LIST);
  assert.equal(find("now").said, "The table of the file web.list3 tasks, 1 zombie, 1 namespace");
  assert.equal(find("list").textContent, LIST);
  assert.equal(find("script").value, "fork 1 new\n");
  fire("script", "click");
  assert.ok(find("now").said.startsWith("After line 1 of 1: fork 1 new"), find("now").said);
});

test("the table of a file with the text of a table is shown", async () => {
  const { find, choose } = await loadPage(EXAMPLES, "");
  await choose("recovery.text", read("examples/recovery.text"));
  assert.equal(find("now").said, "The table of the file recovery.text4 tasks, 1 zombie, 1 namespace");
});

test("a file that is none of these is told in a sentence, and what is shown stays", async () => {
  const { find, choose } = await loadPage(EXAMPLES, "");
  const before = find("now").said;
  for (const [text, words] of [
    [LIST.replace("live", "alive"), "line 1: not a line of a list"],
    [read("examples/recovery.text").replace("exit 6", "exit 5"), "line 10: wrong digest"],
  ]) {
    await choose("bad", text);
    assert.deepEqual([find("fault").textContent, find("fault").hidden], [`The file bad is not shown: ${words}.`, false]);
  }
  await choose("big", "", 2 ** 26 + 1);
  assert.equal(find("fault").textContent, "The file big is not shown: it has more than 64 MiB.");
  assert.equal(find("now").said, before);
});

test("a filter shows the tasks that it lets through, and says how many", async () => {
  const { find, fire, choose } = await loadPage(EXAMPLES, "");
  await choose("web.list", LIST);
  fire("filter", "input", "zombie");
  assert.equal(find("found").textContent, "1 task, 1 zombie, 1 namespace");
  assert.ok(!find("spaces").said.includes("live"), find("spaces").said);
  fire("filter", "input", "zombies");
  assert.ok(find("found").textContent.startsWith('A filter has no "zombies": it takes a number of a task, live,'));
  assert.equal(find("filter").attributes["aria-invalid"], "true");
  assert.ok(find("spaces").said.includes("live"));
  fire("filter", "input", "");
  assert.deepEqual([find("found").textContent, find("filter").attributes["aria-invalid"]], ["", "false"]);
});

test("a label stands at its task in the drawing, beside its control group and in the list, as long as it is there", async () => {
  const { find, fire, choose } = await loadPage(EXAMPLES, "");
  await choose("web.list", LIST);
  fire("labels", "input", "2 nginx\n9 nobody");
  assert.ok(find("spaces").said.includes("1 NSpid 2 1 (nginx) "), find("spaces").said);
  assert.ok(find("controls").said.includes("tasks 1 2 (nginx) 3"), find("controls").said);
  assert.equal(find("list").textContent, LIST.replace(/^task 2,.*$/m, "$& (nginx)"));
  fire("labels", "input", "2 nginx\nnginx 3");
  assert.equal(find("named").textContent, "Line 2 of the labels is no root number with its label.");
  assert.deepEqual([find("labels").attributes["aria-invalid"], find("list").textContent], ["true", LIST]);
  fire("labels", "input", "1 systemd");
  fire("script", "click");
  assert.deepEqual([find("named").textContent, find("list").textContent.split("\n")[0].endsWith(" live (systemd)")], ["", true]);
});

test("one's own script is there after a reload, with its bound", async () => {
  const kept = new Kept();
  const { fire } = await loadPage(EXAMPLES, "", kept);
  fire("script", "input", "getpid 1\nmk 0");
  fire("pid-max", "input", "400");
  fire("example", "change", "fall");
  fire("pid-max", "input", "500");
  const { find } = await loadPage(EXAMPLES, "", kept);
  assert.deepEqual([find("example").value, find("script").value, find("pid-max").value], ["", "getpid 1\nmk 0", "400"]);
});

test("a script of the address takes no place of one's own, until it is edited", async () => {
  const kept = new Kept();
  const own = await loadPage(EXAMPLES, "", kept);
  own.fire("script", "input", "mk 0");
  const linked = await loadPage(EXAMPLES, "#script=getpid%201", kept);
  assert.equal(linked.find("script").value, "getpid 1");
  assert.equal(JSON.parse(kept.getItem("pidtab script")).script, "mk 0");
  assert.equal(globalThis.location.hash, "#script=getpid%201");
  linked.fire("script", "input", "getpid 1\nrm 1");
  // The address has another script by now.
  assert.equal(globalThis.location.hash, "");
  assert.equal((await loadPage(EXAMPLES, "", kept)).find("script").value, "getpid 1\nrm 1");
});

test("a browser that keeps no script says so, and what it has kept may be anything", async () => {
  const { find, fire } = await loadPage(EXAMPLES, "", new Kept(40));
  fire("script", "input", "mk 0");
  assert.equal(find("about").textContent, "");
  fire("script", "input", "getpid 1\n".repeat(10));
  assert.equal(find("about").textContent, "This browser keeps no script: it will be gone with the page.");
  assert.equal(find("answers").children.length, 10);
  for (const word of ["", "null", "{", '{"script":7,"pidMax":"400"}']) {
    const kept = new Kept();
    kept.setItem("pidtab script", word);
    assert.equal((await loadPage(EXAMPLES, "", kept)).find("example").value, "container", word);
  }
  const none = { getItem: () => assert.fail("no storage"), setItem: () => assert.fail("no storage") };
  assert.equal((await loadPage(EXAMPLES, "", none)).find("example").value, "container");
});

test("the list and the picture of what is shown are saved", async () => {
  const { fire, choose } = await loadPage(EXAMPLES, "");
  await choose("web.list", LIST);
  fire("labels", "input", "2 nginx<1>");
  saved.length = 0;
  fire("save-list", "click");
  fire("save-picture", "click");
  const files = await Promise.all(saved.map(async ({ name, text }) => [name, text.type, await text.text()]));
  assert.deepEqual(files[0], ["table.list", "text/plain", LIST]);
  assert.deepEqual(files[1].slice(0, 2), ["table.svg", "image/svg+xml"]);
  const picture = files[1][2];
  assert.ok(picture.startsWith('<svg xmlns="http://www.w3.org/2000/svg" '), picture.slice(0, 80));
  for (const part of ["namespace 1", "(nginx&lt;1>)", "zombie, exit 7", "Control groups"]) assert.ok(picture.includes(part), part);
  // With the filter that holds.
  fire("filter", "input", "zombie");
  fire("save-picture", "click");
  const sifted = await saved.at(-1).text.text();
  assert.ok(!sifted.includes("nginx&lt;1>)</text>\n") && sifted.includes("zombie, exit 7") && sifted.length < picture.length);
});

test("a picture has what is folded as folded, and of many rows the first", async () => {
  const { fire, choose } = await loadPage(EXAMPLES, "");
  const tasks = Array.from({ length: 1600 }, (_, at) => `task ${at + 1} space 0 parent ${at && 1} group 1 session 1 control 0 live\n`);
  await choose("many.list", `${tasks.join("")}space 0 parent - cursor 2\ncontrol 0 parent - limit max count 1600\n`);
  fire("save-picture", "click");
  const picture = await saved.at(-1).text.text();
  assert.ok(picture.includes("100 more of 1,600"));
  assert.ok(!picture.includes(">1501<") && picture.includes(">1500<"));
});

const HISTORY = Uint8Array.from(/```hex\n([^`]*)```/.exec(read("docs/SAVED.md"))[1].trim().split(/\s+/), (byte) => parseInt(byte, 16));

test("a saved history is shown as a script, with what is answered otherwise here", async () => {
  const { find, choose } = await loadPage(EXAMPLES, "");
  await choose("web.saved", HISTORY);
  assert.deepEqual([find("script").value, find("pid-max").value, find("example").value], ["fork 1 new\nnspid 1 2\nsetpgid 1 0 -1\n", "32768", ""]);
  assert.equal(find("about").textContent, "The saved history web.saved: calls 3, workers 2.");
  // The stand-in for the table answers 1 to each line.
  assert.equal(find("fault").textContent, "Line 1: fork 1 new was answered child 2 root 2, and is 1 here.");
  await choose("torn", HISTORY.slice(0, 100));
  assert.equal(find("about").textContent, "The saved history torn: calls 1, workers 2, and 4 bytes at its end are torn.");
  // The head of one of which the first stamp is 5, as the library writes it.
  const later = "89 70 69 64 74 61 62 0a 01 00 00 00 00 80 00 00 05 00 00 00 00 00 00 00 01 00 00 00 00 00 00 00 00 00 00 00 00 00 00 00 45 08 86 0a c0 bc 52 6b";
  await choose("later", Uint8Array.from(later.split(" "), (byte) => parseInt(byte, 16)));
  assert.equal(find("fault").textContent, "The file later is not shown: its first stamp is 5, and the page plays histories from 1 on.");
  const before = find("script").value;
  const wrong = HISTORY.slice();
  wrong[60] = 9;
  await choose("wrong", wrong);
  assert.deepEqual([find("fault").textContent, find("script").value], ["The file wrong is not shown: call 0 has a wrong byte.", before]);
});
