// The page: a script and its answers on the left, the table after one of its lines on the right.

import { changesBetween, sayChanges } from "./changes.js";
import { Controls, make, sayInside, Spaces } from "./draw.js";
import { readFilter } from "./filter.js";
import { labelText, readLabels, withLabels } from "./labels.js";
import { whyBad } from "./language.js";
import { hashOf, scriptOf } from "./link.js";
import { readList } from "./list.js";
import { keepScript, keptScript } from "./own.js";
import { pictureOf } from "./picture.js";
import { kindOf, lineAt, linesOf, MOST_LINES, Player } from "./play.js";
import { isSaved, readSaved } from "./saved.js";
import { PlayedTable } from "./table.js";
import { kindOfText, listOfText } from "./text.js";
import { GREATEST_PID_MAX, LEAST_PID_MAX } from "../bindings/js/src/header.js";
import { useModule } from "../bindings/js/src/instance.js";

const LEAST_ROWS = 8;
// A script of more lines is played once nobody has typed for so many milliseconds.
const SHORT_SCRIPT = 500;
const PAUSE = 150;
// Of a longer script only the rows in sight are drawn, with so many before and after them.
const MOST_ROWS = 2000;
const ROWS_BEYOND = 200;
// A file of more bytes is not opened.
const MOST_BYTES = 2 ** 26;

const find = (id) => document.getElementById(id);
const IDS = "example about pid-max editor gutter script answers back place on now spaces controls list fault link file filter found labels named style save-list save-picture";
const fields = Object.fromEntries(IDS.split(" ").map((id) => [id, find(id)]));
const examples = JSON.parse(find("examples").textContent);
// What is shown: the lines with their answers, which of them has the first row that is drawn, and the table after one, counted from 1, where 0
// is before the first, or that of a file: its list as text, without labels and with them, what has changed in it, its drawings, and which namespaces
// somebody has opened or folded.
const shown = {
  lines: [],
  answers: [],
  place: 0,
  firstRow: 0,
  isFile: false,
  text: "",
  bare: null,
  listing: null,
  changes: null,
  spaces: null,
  controls: null,
  opened: new Map(),
};
// A script of one's own, which stays while an example is shown.
const own = { script: "", pidMax: "32768" };
let player;
let waiting;

function compileModule() {
  const text = atob(find("module").textContent.trim());
  return WebAssembly.compile(Uint8Array.from(text, (byte) => byte.charCodeAt(0)));
}

/** A player over tables of their own. */
function newPlayer() {
  return new Player((pidMax) => new PlayedTable({ pidMax }));
}

/** The bound that the field says, or null where it is out of range. */
function pidMax() {
  const value = Number(fields["pid-max"].value);
  return Number.isInteger(value) && value >= LEAST_PID_MAX && value <= GREATEST_PID_MAX ? value : null;
}

/** Shows a fault in words, or none. */
function sayFault(words) {
  fields.fault.textContent = words;
  fields.fault.hidden = words === "";
}

/** Does something over the table, and tells what goes wrong. A table that has stopped is replaced by a new one. */
function guarded(work) {
  const bound = pidMax();
  fields["pid-max"].setAttribute("aria-invalid", String(bound === null));
  // What is shown then is of an earlier bound.
  document.body.classList.toggle("refused", bound === null);
  if (bound === null) return sayFault(`pid_max is ${LEAST_PID_MAX} to ${GREATEST_PID_MAX}.`);
  try {
    work(bound);
  } catch (fault) {
    player = newPlayer();
    sayFault(`The table stopped: ${fault.message}.`);
  }
}

/** An answer beside its line. Who hears the page is told the line too. */
function answerRow(answer, place) {
  const line = shown.lines[place];
  const heard = make("span", { class: "heard" }, `line ${place + 1}, ${line || "empty"}: `);
  return make("li", { class: kindOf(answer), "data-place": place + 1 }, heard, make("span", {}, answer));
}

/** How high a row is. */
function rowHeight() {
  return fields.gutter.children[0]?.offsetHeight || 1;
}

/** The first line whose row has to be drawn, counted from 0, and the one after the last. */
function rowsInSight() {
  const count = shown.lines.length;
  if (count <= MOST_ROWS) return [0, count];
  const { scrollTop, clientHeight } = fields.editor;
  const from = Math.max(0, Math.floor(scrollTop / rowHeight()) - ROWS_BEYOND);
  return [from, Math.min(count, from + Math.ceil(clientHeight / rowHeight()) + 2 * ROWS_BEYOND)];
}

/** Writes the numbers of the lines, and the answers beside them. */
function drawRows() {
  const [from, to] = rowsInSight();
  const lines = Array.from({ length: to - from }, (_, at) => from + at);
  shown.firstRow = from;
  fields.editor.style.setProperty("--above", String(from));
  fields.answers.replaceChildren(...lines.map((place) => answerRow(shown.answers[place], place)));
  fields.gutter.replaceChildren(...lines.map((place) => make("li", { "data-place": place + 1 }, String(place + 1))));
}

/** Draws the rows of a long script that came into sight. */
function scrollRows() {
  if (Math.abs(rowsInSight()[0] - shown.firstRow) > ROWS_BEYOND / 2) drawRows();
}

/** Plays the whole script and writes the answers beside its lines. */
function playScript(bound) {
  const lines = linesOf(fields.script.value);
  shown.lines = lines.slice(0, MOST_LINES);
  shown.answers = player.play(bound, shown.lines);
  // One more, as the text may go on after its last newline.
  fields.script.rows = Math.max(lines.length + 1, LEAST_ROWS);
  drawRows();
  fields.place.max = String(shown.lines.length);
  sayFault(lines.length > MOST_LINES ? `Only the first ${MOST_LINES.toLocaleString("en")} lines are played.` : "");
}

/** The line and its answer, in words. */
function sayPlace() {
  const { lines, answers, place } = shown;
  if (place === 0) return "Before the first line: the root init alone.";
  const line = lines[place - 1];
  const why = answers[place - 1] === "bad line" ? `: ${whyBad(line)}` : "";
  return `After line ${place} of ${lines.length}: ${line ? `${line} \u2192 ${answers[place - 1]}${why}` : "an empty line"}`;
}

/** Scrolls the script so that the line can be seen. */
function reveal(place) {
  const { editor } = fields;
  if (place === 0) return;
  const end = place * rowHeight();
  if (end - rowHeight() < editor.scrollTop) editor.scrollTop = end - rowHeight();
  if (end - editor.clientHeight > editor.scrollTop) editor.scrollTop = end - editor.clientHeight;
}

/** Shows where the line stands: the slider, the buttons, the band behind it. */
function markPlace() {
  const { place, lines } = shown;
  fields.place.value = String(place);
  fields.place.setAttribute("aria-valuetext", `line ${place} of ${lines.length}`);
  // Marked and not disabled, as a disabled button would lose the focus.
  fields.back.setAttribute("aria-disabled", String(place === 0));
  fields.on.setAttribute("aria-disabled", String(place === lines.length));
  fields.editor.style.setProperty("--line", String(place - 1));
  fields.editor.classList.toggle("at-start", place === 0);
}

/** What the filter lets through, or null for all; what is no filter is told beside it. */
function filterOf() {
  let [filter, words] = [null, ""];
  try {
    filter = readFilter(fields.filter.value);
  } catch (fault) {
    words = fault.message;
  }
  fields.filter.setAttribute("aria-invalid", String(words !== ""));
  fields.found.textContent = words;
  return filter;
}

/** Draws the namespaces that are shown, as far as the filter lets their tasks through. */
function drawNamespaces() {
  const filter = filterOf();
  shown.spaces = new Spaces(shown.listing, shown.changes, filter, shown.opened);
  fields.spaces.replaceChildren(shown.spaces.draw());
  if (filter) fields.found.textContent = sayInside(shown.spaces.root);
}

/** The labels that stand in their field; none where a line is no label, which is told below it. */
function labelsOf() {
  let [labels, words] = [new Map(), ""];
  try {
    labels = readLabels(fields.labels.value);
  } catch (fault) {
    words = fault.message;
  }
  fields.labels.setAttribute("aria-invalid", String(words !== ""));
  fields.named.textContent = words;
  return labels;
}

/** Draws the list with its labels. */
function drawListing() {
  shown.listing = withLabels(shown.bare, labelsOf());
  drawNamespaces();
  shown.controls = new Controls(shown.listing, shown.changes);
  fields.controls.replaceChildren(shown.controls.draw());
  fields.list.textContent = labelText(shown.text, shown.listing);
}

/** Draws a table: its list, how that differs from the one before, and what is said of it. */
function drawTable(list, before, words, more) {
  Object.assign(shown, { text: list, bare: readList(list) });
  shown.changes = changesBetween(before && readList(before), shown.bare);
  drawListing();
  fields.now.replaceChildren(make("b", {}, words), make("span", {}, more(shown.changes)));
}

/** Draws the table after the line. */
function showPlace(place) {
  shown.place = Math.min(place, shown.lines.length);
  shown.isFile = false;
  guarded(() => {
    const { before, after } = player.listsAround(shown.place);
    drawTable(after, before, sayPlace(), (changes) => (shown.place > 0 ? sayChanges(changes) : ""));
  });
  markPlace();
}

/** Shows the table of a file, until a line of the script is shown again. */
function showFile(name, list) {
  shown.opened.clear();
  drawTable(list, null, `The table of the file ${name}`, () => sayInside(shown.spaces.root));
  shown.isFile = true;
}

/** Shows what a file of text has. */
async function showText(name, text) {
  const kind = kindOfText(text);
  if (kind !== "script") return showFile(name, kind === "text" ? await listOfText(text) : text);
  takeScript(text, `The script of the file ${name}.`);
  remember();
}

/** Shows the calls of a saved history as a script, and says which of them is answered otherwise here, if one is. */
function showSaved(name, saved) {
  const { lines, workers, torn, firstStamp } = saved;
  if (firstStamp !== 1n) throw new Error(`its first stamp is ${firstStamp}, and the page plays histories from 1 on`);
  const left = torn > 0 ? `, and ${torn} bytes at its end are torn` : "";
  const about = `The saved history ${name}: calls ${lines.length}, workers ${workers}${left}.`;
  takeScript(lines.map((line) => `${line}\n`).join(""), about, String(saved.pidMax));
  const place = shown.answers.findIndex((answer, at) => answer !== saved.answers[at]);
  if (place >= 0) sayFault(`Line ${place + 1}: ${lines[place]} was answered ${saved.answers[place]}, and is ${shown.answers[place]} here.`);
}

/** Opens the file that was chosen. A script becomes one's own, and of another the table is shown. */
async function openFile() {
  const [file] = fields.file.files;
  if (!file) return;
  try {
    if (file.size > MOST_BYTES) throw new Error(`it has more than ${MOST_BYTES / 2 ** 20} MiB`);
    const bytes = new Uint8Array(await file.arrayBuffer());
    sayFault("");
    if (isSaved(bytes)) showSaved(file.name, readSaved(bytes));
    else await showText(file.name, new TextDecoder().decode(bytes));
  } catch (fault) {
    sayFault(`The file ${file.name} is not shown: ${fault.message}.`);
  }
  // So that the same one can be opened again.
  fields.file.value = "";
}

/** Plays the script anew, and shows the table after the line. */
function playAt(place) {
  guarded(playScript);
  showPlace(place);
}

function caretLine() {
  return lineAt(fields.script.value, fields.script.selectionStart);
}

/** Shows a script with what is said of it, after its last line. */
function showScript(script, pidMax, about) {
  clearTimeout(waiting);
  waiting = undefined;
  shown.opened.clear();
  fields.about.textContent = about;
  fields.script.value = script;
  fields["pid-max"].value = pidMax;
  playAt(linesOf(fields.script.value).length);
  fields.editor.scrollTop = 0;
}

function chooseExample() {
  const example = examples.find(({ name }) => name === fields.example.value);
  if (example) showScript(example.script, "32768", example.about);
  else showScript(own.script, own.pidMax, "");
}

/** Keeps what the fields have as one's own. */
function keepOwn() {
  fields.example.value = "";
  fields.about.textContent = "";
  Object.assign(own, { script: fields.script.value, pidMax: fields["pid-max"].value });
}

/** Has the browser keep one's own script, and says so where it does not. */
function remember() {
  if (!keepScript(own)) fields.about.textContent = "This browser keeps no script: it will be gone with the page.";
}

/** Who edits has a script of their own, which is no more that of the address. A long one is played at a pause. */
function edit() {
  keepOwn();
  if (location.hash !== "") history.replaceState(null, "", "#");
  clearTimeout(waiting);
  waiting = undefined;
  const play = () => {
    waiting = undefined;
    playAt(caretLine());
    remember();
  };
  if (linesOf(own.script).length <= SHORT_SCRIPT) play();
  else waiting = setTimeout(play, PAUSE);
}

/** Plays the script with another bound. */
function bind() {
  playAt(shown.place);
  if (fields.example.value !== "") return;
  own.pidMax = fields["pid-max"].value;
  remember();
}

/** Puts the script into the address. */
function makeLink() {
  location.hash = hashOf(fields.script.value);
  fields.about.textContent = "The address of the page has this script.";
}

/** Has a script be one's own, and shows it. */
function takeScript(script, about, pidMax = "32768") {
  fields.script.value = script;
  fields["pid-max"].value = pidMax;
  keepOwn();
  showScript(own.script, own.pidMax, about);
}

/** Shows the script of the address, if it has one; whether it has. */
function openLink() {
  try {
    const script = scriptOf(location.hash);
    if (script === null) return false;
    if (script === fields.script.value) return true;
    takeScript(script, "");
    return true;
  } catch (fault) {
    sayFault(fault.message);
    return true;
  }
}

/** Has the browser save a text as a file. */
function saveFile(name, type, text) {
  const url = URL.createObjectURL(new Blob([text], { type }));
  make("a", { href: url, download: name }).click();
  // The browser has begun to read it by then.
  setTimeout(() => URL.revokeObjectURL(url), PAUSE);
}

function saveList() {
  saveFile("table.list", "text/plain", shown.text);
}

/** Saves what is drawn, with its filter, its labels and what is folded, as SVG. */
function savePicture() {
  const { listing, changes, opened } = shown;
  const picture = pictureOf(listing, changes, fields.now.textContent, fields.style.textContent, { filter: filterOf(), opened });
  saveFile("table.svg", "image/svg+xml", picture);
}

/** The table after the line of the cursor, where that has moved. */
function follow() {
  if (waiting === undefined && (shown.isFile || caretLine() !== shown.place)) showPlace(caretLine());
}

/** Has an answer tell why its line is bad. */
function explain(event) {
  const row = event.target.closest?.("li.bad");
  if (row) row.title = whyBad(shown.lines[row.dataset.place - 1]);
}

function stepBy(step) {
  showPlace(Math.max(shown.place + step, 0));
  reveal(shown.place);
}

/** The line on which somebody pressed, where it was one. */
function pressed(event) {
  const place = event.target.closest("[data-place]")?.dataset.place;
  if (place) showPlace(Number(place));
}

/** Draws more of where somebody has pressed the button for it. */
function drawMore(event) {
  const list = event.target.closest(".more")?.parentElement;
  if (!list) return;
  if (fields.controls.contains(list)) shown.controls.showMore(list);
  else shown.spaces.showMore(list.parentElement);
}

/** Marks the parent and the children of the task under the pointer. */
function relate(event) {
  const root = event.target.closest?.(".task")?.dataset;
  for (const row of fields.spaces.querySelectorAll(".task")) {
    row.classList.toggle("is-parent", root !== undefined && row.dataset.root === root.parent);
    row.classList.toggle("is-child", root !== undefined && row.dataset.parent === root.root);
  }
}

function listen() {
  fields.example.addEventListener("change", chooseExample);
  fields["pid-max"].addEventListener("input", bind);
  fields.script.addEventListener("input", edit);
  for (const kind of ["keyup", "click"]) fields.script.addEventListener(kind, follow);
  fields.link.addEventListener("click", makeLink);
  addEventListener("hashchange", openLink);
  fields.place.addEventListener("input", () => stepBy(Number(fields.place.value) - shown.place));
  fields.back.addEventListener("click", () => stepBy(-1));
  fields.on.addEventListener("click", () => stepBy(1));
  fields.answers.addEventListener("click", pressed);
  fields.answers.addEventListener("pointerover", explain);
  fields.gutter.addEventListener("click", pressed);
  fields.editor.addEventListener("scroll", scrollRows);
  fields.file.addEventListener("change", openFile);
  fields["save-list"].addEventListener("click", saveList);
  fields["save-picture"].addEventListener("click", savePicture);
  fields.filter.addEventListener("input", drawNamespaces);
  fields.labels.addEventListener("input", drawListing);
  fields.spaces.addEventListener("toggle", (event) => shown.spaces.toggle(event.target), true);
  fields.spaces.addEventListener("click", drawMore);
  fields.controls.addEventListener("click", drawMore);
  fields.spaces.addEventListener("pointerover", relate);
  fields.spaces.addEventListener("pointerleave", relate);
}

async function begin() {
  fields.example.append(...examples.map(({ name }) => make("option", { value: name }, name)));
  try {
    useModule(await compileModule());
    player = newPlayer();
  } catch (fault) {
    return sayFault(`This browser does not run the table (${fault.message}). It needs WebAssembly.`);
  }
  listen();
  const kept = keptScript();
  Object.assign(own, kept);
  fields.example.value = kept ? "" : examples[0].name;
  chooseExample();
  openLink();
  document.body.dataset.ready = "yes";
}

begin();
