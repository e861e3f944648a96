// A headless Chromium, driven over a pipe by its DevTools protocol: messages as JSON, each ended by a zero byte.

import { spawn, spawnSync } from "node:child_process";
import { mkdtempSync, rmSync } from "node:fs";
import { tmpdir } from "node:os";
import { join } from "node:path";

const NAMES = ["chromium", "chromium-browser", "google-chrome"];
const WORDS = [
  "--headless=new",
  "--no-sandbox",
  "--disable-gpu",
  "--disable-dev-shm-usage",
  "--no-first-run",
  "--hide-scrollbars",
  "--remote-debugging-pipe",
];
const PATIENCE = 120_000;

/** The program's name, or undefined where there is none. */
export function findChromium() {
  return NAMES.find((name) => spawnSync(name, ["--version"], { stdio: "ignore" }).status === 0);
}

/** One Chromium with one page. */
export class Browser {
  constructor(program) {
    this.home = mkdtempSync(join(tmpdir(), "pidtab-page-"));
    const words = [...WORDS, `--user-data-dir=${this.home}`];
    this.child = spawn(program, words, { stdio: ["ignore", "ignore", "ignore", "pipe", "pipe"] });
    this.waiting = new Map();
    this.events = [];
    this.count = 0;
    this.rest = Buffer.alloc(0);
    this.child.stdio[4].on("data", (bytes) => this.receive(bytes));
  }

  receive(bytes) {
    this.rest = Buffer.concat([this.rest, bytes]);
    for (let end = this.rest.indexOf(0); end >= 0; end = this.rest.indexOf(0)) {
      const message = JSON.parse(this.rest.subarray(0, end).toString());
      this.rest = this.rest.subarray(end + 1);
      this.waiting.get(message.id)?.(message) ?? this.events.push(message);
    }
  }

  /** What the browser answers to a command; its refusal is an Error. */
  async ask(method, params = {}) {
    const id = ++this.count;
    const answer = new Promise((resolve, reject) => {
      const timer = setTimeout(() => reject(new Error(`${method}: no answer`)), PATIENCE);
      this.waiting.set(id, (message) => (clearTimeout(timer), this.waiting.delete(id), resolve(message)));
    });
    this.child.stdio[3].write(`${JSON.stringify({ id, method, params, sessionId: this.session })}\0`);
    const { result, error } = await answer;
    if (error) throw new Error(`${method}: ${error.message}`);
    return result;
  }

  /** Opens a page, and notes what it loads and what goes wrong in it. */
  async open(address, ready) {
    const { targetId } = await this.ask("Target.createTarget", { url: "about:blank" });
    const { sessionId } = await this.ask("Target.attachToTarget", { targetId, flatten: true });
    this.session = sessionId;
    for (const domain of ["Page", "Runtime", "Network", "Log"]) await this.ask(`${domain}.enable`);
    await this.ask("Page.navigate", { url: address });
    await this.until(ready);
  }

  /** The value of an expression in the page. */
  async value(expression) {
    const how = { expression, returnByValue: true, awaitPromise: true };
    const { result, exceptionDetails } = await this.ask("Runtime.evaluate", how);
    if (exceptionDetails) throw new Error(`${expression}: ${exceptionDetails.exception?.description ?? exceptionDetails.text}`);
    return result.value;
  }

  /** Waits until an expression holds. */
  async until(expression) {
    const end = Date.now() + PATIENCE;
    while (!(await this.value(`Boolean(${expression})`))) {
      if (Date.now() > end) throw new Error(`not in time: ${expression}`);
      await new Promise((resolve) => setTimeout(resolve, 50));
    }
  }

  /** Presses a key, as its name in the protocol. */
  async press(key, text) {
    const how = { key, code: key, windowsVirtualKeyCode: KEYS[key] ?? 0, ...(text && { text }) };
    await this.ask("Input.dispatchKeyEvent", { type: text ? "keyDown" : "rawKeyDown", ...how });
    await this.ask("Input.dispatchKeyEvent", { type: "keyUp", ...how });
  }

  /** Chooses a file in the field with the id. */
  async chooseFile(id, file) {
    const { root } = await this.ask("DOM.getDocument");
    const { nodeId } = await this.ask("DOM.querySelector", { nodeId: root.nodeId, selector: `#${id}` });
    await this.ask("DOM.setFileInputFiles", { files: [file], nodeId });
  }

  /** What has been told of a kind, as "Network.requestWillBeSent". */
  told(method) {
    return this.events.filter((event) => event.method === method).map(({ params }) => params);
  }

  async close() {
    const ended = new Promise((resolve) => this.child.once("exit", resolve));
    this.session = undefined;
    await this.ask("Browser.close").catch(() => this.child.kill());
    await ended;
    rmSync(this.home, { recursive: true, force: true, maxRetries: 5 });
  }
}

// The numbers by which the protocol has an input move.
const KEYS = { Tab: 9, Enter: 13, End: 35, Home: 36, ArrowLeft: 37, ArrowUp: 38, ArrowRight: 39, ArrowDown: 40 };
