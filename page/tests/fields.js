// The elements that the page's script asks for, as far as it asks: values, texts, classes and listeners; and a module of WebAssembly that
// answers every line by 1, or that it is bad where it begins so.

const LIST = "task 1 space 0 parent 0 group 1 session 1 control 0 live\nspace 0 parent - cursor 2\ncontrol 0 parent - limit max count 1\n";

// What was saved, and what stands at the addresses that were made for it.
export const saved = [];
const blobs = new Map();

/** What a browser keeps from one visit to the next: of the words at most so many letters. */
export class Kept {
  constructor(most = 5_000_000) {
    this.most = most;
    this.words = new Map();
  }
  getItem(name) {
    return this.words.get(name) ?? null;
  }
  setItem(name, word) {
    if (word.length > this.most) throw new Error("QuotaExceededError");
    this.words.set(name, word);
  }
}

export class Element {
  constructor() {
    Object.assign(this, { value: "", textContent: "", hidden: false, children: [], dataset: {}, listeners: {}, classes: new Set(), scrollTop: 0, clientHeight: 0 });
    this.style = { setProperty: () => undefined };
    this.classList = { toggle: (name, on) => (on ? this.classes.add(name) : this.classes.delete(name)) };
    this.attributes = {};
  }
  get selectionStart() {
    return this.value.length;
  }
  setAttribute(name, value) {
    this.attributes[name] = String(value);
    if (name.startsWith("data-")) this.dataset[name.slice("data-".length)] = String(value);
  }
  append(...children) {
    this.children.push(...children);
  }
  replaceChildren(...children) {
    this.children = children;
  }
  addEventListener(kind, listener) {
    this.listeners[kind] = listener;
  }
  querySelectorAll() {
    return [];
  }
  querySelector() {
    return null;
  }
  get lastElementChild() {
    return Object.assign(this.children.at(-1), { remove: () => this.children.pop() });
  }
  click() {
    saved.push({ name: this.attributes.download, text: blobs.get(this.attributes.href) });
  }
  /** Whether it has an element below it. */
  contains(other) {
    return this === other || this.children.some((child) => child.contains?.(other));
  }
  /** The element of a class that is nearest above, as far as the tests need it: itself. */
  closest() {
    return this;
  }
  /** All texts in it. */
  get said() {
    return this.textContent + this.children.map((child) => (typeof child === "string" ? child : child.said)).join("");
  }
}

/** The functions of bindings/js/wasm/around.c that the page needs, each of whose places has a KiB. */
function standIn() {
  const memory = new WebAssembly.Memory({ initial: 16 });
  const place_of = (what) => 1024 * (what + 1);
  const [size, line, answer] = [7, 8, 9].map(place_of);
  const write = (text, room) => {
    new Uint8Array(memory.buffer).set(new TextEncoder().encode(text), room);
    new DataView(memory.buffer).setUint32(size, text.length, true);
    return 0;
  };
  const read = (length) => new TextDecoder().decode(new Uint8Array(memory.buffer, line, length));
  return {
    memory,
    place_of,
    take: () => 65536,
    give: () => undefined,
    open_with: () => 0,
    line_by: (worker, length) => (read(length).startsWith("FORK") ? 71 : write("1", answer)),
    list: (room) => write(LIST, room),
  };
}

/** Sets up what a browser has, and loads the page's script; the elements by their ids. */
export async function loadPage(examples, hash, kept = new Kept()) {
  const byId = new Map();
  const find = (id) => byId.get(id) ?? byId.set(id, new Element()).get(id);
  find("examples").textContent = JSON.stringify(examples);
  find("pid-max").value = "32768";
  const body = new Element();
  const listeners = {};
  globalThis.document = { getElementById: find, createElement: () => new Element(), body };
  globalThis.location = { hash };
  globalThis.localStorage = kept;
  globalThis.history = { replaceState: (state, title, url) => (globalThis.location.hash = url === "#" ? "" : url) };
  URL.createObjectURL = (blob) => {
    const url = `blob:${blobs.size}`;
    blobs.set(url, blob);
    return url;
  };
  URL.revokeObjectURL = () => undefined;
  find("style").textContent = ":root {} :root {}";
  globalThis.addEventListener = (kind, listener) => (listeners[kind] = listener);
  WebAssembly.compile = async () => null;
  WebAssembly.Instance = class {
    exports = standIn();
  };
  await import(`../page.js?${Math.random()}`);
  const fire = (id, kind, value) => {
    if (value !== undefined) find(id).value = value;
    return (id ? find(id).listeners : listeners)[kind]({ target: find(id) });
  };
  /** Chooses a file of a name and a text, and waits until it is opened. */
  const choose = (name, text, size = text.length) => {
    const bytes = typeof text === "string" ? new TextEncoder().encode(text) : text;
    find("file").files = [{ name, size, arrayBuffer: async () => bytes.buffer.slice(bytes.byteOffset, bytes.byteOffset + bytes.length) }];
    return fire("file", "change");
  };
  while (!body.dataset.ready && find("fault").textContent === "") await new Promise((resolve) => setTimeout(resolve, 1));
  return { find, fire, choose, body };
}
