// The way to the lab, which is in this page: a worker with Python and the machine, one message for each request.

import { ask, byId, button, make, offerFile, put } from "../../page/web/common/dom.js";
import { KeptWork, fileOf, jsonFile, textsOf } from "./kept_work.js";
import { Pending } from "../../page/web/common/pending.js";
import { textOf } from "../../page/web/common/texts.js";

/** @typedef {import("./playground").FromWorker} FromWorker */
/** @typedef {import("./playground").PageData} PageData */
/** @typedef {import("./playground").Texts} Texts */
/** @typedef {import("../../page/web/types").Connection} Channel */

const MOST_IMAGE_BYTES = 1 << 20;
const elementText = (/** @type {string} */ id) => document.getElementById(id)?.textContent ?? "";
/** @type {() => PageData} */
const pageData = () => JSON.parse(elementText("parts"));

try {
  sessionStorage.getItem("code");
} catch {
  /** @type {Map<string, string>} of this tab, where the browser refuses storage, as in a frame without an origin */
  const values = new Map();
  const getItem = (/** @type {string} */ name) => values.get(name) ?? null;
  const setItem = (/** @type {string} */ name, /** @type {unknown} */ value) => values.set(name, `${value}`);
  const removeItem = (/** @type {string} */ name) => values.delete(name);
  Object.defineProperty(window, "sessionStorage", { value: { getItem, setItem, removeItem, clear: () => values.clear() } });
}
sessionStorage.setItem("code", "A1"); // the only seat

/** The exercise that the address names behind its #, which is taken out of it; "" for none. */
function takeExercise() {
  const [, name = ""] = /^#exercise=(.{1,40})/.exec(location.hash) ?? [];
  if (!name) return "";
  history.replaceState(null, "", location.pathname);
  if (sessionStorage.getItem("begun") === null) sessionStorage.setItem("begun", ""); // in place of the start page
  return name;
}

let wanted = takeExercise();
/** @type {Connection | undefined} */ let current;

addEventListener("hashchange", (event) => { // registered before the page's listener, which takes an address as a code
  wanted = takeExercise() || wanted;
  if (wanted) event.stopImmediatePropagation();
  if (wanted && current?.isReady) current.listener.told({ kind: "news" });
});

/** @implements {Channel} */
export class Connection {
  isReady = false;
  isStarting = true; // until the worker has greeted the page, or has failed
  ahead = 0;
  pending = new Pending();
  /** @type {Worker | null} */ worker = null;
  /** @type {Window | null} */ tab = null; // for a lesson
  /** @type {import("./playground").TextChanges} */ theirs = {}; // of another tab, which this page joins with its own
  saveRest = () => offerFile("vecmon-damaged.json", jsonFile(this.work.rest));
  damaged = button(textOf("playground.damaged"), textOf("playground.damaged.label"), this.saveRest);
  words = Object.assign(make("p", ""), { id: "stored", hidden: true });

  /** @param {string} code of the only seat @param {import("../../page/web/types").Listener} listener */
  constructor(code, listener) {
    current = this;
    this.listener = listener;
    this.work = new KeptWork((words) => this.say(words), (stored) => this.takeOver(stored));
    this.addElements();
    document.addEventListener("click", (event) => this.openLesson(event), true);
    document.addEventListener("dragover", (event) => event.preventDefault());
    document.addEventListener("drop", (event) => {
      event.preventDefault();
      this.drop(event.dataTransfer?.files[0]);
    });
    addEventListener("pagehide", () => this.send({ keep: true }));
    this.listener.gone(textOf("playground.starts"));
    this.work.open().then(() => this.begin());
  }

  send = (/** @type {import("./playground").ToWorker} */ message) => this.worker?.postMessage(message);

  /** Adds what a page without a server has: work from a file, a sentence on storage, and one on checks. */
  addElements() {
    byId("home").title = textOf("playground.take-home.title");
    const ariaLabel = textOf("playground.file.label");
    const choose = Object.assign(make("input", ""), { type: "file", accept: ".json", ariaLabel, hidden: true });
    choose.addEventListener("change", () => {
      this.bring(choose.files?.[0]);
      choose.value = "";
    });
    this.damaged.hidden = true;
    byId("home").after(button(textOf("playground.bring"), textOf("playground.bring.label"), () => choose.click()), choose, this.damaged);
    byId("banner").append(this.words);
    byId("keys").after(make("p", "", pageData().about));
  }

  say(/** @type {string} */ words) {
    put(this.words, words);
    this.words.hidden = !words;
    this.damaged.hidden = !this.work.rest.length;
  }

  /** Starts the worker with the texts that were kept. */
  begin() {
    const parts = pageData().files;
    for (const part of Object.values(parts)) {
      if (part.url) part.url = new URL(part.url, location.href).href;
      else part.base64 = elementText(part.id ?? "");
    }
    this.worker = new Worker(URL.createObjectURL(new Blob([JSON.parse(elementText("worker"))], { type: "text/javascript" })));
    this.worker.onmessage = ({ data }) => this.hear(data);
    this.worker.onerror = ({ message }) => this.fail(message);
    this.send({ parts, begin: this.work.texts });
  }

  /** Ends the worker, and starts another one with other texts. */
  async restart(/** @type {Texts} */ texts) {
    this.worker?.terminate();
    Object.assign(this, { isReady: false, isStarting: true });
    this.pending.drop();
    this.listener.gone(textOf("playground.starts"));
    await this.work.replace(texts);
    this.listener.told({ kind: "news", patch: { seat: "" } }); // so that the page takes up the seat anew, with its source
    this.begin();
  }

  /** Saves in place of a tab that is closed, with its stored texts: as they are, or next to the work on this page. */
  async takeOver(/** @type {Texts} */ stored) {
    await this.ask({ ask: "lines", do: [], look: [] }, { keep: true }); // so that the texts are those of the work on this page
    this.theirs = this.work.changesOf(stored);
    if (this.work.hasChanged) return this.send({ join: this.theirs, keep: true });
    this.work.adopt(stored);
    if (!Object.keys(this.theirs).length) return undefined;
    await this.restart(stored);
    return this.say(textOf("playground.took-up"));
  }

  /** Saves the joined work of both tabs. */
  async saveJoined() {
    const names = Object.keys(this.theirs);
    await this.work.saveInPlace(names);
    if (names.length && !this.work.isFull) this.say(textOf("playground.joined"));
  }

  keepUnsaved = (/** @type {import("../../page/web/types").UnsavedSource} */ source) => this.work.keepUnsaved(source);

  fail(/** @type {string} */ words) {
    Object.assign(this, { isReady: false, isStarting: false });
    this.pending.drop();
    this.listener.gone(textOf("playground.failed", { cause: words }));
  }

  hear(/** @type {FromWorker} */ message) {
    if (message.kind === "keep") return this.work.keep(...message.entry);
    if (message.kind === "memory") {
      document.body.dataset.memory = `${message.bytes}`; // for lab/tools/other_browsers.py
      return undefined;
    }
    if (message.kind === "failed") return this.fail(message.text);
    if (message.kind === "lesson") return this.showLesson(message);
    if (message.kind === "hello") {
      this.isReady = true;
      Object.assign(message.patch ?? {}, { examples: pageData().examples });
      this.listener.gone("");
      if (message.lost.length) this.say([this.work.trouble, ...message.lost.map((words) => `${words}.`)].join(" "));
    }
    this.listener.told(message);
    if (message.kind === "news" && message.joined) this.saveJoined();
    if (message.kind === "answer") this.pending.settle(message);
  }

  /** The exercise that the address names, once: the page opens it. */
  takeWanted() {
    const name = wanted;
    wanted = "";
    return name;
  }

  /** The lab's answer to a request; null if the lab isn't there. With `keep` the lab sends all changes first. */
  /** @type {(request: import("../../page/web/types").Request, kept?: { keep?: boolean }) => ReturnType<Channel["ask"]>} */
  async ask(request, kept = {}) {
    if (!this.isReady) return null;
    const { request: numbered, answer } = this.pending.add(request);
    this.send({ ...kept, request: JSON.stringify(numbered) });
    return answer;
  }

  /** Saves all work as a file; true. */
  async download() {
    await this.ask({ ask: "lines", do: [], look: [] }, { keep: true });
    offerFile("vecmon-work.json", fileOf(this.work.texts));
    return true;
  }

  /** Replace the work by that of a file, if the answer is yes. */
  async bring(/** @type {File | undefined} */ file) {
    if (!file) return;
    try {
      const texts = await textsOf(file);
      ask(textOf("playground.replaces"), textOf("playground.bring"), () => this.restart(texts));
    } catch (error) {
      this.say(/** @type {Error} */ (error).message);
    }
  }

  /** Loads an image that was dropped on the page, or brings work from a file. */
  async drop(/** @type {File | undefined} */ file) {
    if (!file || !this.isReady) return undefined;
    if (file.name.endsWith(".json")) return this.bring(file);
    const content = await file.slice(0, MOST_IMAGE_BYTES + 1).arrayBuffer(); // what is larger is refused by its size
    return this.send({ image: file.name, path: "/dropped", content });
  }

  /** Opens a lesson in a tab of its own; it is made now. */
  openLesson(/** @type {Event} */ event) {
    const at = /** @type {Partial<Element>} */ (event.target); // or the document, which has no closest
    const address = at.closest?.('a[href^="lesson/"]')?.getAttribute("href");
    if (!address) return;
    event.preventDefault();
    this.tab = window.open("", "_blank");
    this.send({ lesson: address.slice("lesson/".length) });
  }

  showLesson(/** @type {{ page?: string, error?: string }} */ { page = "", error }) {
    if (error || !this.tab) return this.say(error ?? textOf("playground.no-tab"));
    this.tab.location.href = URL.createObjectURL(new Blob([page], { type: "text/html" }));
    return undefined;
  }
}
