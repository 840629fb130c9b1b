// The work of this page in the browser's storage (IndexedDB): texts by name, each with its time in seconds since 1970; and files of them.

import { store, stored } from "../../page/web/common/preferences.js";
import { textOf } from "../../page/web/common/texts.js";

/** @typedef {import("./playground").Entry} Entry */
/** @typedef {import("./playground").Texts} Texts */
/** @typedef {import("../../page/web/types").UnsavedSource} UnsavedSource */
/** @typedef {UnsavedSource & { page: string, time: number }} WaitingSource of a tab that doesn't save; page: as that of KeptWork */

const DATABASE = "vecmon playground"; // the tab that saves holds a lock of this name
const STORE = "texts";
const FORMAT = "vecmon work";
const FORMAT_VERSION = 1;
const NEWER = textOf("playground.newer");
const ELSEWHERE = textOf("playground.elsewhere");
const UNSAVED = "A1.unsaved"; // the source in the editor as the page was closed
const UNSAVED_KEY = "vecmon-unsaved"; // of that source in localStorage
const WAITING_KEY = "vecmon-unsaved-tabs"; // the key of the sources in the editors of waiting tabs as those were hidden or closed
const OPEN_SOURCE = /^A1\.(?!written)/; // the text that has the source of the open work
const RETRY_PAUSE = 3000; // ms after which what the storage didn't take is written again
const MOST_FILE_BYTES = 64 << 20;
const MOST_TEXTS = 20000;
const NAME = /^[\w.@-]+(\/[\w.@-]+)?$/; // of a text, with one folder at most

/** The result of a request to the database. */
/** @type {<Result>(request: IDBRequest<Result>) => Promise<Result>} */
const resultOf = (request) =>
  new Promise((done, fail) => {
    request.onsuccess = () => done(request.result);
    request.onerror = () => fail(request.error);
  });

/** Whether an entry is one of this format: a name, a text and a time. */
/** @type {(entry: Partial<Entry> | null) => entry is Entry} */
export const isEntry = (entry) =>
  typeof entry?.name === "string" && NAME.test(entry.name) && typeof entry.text === "string" && Number.isFinite(entry.time);

/** Texts by name, as Python takes them. */
/** @type {(entries: Entry[]) => Texts} */
export const byName = (entries) => Object.fromEntries(entries.map(({ name, text, time }) => [name, [text, time]]));

/** A file in JSON. */
export const jsonFile = (/** @type {object} */ content) => new Blob([JSON.stringify(content, null, 1)], { type: "application/json" });

/** A file with all texts. */
export function fileOf(/** @type {Texts} */ texts) {
  const entries = Object.entries(texts).map(([name, [text, time]]) => ({ name, text, time }));
  return jsonFile({ format: FORMAT, version: FORMAT_VERSION, texts: entries });
}

/** The texts of a file, by name; raises an error with a sentence if it is none of these. */
export const textsOf = async (/** @type {File} */ file) => {
  const most = MOST_FILE_BYTES.toLocaleString(textOf("language"));
  if (file.size > MOST_FILE_BYTES) throw new Error(textOf("playground.file.too-large", { file: file.name, most }));
  const content = await new Response(file).json().catch(() => null);
  if (content?.format !== FORMAT || !Array.isArray(content.texts)) throw new Error(textOf("playground.file.unknown", { file: file.name }));
  if (content.version > FORMAT_VERSION) throw new Error(textOf("playground.file.newer", { file: file.name }));
  /** @type {Entry[]} */
  const entries = content.texts.slice(0, MOST_TEXTS).filter(isEntry);
  if (!entries.length) throw new Error(textOf("playground.file.empty", { file: file.name }));
  return byName(entries);
};

/** The names of texts that differ between two states of the work. */
/** @type {(before: Texts, after: Texts) => string[]} */
const changedNames = (before, after) =>
  Object.keys({ ...before, ...after }).filter((name) => before[name]?.[0] !== after[name]?.[0]);

/** The sources of waiting tabs that aren't in the database yet. */
/** @type {() => WaitingSource[]} */
const waitingSources = () => {
  const sources = stored(WAITING_KEY);
  return Array.isArray(sources) ? sources.filter((source) => typeof source?.page === "string") : [];
};

/** The name of a waiting tab's source among the texts. */
const waitingName = (/** @type {{ page: string }} */ { page }) => `${UNSAVED}.${page}`;

/** Whether a text is that of a page in which nothing was done: no lines of a machine, and their number. */
const isBlank = (/** @type {string | undefined} */ text) => ["", "0", undefined].includes(text);

/**
 * The storage of this page. If it is refused, `trouble` has a sentence, and texts are only in memory. `readOnly`: why nothing is saved.
 * Of several tabs one saves. When it is closed, the next one takes over: `tookOver` is called with the texts that are stored then.
 */
export class KeptWork {
  /** @type {Texts} */ texts = {};
  /** @type {Texts} */ first = {}; // as this page read them
  /** @type {Partial<Entry>[]} */ rest = []; // entries that can't be read
  trouble = "";
  readOnly = "";
  isFull = "";
  /** @type {IDBDatabase | null} */ database = null;
  /** @type {Map<string, Entry | null>} */ due = new Map(); // entries that aren't written yet
  /** @type {Promise<void> | null} */ writing = null;
  timer = 0; // until what failed is written again
  page = Math.random().toString(36).slice(2); // differs for each tab, and after a reload
  /** @type {Set<string>} */ taken = new Set(); // names of waiting tabs' sources that were read

  /** @param {(trouble: string) => unknown} changed is called when `trouble` has changed @param {(stored: Texts) => unknown} tookOver */
  constructor(changed, tookOver) {
    this.changed = changed;
    this.tookOver = tookOver;
  }

  /** Opens the storage, and reads what it has. */
  async open() {
    const isSaving = await this.holdLock({ ifAvailable: true });
    if (!isSaving) this.readOnly = ELSEWHERE;
    try {
      const database = await this.openDatabase();
      this.database = database;
      database.onversionchange = () => { // a newer page opens it
        database.close();
        this.readOnly = NEWER;
        this.say(NEWER);
      };
      this.first = await this.read(isSaving);
      this.texts = { ...this.first };
      const damaged = this.rest.length ? textOf("playground.unreadable", { count: this.rest.length }) : "";
      this.say(`${damaged} ${this.readOnly}`.trim());
    } catch (error) {
      this.database = null;
      this.say(textOf("playground.no-storage", { cause: /** @type {Error} */ (error).name }));
    }
    if (!isSaving) this.takeOver();
  }

  /**
   * The stored texts, with the sources of waiting tabs; entries that can't be read become the rest.
   * isSaving: whether the unsaved source is this page's
   */
  async read(isSaving = true) {
    /** @type {Partial<Entry>[]} */
    const entries = await resultOf(/** @type {IDBDatabase} */ (this.database).transaction(STORE).objectStore(STORE).getAll());
    this.rest = entries.filter((entry) => !isEntry(entry));
    const { time, ...source } = stored(UNSAVED_KEY) ?? {};
    const unsaved = { name: UNSAVED, text: JSON.stringify(source), time };
    const waiting = waitingSources().filter(({ page }) => page !== this.page).map(({ page, time: when, ...text }) =>
      ({ name: waitingName({ page }), text: JSON.stringify(text), time: when })).filter(isEntry);
    for (const { name } of waiting) this.taken.add(name);
    return byName([...entries.filter(isEntry), ...(isSaving && isEntry(unsaved) ? [unsaved] : []), ...waiting]);
  }

  openDatabase() {
    const request = indexedDB.open(DATABASE, FORMAT_VERSION);
    request.onupgradeneeded = ({ oldVersion }) => oldVersion || request.result.createObjectStore(STORE, { keyPath: "name" });
    return resultOf(request).catch((error) => {
      if (error.name !== "VersionError") throw error;
      this.readOnly = NEWER;
      return resultOf(indexedDB.open(DATABASE));
    });
  }

  /** Whether this tab gets the lock, and so is the one that saves. Without ifAvailable it waits for the lock. */
  /** @type {(options: LockOptions) => Promise<boolean>} */
  holdLock(options) {
    return new Promise((done) => {
      const hold = (/** @type {unknown} */ lock) => {
        done(Boolean(lock));
        return lock ? new Promise(() => {}) : undefined;
      };
      if (!navigator.locks) return done(true);
      return navigator.locks.request(DATABASE, options, hold).catch(() => done(true)); // of a page without an origin
    });
  }

  /** Waits until the tab that saves is closed, and takes over. */
  async takeOver() {
    await this.holdLock({});
    if (!this.database || this.readOnly !== ELSEWHERE) return;
    try {
      this.tookOver(await this.read());
    } catch (error) {
      this.say(textOf("playground.no-storage", { cause: /** @type {Error} */ (error).name }));
    }
  }

  /** Whether something was done on this page. */
  get hasChanged() {
    return changedNames(this.first, this.texts).some((name) => this.first[name] || !isBlank(this.texts[name]?.[0]));
  }

  /** The texts that another tab has changed, as they are stored; null for a removed one. */
  /** @type {(stored: Texts) => Record<string, Texts[string] | null>} */
  changesOf(stored) {
    return Object.fromEntries(changedNames(this.first, stored).map((name) => [name, stored[name] ?? null]));
  }

  /** Takes up the stored texts of another tab in place of this page's, and saves from now on. */
  adopt(/** @type {Texts} */ stored) {
    this.due.clear();
    this.texts = { ...stored };
    this.readOnly = "";
    this.say("");
  }

  /** Saves from now on, in place of another tab; the texts of these names as well, which that tab has changed. */
  saveInPlace(/** @type {string[]} */ names) {
    for (const name of names) if (!this.due.has(name)) this.due.set(name, this.entry(name));
    this.readOnly = "";
    this.say("");
    return this.save();
  }

  /** A text as the database has it; null without one. */
  entry(/** @type {string} */ name) {
    const [text, time] = this.texts[name] ?? [];
    return text === undefined || time === undefined ? null : { name, text, time };
  }

  /** Saves a text, or removes it where it is null, soon after. */
  /** @type {(name: string, text: string | null, time: number) => void} */
  keep(name, text, time) {
    if (text === null) delete this.texts[name];
    else this.texts[name] = [text, time];
    this.due.set(name, this.entry(name));
    this.save();
  }

  /** Keeps the source in the editor in a storage that is written at once, since the page may be closed now. */
  keepUnsaved(/** @type {UnsavedSource} */ source) {
    const isWaiting = this.readOnly === ELSEWHERE;
    const saved = isWaiting ? this.first : this.texts; // a waiting tab's own texts are only in memory
    const isKept = Object.entries(saved).some(([name, [text]]) => OPEN_SOURCE.test(name) && text === source.text);
    if (!this.database || isKept) return;
    const unsaved = { ...source, time: Date.now() / 1000 };
    if (!this.readOnly) store(UNSAVED_KEY, unsaved);
    if (isWaiting && source.text.trim())
      store(WAITING_KEY, [...waitingSources().filter(({ page }) => page !== this.page), { ...unsaved, page: this.page }]);
  }

  /** Replaces all texts. */
  async replace(/** @type {Texts} */ texts) {
    for (const name of Object.keys(this.texts)) if (!texts[name]) this.keep(name, null, 0);
    for (const [name, entry] of Object.entries(texts)) this.keep(name, ...entry);
    await this.writing;
  }

  /** Writes what is due; a promise that it is written, or isn't taken. */
  save() {
    this.writing ??= this.write();
    return this.writing;
  }

  /** Writes the due changes, one transaction after the other. A change that the storage refuses stays due, and is tried again. */
  async write() {
    clearTimeout(this.timer);
    await null; // so that what is kept together is written together
    let failure = "";
    while (this.due.size && this.database && !this.readOnly && !failure) failure = await this.put([...this.due]);
    if (failure) await this.putApart(failure);
    if (!this.due.size && !this.readOnly) this.forgetUnsaved();
    if (this.isFull && !this.due.size) {
      this.isFull = "";
      this.say("");
    }
    if (this.isFull) this.timer = setTimeout(() => this.save(), RETRY_PAUSE);
    this.writing = null;
  }

  /** Writes what is due in transactions of one entry each, the smallest first, after one with all failed. */
  async putApart(/** @type {string} */ failure) {
    this.isFull = textOf("playground.full", { cause: failure });
    this.say(this.isFull);
    const sizeOf = (/** @type {[string, Entry | null]} */ [, entry]) => entry?.text.length ?? -1;
    const entries = [...this.due].sort((one, other) => sizeOf(one) - sizeOf(other));
    for (const entry of entries) await this.put([entry]);
  }

  /** Writes due entries in one transaction; they are due again if it fails. Returns the name of the error, "" without one. */
  async put(/** @type {[string, Entry | null][]} */ entries) {
    for (const [name] of entries) this.due.delete(name);
    try {
      const transaction = /** @type {IDBDatabase} */ (this.database).transaction(STORE, "readwrite");
      const texts = transaction.objectStore(STORE);
      for (const [name, entry] of entries) {
        if (entry) texts.put(entry);
        else texts.delete(name);
      }
      await new Promise((done, fail) => Object.assign(transaction, { oncomplete: done, onabort: () => fail(transaction.error) }));
      return "";
    } catch (error) {
      for (const [name, entry] of entries) if (!this.due.has(name)) this.due.set(name, entry);
      return /** @type {Error | null} */ (error)?.name || "AbortError";
    }
  }

  /** Forgets the source that wasn't saved, once it is stored; and those of waiting tabs that this page has taken up, and its own as one. */
  forgetUnsaved() {
    const { text } = stored(UNSAVED_KEY) ?? {};
    const isKept = !this.texts[UNSAVED] && Object.values(this.texts).some(([each]) => each === text);
    if (isKept) store(UNSAVED_KEY, null);
    const waiting = waitingSources();
    const isTaken = (/** @type {string} */ name) => this.taken.has(name) && !this.texts[name];
    const rest = waiting.filter((source) => source.page !== this.page && !isTaken(waitingName(source)));
    if (rest.length < waiting.length) store(WAITING_KEY, rest);
  }

  say(/** @type {string} */ words) {
    this.trouble = words;
    this.changed(words);
  }
}
