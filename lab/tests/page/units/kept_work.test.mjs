// The storage of the playground: one transaction after the other, what is due after a failure, and tabs that take over.
import assert from "node:assert/strict";
import { test } from "node:test";
import { KeptWork } from "../../../vecmon_lab/playground/web/kept_work.js";

/** Waits until all transactions have ended. */
const settled = async () => {
  for (let turn = 0; turn < 20; turn++) await new Promise(setImmediate);
};

/** A browser with one database, in which a text has a largest size, and with locks in the order of their requests. */
class Browser {
  stored = new Map();
  most = Infinity;
  timers = [];
  waiting = [];
  isHeld = false;

  constructor() {
    const values = new Map();
    const navigator = { locks: { request: (_, options, hold) => this.lock(options, hold) } };
    Object.defineProperty(globalThis, "navigator", { value: navigator, configurable: true });
    globalThis.localStorage = { getItem: (name) => values.get(name) ?? null, setItem: (name, value) => values.set(name, value) };
    globalThis.indexedDB = { open: () => this.request(() => ({ transaction: () => this.transaction() })) };
    globalThis.setTimeout = (call) => this.timers.push(call);
    globalThis.clearTimeout = () => {};
  }

  async lock({ ifAvailable }, hold) {
    if (this.isHeld && ifAvailable) return hold(null);
    if (this.isHeld) await new Promise((done) => this.waiting.push(done));
    this.isHeld = true;
    return hold({});
  }

  /** Closes the tab that holds the lock. */
  release() {
    this.isHeld = false;
    this.waiting.shift()?.();
    return settled();
  }

  request(value) {
    const request = {};
    setImmediate(() => request.onsuccess(Object.assign(request, { result: value() })));
    return request;
  }

  transaction() {
    const changes = [];
    const transaction = { error: null };
    const end = () => {
      if (changes.some(([, entry]) => entry?.text.length > this.most)) {
        transaction.error = new DOMException("full", "QuotaExceededError");
        return transaction.onabort?.();
      }
      for (const [name, entry] of changes) {
        if (entry) this.stored.set(name, entry);
        else this.stored.delete(name);
      }
      return transaction.oncomplete?.();
    };
    setImmediate(end);
    const put = (entry) => changes.push([entry.name, entry]);
    const remove = (name) => changes.push([name, null]);
    const getAll = () => this.request(() => [...this.stored.values()]);
    return Object.assign(transaction, { objectStore: () => ({ put, delete: remove, getAll }) });
  }

  texts = () => Object.fromEntries([...this.stored].map(([name, { text }]) => [name, text]));
}

/** The work of a tab; `said` has all that it has reported, `taken` the texts with which it took over. */
async function open() {
  const said = [];
  const taken = [];
  const work = new KeptWork((words) => said.push(words), (stored) => taken.push(stored));
  await work.open();
  return { work, said, taken };
}

test("with a full storage the warning stays while a smaller text is saved, and goes once all is saved", async () => {
  const browser = new Browser();
  const { work, said } = await open();
  browser.most = 10;
  work.keep("A1.s", "a text that is too long", 1);
  await Promise.resolve(); // its transaction has begun
  work.keep("A.script", "1 enter", 2);
  await settled();
  assert.match(said.at(-1), /takes no more \(QuotaExceededError\)/);
  assert.deepEqual(browser.texts(), { "A.script": "1 enter" });
  work.keep("A.stop", "ebreak", 3);
  await settled();
  assert.match(said.at(-1), /takes no more/);
  assert.deepEqual(browser.texts(), { "A.script": "1 enter", "A.stop": "ebreak" });
  browser.most = Infinity;
  browser.timers.at(-1)(); // without a change
  await settled();
  assert.equal(said.at(-1), "");
  assert.equal(browser.texts()["A1.s"], "a text that is too long");
});

test("texts that become due during a transaction are written after it, the newest of each name", async () => {
  const browser = new Browser();
  const { work } = await open();
  work.keep("A1.s", "one", 1);
  await Promise.resolve();
  work.keep("A1.s", "two", 2);
  work.keep("A.stop", "ebreak", 2);
  work.keep("A.stop", null, 3);
  await settled();
  assert.deepEqual(browser.texts(), { "A1.s": "two" });
  assert.equal(work.due.size, 0);
});

test("the second tab saves nothing before the first one is closed, and then gets what that has stored", async () => {
  const browser = new Browser();
  const first = await open();
  first.work.keep("A1.s", "base", 1);
  first.work.keep("A.stop", "ebreak", 1);
  await settled();
  const second = await open();
  const third = await open();
  first.work.keep("A1.s", "first", 2);
  first.work.keep("A.stop", null, 2);
  second.work.keep("A1.s", "second", 3);
  await settled();
  assert.equal(browser.texts()["A1.s"], "first");
  assert.match(second.said.at(-1), /open in another tab/);
  assert.deepEqual(second.taken, []);
  await browser.release();
  assert.deepEqual(second.taken, [{ "A1.s": ["first", 2] }]);
  assert.deepEqual(second.work.changesOf(second.taken[0]), { "A1.s": ["first", 2], "A.stop": null });
  assert.ok(second.work.hasChanged && !third.work.hasChanged);
  assert.equal(browser.texts()["A1.s"], "first"); // until both are joined
  second.work.saveInPlace(["A1.s", "A.stop"]);
  await settled();
  assert.deepEqual(browser.texts(), { "A1.s": "second", "A.stop": "ebreak" });
  assert.equal(second.said.at(-1), "");
  assert.deepEqual(third.taken, []);
  await browser.release();
  third.work.adopt(third.taken[0]);
  third.work.keep("A1.s", "third", 4);
  await settled();
  assert.deepEqual(browser.texts(), { "A1.s": "third", "A.stop": "ebreak" });
});

test("a page on which nothing was done has no changes, whatever its machine reports", async () => {
  new Browser();
  const { work } = await open();
  work.keep("A.script", "", 1);
  work.keep("A.set_up", "0", 1);
  assert.ok(!work.hasChanged);
  work.keep("A.script", "1 enter", 2);
  assert.ok(work.hasChanged);
});

test("a source that may not be saved yet is among the texts of the next page, until it is stored", async () => {
  const browser = new Browser();
  const first = await open();
  first.work.keep("A1.s", "nop", 1);
  first.work.keepUnsaved({ text: "nop", language: 0, exercise: "" }); // which is saved
  await settled();
  await browser.release();
  assert.deepEqual((await open()).work.texts, { "A1.s": ["nop", 1] });
  first.work.keepUnsaved({ text: "ret", language: 0, exercise: "doubles" });
  const other = await open(); // while the last one saves
  assert.deepEqual(other.work.texts, { "A1.s": ["nop", 1] });
  await browser.release();
  assert.deepEqual(JSON.parse(other.taken[0]["A1.unsaved"][0]), { text: "ret", language: 0, exercise: "doubles" });
  other.work.adopt(other.taken[0]);
  other.work.keep("A.stop", "ebreak", 2);
  await settled();
  await browser.release();
  const next = await open();
  assert.ok(next.work.texts["A1.unsaved"]); // that page hasn't taken it up
  next.work.keep("A1.s", "ret", 3);
  next.work.keep("A1.unsaved", null, 3);
  await settled();
  await browser.release();
  assert.deepEqual((await open()).work.texts, { "A1.s": ["ret", 3], "A.stop": ["ebreak", 2] });
});

test("the source of a closed waiting tab is among the texts of the next page, and of the saving one until it is stored", async () => {
  const browser = new Browser();
  const first = await open();
  first.work.keep("A1.s", "nop", 1);
  await settled();
  const waiting = await open();
  const source = { text: "ret", language: 0, exercise: "doubles" };
  waiting.work.keepUnsaved({ ...source, text: "nop" }); // which is saved
  waiting.work.keepUnsaved({ ...source, text: "re" });
  waiting.work.keep("A1.s", "ret", 2); // in memory
  waiting.work.keepUnsaved(source); // and is closed
  const unsavedOf = (texts) => Object.keys(texts).filter((name) => name.startsWith("A1.unsaved"));
  const again = await open();
  const [name] = unsavedOf(again.work.texts);
  assert.deepEqual(JSON.parse(again.work.texts[name][0]), source);
  again.work.keep(name, null, 3); // taken up, but in memory alone
  await settled();
  assert.equal(localStorage.getItem("vecmon-unsaved"), null); // of the tab that saves
  await browser.release(); // the tab that waited first is the next one in the browser's queue; its own source is in it
  assert.deepEqual(unsavedOf(waiting.taken[0]), []);
  await browser.release();
  again.work.saveInPlace([]);
  await settled();
  assert.equal(localStorage.getItem("vecmon-unsaved-tabs"), "[]");
  await browser.release();
  assert.deepEqual(unsavedOf((await open()).work.texts), []);
});
