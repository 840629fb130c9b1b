// The start page of an author: a new program, a file, recent sources, and examples. Each of them begins the bench.

import { make, part, prose, put } from "../common/dom.js";
import { languageOf } from "../editor/links.js";
import { store, stored } from "../common/preferences.js";
import { textOf } from "../common/texts.js";

/** @typedef {import("../messages").StudentView} View */
/** @typedef {{ name: string, text: string, language: number }} NamedSource */

const KEY = "vecmon-recent";
const MOST = 6;
const NAME = "begun"; // in the tab's storage: the name of the source in the editor

/** The sources that this browser has kept, the last one first. */
/** @type {() => (NamedSource & { time: number })[]} */
const recent = () => stored(KEY) ?? [];

/** The heading of choices, and the choices in columns; nothing without choices. */
/** @type {(heading: string, tiles: HTMLElement[]) => HTMLElement[]} */
const group = (heading, tiles) => (tiles.length ? [make("h3", "", heading), make("div", "tiles", ...tiles)] : []);

export class StartPage {
  /** @param {HTMLElement} root @param {import("./bench").Bench} bench @param {View} view with examples */
  constructor(root, bench, view) {
    this.root = root;
    this.bench = bench;
    this.view = view;
    const { editor, source } = bench;
    /** @type {(name: string, text: string | null) => () => unknown} */
    const beginner = (name, text) => async () => {
      await this.begin({ name, text: text ?? "", language: languageOf(name, editor.language) });
      editor.code.focus(); // to write at once
    };
    part(root, "new-program").addEventListener("click", beginner("program.s", part(root, "source").defaultValue));
    part(root, "new-in-c").addEventListener("click", beginner("program.c", part(root, "c-start").textContent));
    part(root, "open-source").addEventListener("click", () => source.file.click());
    source.openFree = () => this.openFree();
    source.file.addEventListener("change", () => {
      this.keep();
      bench.leave();
      this.leave(source.file.files?.[0]?.name);
    });
    part(root, "to-start").addEventListener("click", () => this.open());
    part(root, "to-start").hidden = false;
    part(root, "new-in-c").disabled = view.no_c !== "";
    const why = view.no_c && textOf("author.no-c", { reason: view.no_c });
    put(part(root, "why-no-c"), why, prose(why));
    part(root, "new-in-c").title = why.replaceAll("`", "");
    addEventListener("pagehide", () => this.keep());
    document.addEventListener("drop", () => this.toggle(false)); // an image, whose refusal is in the console
    for (const [heading, own = []] of Object.entries(Object.groupBy(view.examples ?? [], (example) => example.group)))
      part(root, "examples").append(...group(heading, own.map((each) => this.tile(each.title, each.about, each.name, each))));
    part(root, "to-exercises").addEventListener("click", () => {
      this.leave();
      bench.panes.show("exercise");
    });
    part(root, "to-exercises").hidden = !Object.keys(view.exercises).length;
    const isWanted = sessionStorage.getItem(NAME) !== null || sessionStorage.getItem("linked"); // a source or an exercise
    if (!view.source.text && view.state.run === "absent" && !isWanted) this.open();
  }

  /** Shows the bench once an exercise was opened, or a machine has begun. */
  show(/** @type {View} */ view) {
    const isOtherWork = view.source.exercise !== this.view.source.exercise;
    const isOther = isOtherWork || view.state.run !== this.view.state.run;
    if (isOtherWork) this.keep(); // what is in the editor yet
    this.view = view;
    if (isOther && !part(this.root, "start-page").hidden) this.leave();
  }

  /** A button that begins with a source. */
  /** @type {(title: string, about: string, note: string, source: NamedSource) => HTMLElement} */
  tile(title, about, note, source) {
    const words = [make("b", "", title), make("span", "", ...prose(about)), make("small", "", note)];
    const disabled = source.language > 0 && this.view.no_c !== "";
    return Object.assign(make("button", "tile", ...words), { disabled, onclick: () => this.begin(source) });
  }

  /** Opens the program that belongs to no exercise, unless it is open. */
  async openFree() {
    if (this.view.source.exercise) await this.bench.source.openExercise("");
  }

  /** A button that leads from an exercise back to the program. */
  ownTile() {
    const words = [make("b", "", textOf("author.own")), make("span", "", textOf("author.own.about"))];
    const onclick = async () => {
      await this.openFree();
      await this.bench.leaveOther();
    };
    return Object.assign(make("button", "tile", ...words), { onclick });
  }

  open() {
    this.keep();
    const tiles = recent().map(({ time, ...source }) => {
      const saved = new Date(time).toLocaleString("en-GB", { dateStyle: "medium", timeStyle: "short" });
      return this.tile(source.name, /[^\s/#].*/.exec(source.text)?.[0] ?? "", saved, source);
    });
    const { exercise, own_program } = this.view.source;
    if (exercise && own_program) tiles.unshift(this.ownTile());
    part(this.root, "recent").replaceChildren(...group(textOf("author.recent"), tiles));
    this.toggle(true);
    part(this.root, "new-program").focus();
  }

  /** Puts a source into the editor, where what was there becomes a version; a machine that has another source is left. */
  async begin(/** @type {NamedSource} */ { name, text, language }) {
    await this.openFree();
    await this.bench.source.replace({ text, language });
    if (this.bench.hasChanged) this.bench.leave();
    this.leave(name);
  }

  /** Shows the bench with a source of a name. */
  leave(name = "") {
    sessionStorage.setItem(NAME, name);
    this.toggle(false);
    this.bench.panes.show("editor");
    part(this.root, "one").focus();
  }

  toggle(/** @type {boolean} */ isOpen) {
    part(this.root, "start-page").hidden = !isOpen;
    this.root.classList.toggle("starting", isOpen);
  }

  /** Keeps the source in the editor among the recent ones. */
  keep() {
    const name = sessionStorage.getItem(NAME);
    if (!name || this.view.source.exercise) return; // an answer isn't a program of this name
    const others = recent().filter((each) => each.name !== name);
    store(KEY, [{ name, ...this.bench.editor.source, time: Date.now() }, ...others].slice(0, MOST));
  }
}
