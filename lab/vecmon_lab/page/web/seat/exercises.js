// The exercises of a class, at a seat: their order with marks, a text, its cases, hints that are due, and the last result.

import { blocks } from "./blocks.js";
import { byId, elementsIn, link, make, prose, put, renew } from "../common/dom.js";
import { contentOf, textOf } from "../common/texts.js";
import { caseRows, verdict } from "./verdict.js";

/** @typedef {import("../messages").ExerciseView} ExerciseView */
/** @typedef {import("../messages").SourceView} SourceView */
/** @typedef {Record<string, ExerciseView>} All exercises by name */

const STATES = { passed: ["✓", textOf("exercises.passed")], tried: ["◐", textOf("exercises.tried")], open: ["", ""] };

/** Offers the tries of an exercise in a list, below its other entries; without tries it is hidden. */
/** @type {(list: HTMLSelectElement, tries: number, ...others: string[]) => void} */
export function offerTries(list, tries, ...others) {
  const names = Array.from({ length: tries }, (_, place) => textOf("exercises.try", { number: place + 1 }));
  renew(list, [...others, ...names].map((name) => make("option", "", name)));
  list.hidden = !tries;
}

/** Whether a text is one that an exercise starts with. */
/** @type {(exercise: ExerciseView | undefined, text: string) => boolean} */
const isStart = (exercise, text) => Boolean(exercise?.starts.some((start) => start.text === text));

export class Exercises {
  /** @type {All} */ all = {};
  /** @type {string[]} */ names = []; // in the course's order
  name = ""; // of the exercise whose source the seat has; the first one's if that is a program without an exercise
  isFree = false; // whether the source is such a program, as the playground has it
  isOpen = false; // whether one is open; at a first visit they are listed
  awaited = ""; // the exercise that is being checked

  constructor(/** @type {import("./bench").Bench} */ bench) {
    this.bench = bench;
    this.sample = bench.editor.source.text;
    byId("check").onclick = () => this.checkSource();
    byId("own-answers").onchange = () => this.takeAnswer();
    byId("start-over").onclick = () => {
      this.takeStart();
      bench.panes.show("editor");
    };
    byId("reading").onclick = ({ target }) => void (target instanceof HTMLButtonElement && this.press(target)); // false would stop links
    bench.editor.language.addEventListener("change", () => {
      if (isStart(this.all[this.name], bench.editor.source.text)) bench.editor.put(this.start); // nothing was written yet
    });
  }

  /** Shows the server's data of all exercises, at a seat that has this source. */
  show(/** @type {All} */ all, /** @type {SourceView} */ source) {
    const names = Object.keys(all).sort((one, other) => all[one].number - all[other].number);
    const name = names.includes(source.exercise) ? source.exercise : names[0];
    const isFree = !source.exercise;
    const isOther = Boolean(this.name) && (name !== this.name || isFree !== this.isFree);
    const isOpen = !isFree && (this.isOpen || isOther || this.hasBegun(all, source));
    if (all === this.all && !isOther && isOpen === this.isOpen) return;
    const item = (/** @type {string} */ own) => make("li", "", Object.assign(make("button", ""), { onclick: () => this.choose(own) }));
    if (`${names}` !== `${this.names}`) byId("course-list").replaceChildren(...names.map(item));
    Object.assign(this, { all, names, name, isOpen, isFree });
    byId("tab-exercise").hidden = !names.length;
    byId("exercise").hidden = !names.length;
    document.body.classList.toggle("exercising", names.length > 0);
    if (!names.length) return;
    if (isOther) byId("reading").scrollTop = 0;
    if (isOpen) this.bench.live.view.suggestForm(all[name].unsigned ? "unsigned" : "signed");
    this.paint();
    if (isOpen && !source.text && this.all[name].starts.length && (isOther || !this.bench.editor.hasPast)) this.takeStart();
  }

  /** Whether somebody has worked at the seat: there was a try, or its source isn't the sample of a first visit. */
  hasBegun(/** @type {All} */ all, /** @type {SourceView} */ { text, exercise }) {
    const isOwn = !this.name && ![this.sample, ""].includes(text);
    return isOwn || isStart(all[exercise], text) || Object.values(all).some(({ tries }) => tries > 0);
  }

  /** Opens an exercise, in all tabs of the seat: each has a source, at first the one to begin with. A machine of another source is left. */
  async choose(/** @type {string} */ name) {
    const isListed = !this.isOpen && !this.isFree && name === this.name; // the seat has it already
    this.isOpen ||= !this.isFree;
    this.bench.panes.select(byId("show-source"));
    if (isListed) {
      this.bench.connection.ask({ ask: "open", exercise: name });
      this.paint();
      await this.takeStart();
      return this.bench.leaveOther();
    }
    byId("course-list").inert = true; // one at a time
    const isOpen = await this.bench.source.openExercise(name);
    byId("course-list").inert = false;
    return isOpen ? this.bench.leaveOther() : this.bench.refuse(textOf("exercises.not-open"));
  }

  /** Opens an exercise, the first one without a name, and brings it into sight. */
  open(name = this.names[0]) {
    this.bench.panes.show("exercise");
    return this.choose(name);
  }

  /** Puts an earlier answer into the editor, where undo takes it back. */
  async takeAnswer() {
    const number = byId("own-answers").selectedIndex;
    byId("own-answers").selectedIndex = 0;
    const answer = await this.bench.request({ ask: "answer", exercise: this.name, number });
    if (answer?.text === undefined) return;
    await this.bench.source.replace({ text: answer.text, language: answer.language ?? 0 });
    this.bench.panes.show("editor");
  }

  /** The source to begin with: of two, the one of the language that is chosen, be it C by whatever options. */
  get start() {
    const { starts } = this.all[this.name];
    const { language } = this.bench.editor.source;
    const own = starts.find((start) => start.language > 0 === this.bench.editor.isC);
    return own ? { ...own, language } : (starts[0] ?? { text: "", language: 0 });
  }

  /** Paints the list, and the exercise that is open. */
  paint() {
    const it = this.all[this.name];
    byId("exercise").classList.toggle("choosing", !this.isOpen);
    this.paintList();
    byId("check").disabled = it.checking || !this.isOpen;
    byId("start-over").hidden = !it.starts.length;
    const lesson = it.before && link(it.before, textOf("exercises.the-lesson"));
    const before = lesson ? [make("p", "", ...contentOf("exercises.lesson-before", { lesson }))] : [];
    renew(byId("exercise-text"), [make("h3", "", `${it.number} ${it.title}`), ...before, ...blocks(it.text)]);
    offerTries(byId("own-answers"), it.tries, textOf("exercises.answers"));
    const result = it.passed ? textOf("exercises.passed") : textOf("exercises.best", { best: it.best, all: it.cases.length });
    const words = it.tries ? textOf("exercises.tries", { count: it.tries, result }) : "";
    put(byId("try-count"), it.checking ? textOf("exercises.checking") : words);
    renew(byId("verdict"), verdict(it, this.names[it.number])); // numbers start at 1
    renew(byId("case-rows"), caseRows(it));
    const hints = it.hints.map((hint) => make("li", "", ...prose(hint)));
    const count = textOf("exercises.hints", { number: hints.length, all: it.hint_count });
    renew(byId("hints"), hints.length ? [make("h3", "", count), make("ol", "", ...hints)] : []);
    if (it.checking) this.awaited = this.name;
    else if (this.awaited === this.name) this.tell(it.told);
  }

  /** Paints the marks of the exercises: which are passed, tried, or not begun, and which one is open. */
  paintList() {
    elementsIn(byId("course-list"), "button").forEach((own, place) => {
      const name = this.names[place];
      const { number, title, tries, passed } = this.all[name];
      const className = passed ? "passed" : tries ? "tried" : "open";
      const [mark, state] = STATES[className];
      put(own, `${number}${title}${mark}`, [`${number}`, make("span", "title", title), make("span", "mark", mark)]);
      const ariaLabel = [`${number} ${title}`, state].filter(Boolean).join(", ");
      Object.assign(own, { className, title, ariaLabel, ariaCurrent: `${this.isOpen && name === this.name}` });
    });
  }

  /** Brings the last result into sight: the panel, and in it the result; or the source's first problem, below its line. */
  tell(/** @type {ExerciseView["told"]} */ { mistakes, warnings }) {
    this.awaited = "";
    this.bench.panes.show("exercise");
    byId("reading").scrollTop = byId("verdict").offsetTop - 8;
    this.bench.showMistakes(mistakes, warnings);
    if (mistakes?.length) this.bench.problems.goOn(1);
  }

  /** Sends the source in the editor. */
  async checkSource() {
    byId("check").disabled = true; // so that a click more checks nothing
    await this.bench.request({ ask: "check", exercise: this.name, ...this.bench.editor.source });
    byId("check").disabled = this.all[this.name].checking;
  }

  /** Opens the exercise that a button names, or starts a machine with the source in the editor, and with what its case gives. */
  press(/** @type {HTMLButtonElement} */ { name, value }) {
    if (name) {
      byId("reading").focus(); // the button goes
      return this.choose(name);
    }
    this.bench.panes.makeRoom();
    return this.bench.write({ ask: "case", exercise: this.name, case: Number(value) });
  }

  /** Puts the source to begin with into the editor. */
  takeStart = () => this.bench.source.replace(this.start);
}
