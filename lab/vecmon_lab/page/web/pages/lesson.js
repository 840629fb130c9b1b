// A lesson: frames made beforehand, stepped back and forth. Each has what changed of the states.

import { byId, elementsIn, make, prose, put } from "../common/dom.js";
import { Panes } from "../panels/panes.js";
import { afterEach } from "../common/patches.js";
import { keepRead, markRead } from "./progress.js";
import { offerLineTypes } from "../common/preferences.js";
import { lineBegins } from "../panels/source_lines.js";
import { textOf } from "../common/texts.js";
import { STOP, entryParts, logEntry } from "../panels/transcript.js";
import { MachineView, usedIn } from "../panels/view.js";
import { WrittenSource } from "../panels/written.js";

/** @typedef {import("../messages").State} State */
/** @typedef {Record<string, State>} States by user */
/** @typedef {import("../messages").FrameData} Frame */

/** @type {[id: "first" | "begin" | "back" | "next" | "last", frames: number][]} buttons; `begin` is in the first frame */
const MOVES = [["first", -Infinity], ["begin", 1], ["back", -1], ["next", 1], ["last", Infinity]];
/** @type {Record<string, number>} */
const LINE_KEYS = { ArrowDown: 1, ArrowUp: -1 };
/** @type {Record<string, number>} */
const FRAME_KEYS = { ArrowRight: 1, ArrowLeft: -1, Home: -Infinity, End: Infinity };
const RUNS = { absent: textOf("lesson.absent"), running: textOf("lesson.running"), stopped: textOf("lesson.stopped") };
const ADDRESS_DELAY = 300; // ms: a browser limits the rate of new addresses

/** The lesson of this page. */
class Lesson {
  user = ""; // chosen to be shown; "" for the line's
  place = 0;
  address = 0; // a timer

  constructor(/** @type {import("../messages").LessonData} */ { frames, name, text = "", types = [], used = {}, ...source }) {
    this.frames = frames;
    this.source = source;
    this.name = name;
    this.isIntroduced = byId("points").childElementCount + byId("in-memory").childElementCount > 0;
    this.view = new MachineView(document);
    const panes = new Panes(document.body, "lesson");
    this.written = new WrittenSource(document, text);
    this.written.showTypes(types);
    byId("of-types").hidden = !types.length;
    offerLineTypes(byId("line-types"));
    byId("sides").hidden = !text;
    if (!text) byId("listing").setAttribute("role", "region"); // it is the panel of no tab
    byId("program-title").hidden = Boolean(text);
    panes.select(text ? byId("show-source") : byId("show-listing"));
    this.view.machine.addEventListener("change", () => this.show(this.place));
    /** @type {States[]} */
    this.states = afterEach(frames.map((frame) => frame.states));
    this.users = Object.keys(this.states[frames.length - 1]);
    this.used = Object.fromEntries(this.users.map((user) => [user, this.usedBy(user, used[user])]));
    byId("sentence").hidden = !frames.some((frame) => frame.note);
    this.buttons = ["", ...this.users].map((user) => {
      const text = user ? textOf("lesson.user", { user }) : textOf("lesson.line-user");
      const onclick = () => {
        this.user = user;
        this.show(this.place);
      };
      return Object.assign(make("button", "", text), { value: user, onclick });
    });
    this.listen();
    this.begins = lineBegins(source.starts ?? {}, this.states.map((states) => states[1]?.pc));
    this.listenToLines();
    put(elementsIn(byId("vectors"), ".missing")[0], textOf("lesson.no-machine"));
    markRead();
    this.show(Number(location.hash.slice(1) || 1) - 1);
  }

  /** The registers that a user's lines and instructions use; in a lesson without these data the vector registers that aren't always 0. */
  /** @type {(user: string, used?: import("../messages").UsedRegisters) => import("../panels/view").Used} */
  usedBy(user, used) {
    if (used) return { v: new Set(used.v), x: new Set(used.x) };
    return { v: new Set(this.states.flatMap((states) => usedIn(states[user]))) };
  }

  listen() {
    for (const [id, step] of MOVES) byId(id).addEventListener("click", () => this.show(this.place + step));
    byId("place").max = `${this.frames.length - 1}`;
    byId("place").addEventListener("input", () => this.show(byId("place").valueAsNumber));
    document.addEventListener("keydown", (event) => this.pressed(event));
    byId("users").hidden = this.users.length < 2;
    byId("users").append(...this.buttons);
  }

  /** The ways from line to line of a source in C, which has as many frames as instructions. */
  listenToLines() {
    byId("line-ways").hidden = !this.begins.length;
    const texts = new Map(Object.values(this.source.lines).map((text) => [parseInt(text), text]));
    const numbers = [...new Set(this.begins.map(({ line }) => line))].sort((one, other) => one - other);
    byId("line").append(...numbers.map((line) => Object.assign(make("option", "", texts.get(line) ?? ""), { value: line })));
    byId("line-back").addEventListener("click", () => this.stepLine(-1));
    byId("line-next").addEventListener("click", () => this.stepLine(1));
    byId("line-go").addEventListener("click", () => {
      const own = this.begins.filter(({ line }) => line === Number(byId("line").value));
      this.show((own.find(({ place }) => place > this.place) ?? own[0]).place);
    });
  }

  /** Shows the frame where the next line begins, or this one or the one before. */
  stepLine(/** @type {number} */ step) {
    const places = this.begins.map(({ place }) => place);
    this.show((step > 0 ? places.find((place) => place > this.place) : places.findLast((place) => place < this.place)) ?? this.place);
  }

  pressed(/** @type {KeyboardEvent} */ event) {
    const at = /** @type {Element} */ (event.target);
    if (event.defaultPrevented || event.ctrlKey || event.altKey || event.metaKey || at.matches("select, input")) return;
    const box = at.closest(".scroll, #output");
    if (box && box.scrollWidth > box.clientWidth) return; // there the keys move the box
    const line = LINE_KEYS[event.key];
    if (line && this.begins.length && !box) {
      event.preventDefault();
      this.stepLine(line);
      return;
    }
    const step = FRAME_KEYS[event.key];
    if (!step || (event.shiftKey && !Number.isFinite(step))) return;
    event.preventDefault();
    let place = this.place + step;
    while (event.shiftKey && this.frames[place] && !this.frames[place].note) place += step; // to the next sentence
    if (this.frames[place] || !event.shiftKey) this.show(place);
  }

  /** Shows a frame, the nearest one where there is none of this number. */
  show(/** @type {number} */ wanted) {
    this.place = Math.min(this.frames.length - 1, Math.max(0, wanted || 0));
    const frame = this.frames[this.place];
    const user = this.user || frame.user;
    const states = this.states[this.place];
    /** @type {State} */
    const state = { ...(states[user] ?? { run: "absent" }), ...this.source };
    this.showPlace(user, states);
    this.showStage(frame, state, user, states);
    this.showLog(frame.log.length);
    this.written.paint(state);
    byId("introduction").hidden = !this.isIntroduced || this.place > 0;
    if (this.name && this.place === this.frames.length - 1) keepRead(this.name);
    const earlier = this.states.slice(0, this.place).map((each) => each[user]);
    // elements are compared with the state before the last step: frames that only look have the same state
    this.view.paint(state, earlier.at(-1), this.used[user], earlier.findLast((each) => each !== states[user]));
    byId("log").scrollTop = byId("log").scrollHeight;
    clearTimeout(this.address);
    this.address = setTimeout(() => history.replaceState(null, "", `#${this.place + 1}`), ADDRESS_DELAY);
  }

  showPlace(/** @type {string} */ user, /** @type {States} */ states) {
    const numbers = { number: this.place + 1, all: this.frames.length };
    byId("count").textContent = textOf("lesson.place", numbers);
    Object.assign(byId("place"), { value: this.place, ariaValueText: textOf("lesson.place.value.label", numbers) });
    for (const [id, step] of MOVES) byId(id).disabled = this.place === (step < 0 ? 0 : this.frames.length - 1);
    for (const button of this.buttons) {
      const { value } = button;
      button.ariaPressed = `${value === this.user}`;
      button.classList.toggle("shown", value === user);
      if (value) button.textContent = textOf("lesson.user-state", { user: value, state: RUNS[states[value]?.run ?? "absent"] });
    }
  }

  /** The author's sentence, shown until the next one, the command, and the stop or refusal. */
  /** @type {(frame: Frame, state: State, user: string, states: States) => void} */
  showStage(frame, state, user, states) {
    const note = this.frames.slice(0, this.place + 1).findLast((each) => each.note)?.note ?? "";
    put(byId("sentence"), note, prose(note));
    this.view.showStop(frame.log.map((_, place) => this.entryWords(frame.log, place, states)).filter(Boolean).join("\n"));
    const more = frame.more ? textOf("lesson.more", { count: frame.more }) : "";
    const parts = frame.line ? [make("span", "", frame.line, make("small", "", more))] : [];
    const remark = (/** @type {string} */ text) => parts.push(make("small", "", text));
    if (frame.line && user !== frame.line[0] && this.users.length > 1) remark(textOf("lesson.shown", { user }));
    if (state.run === "absent") remark(textOf("lesson.no-user", { user }));
    this.view.showStep(state, ...parts);
  }

  /** The stop or refusal in an entry of a frame's log, in words; "" for most. */
  /** @type {(log: string[], place: number, states: States) => string} */
  entryWords(log, place, states) {
    const [text, refusal] = entryParts(log[place]);
    if (log[place][0] === "!") return text;
    if (log[place][0] === ">") return "";
    const stop = log[place][0] === STOP ? (states[text[0]]?.stop ?? "") : "";
    if (stop) return this.users.length > 1 ? textOf("lesson.user-stop", { user: text[0], stop }) : stop;
    const isFirst = place < 2; // then its line is next to it
    return refusal && !isFirst ? `\`${log[place - 1].slice(1)}\`:${refusal.includes("\n") ? "\n" : " "}${refusal}` : refusal;
  }

  /** The transcript up to this frame, whose own entries are `current`. Those that are there already stay. */
  showLog(/** @type {number} */ current) {
    const log = byId("log");
    const entries = this.frames.slice(0, this.place + 1).flatMap((frame) => frame.log);
    while (log.childElementCount > entries.length) log.lastChild?.remove();
    log.append(...entries.slice(log.childElementCount).map((entry) => logEntry(entry)));
    [...log.children].forEach((item, place) => item.classList.toggle("current", place >= entries.length - current));
  }
}

new Lesson(JSON.parse(byId("lesson").text));
