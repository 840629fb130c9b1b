// The past of a machine: earlier states of the program since its machine began, which the server finds by a replay.

import { part, parts, put, say } from "../common/dom.js";
import { textOf } from "../common/texts.js";

/** @typedef {import("../messages").State} State */
/** @typedef {import("../messages").HistoryView} HistoryView */
/** @typedef {import("../types").Message} Message */
/** @typedef {import("../types").SourceText} SourceText */
/** @typedef {import("../messages").Moment & { source?: SourceText }} Moment source: in the machine, if the seat's is another one */
/** @typedef {{ at: number, toBreak?: boolean }} Wanted a number of instructions, or the next breakpoint after it */
/** @typedef {(request: { ask: "past", at: number, to_break?: boolean }) => Promise<Message | null>} Ask */

/** @type {readonly (keyof State)[]} */
const OF_SOURCE = ["breaks", "labels", "lines", "line_numbers", "aliases", "starts", "stops", "variables", "data"];
const MOST_PARTS = 25; // of a replay that counts
const PRESENT = 2 ** 52; // more instructions than any program has executed
// parts of a state that change while the machine's values don't
const BESIDES = ["accessed", "breaks", "labels", "lines", "outputs", "read"];

/** Whether two values are equal. Parts that a patch leaves are the same object; after a reconnection all of them are new. */
const isEqual = (/** @type {unknown} */ one, /** @type {unknown} */ other) =>
  one === other || JSON.stringify(one) === JSON.stringify(other);

/** Whether two states have the same values. */
/** @type {(one: State, other: State) => boolean} */
export const isAlike = (one, other) =>
  /** @type {(keyof State)[]} */ (Object.keys({ ...one, ...other })).every((key) => BESIDES.includes(key) || isEqual(one[key], other[key]));

/** Places the controls of a student's page: in the bar, and on a phone in the pane of elements. */
export function placePast(/** @type {HTMLElement} */ root) {
  const phone = matchMedia("(max-width: 43.74em)");
  const { past, menu, "vectors-title": title } = parts(root, "past", "menu", "vectors-title");
  const place = () => (phone.matches ? title.after(past) : menu.before(past));
  phone.addEventListener("change", place);
  place();
}

export class Past {
  /** @type {Moment | undefined} */ moment; // that is shown; undefined: the present
  /** @type {State} */ present = { run: "absent" };
  /** @type {HistoryView} */ history = { number: 0 };
  /** @type {Wanted | undefined} */ wanted; // until it is found
  isAsking = false;
  percent = 0; // of the replay that is under way
  why = ""; // there is no way back
  /** @type {() => SourceText | undefined} */ built = () => undefined; // the source in the machine, if the page shows a newer one

  /**
   * @param {HTMLElement} root has the controls; while the past is shown its class is `past`
   * @param {Ask} ask @param {() => void} shown is called if another moment is shown, or a replay goes on
   */
  constructor(root, ask, shown) {
    this.root = root;
    this.ask = ask;
    this.shown = shown;
    this.parts = parts(root, "backward", "forth", "now", "moment", "moment-count");
    const { backward, forth, now, moment } = this.parts;
    backward.addEventListener("click", () => this.back());
    forth.addEventListener("click", () => this.forth());
    now.addEventListener("click", () => this.showNow());
    moment.addEventListener("input", () => this.seek({ at: Number(moment.value) }));
  }

  /** Whether the program has states: it is stopped, or ended. */
  get isStill() { return this.present.run === "stopped"; }

  /** How many instructions the program has executed up to the moment that is shown; undefined if that is unknown. */
  get place() { return this.moment ? this.moment.at : this.history.end; }

  /** Takes up the present state, and what is known of the program's history. */
  follow(/** @type {State} */ state, /** @type {HistoryView} */ history) {
    if (history.number !== this.history.number) this.leave();
    if (state !== this.present) this.why = "";
    Object.assign(this, { present: state, history });
    this.tell();
  }

  /** Goes a number of instructions back. */
  back(number = 1) {
    const at = this.place === undefined ? -number : Math.max(0, this.place - number);
    return this.seek({ at });
  }

  /** Goes a number of instructions forth, at most to the present. */
  forth(number = 1) { return this.moment ? this.seek({ at: this.moment.at + number }) : Promise.resolve(""); }

  /** Goes to the next breakpoint, or to the present. */
  forthToBreak() { return this.moment ? this.seek({ at: this.moment.at, toBreak: true }) : Promise.resolve(""); }

  /** Asks for the number of instructions up to the present, if it isn't known; a long replay isn't waited for. */
  async count() {
    const { number } = this.history;
    for (let left = MOST_PARTS; left > 0; left--) {
      if (!this.isStill || this.history.end !== undefined || this.history.number !== number || this.isAsking) return;
      const answer = await this.ask({ ask: "past", at: PRESENT });
      if (answer?.percent === undefined) return;
    }
  }

  /** Shows the present; a replay that is under way ends. */
  showNow() {
    if (!this.moment && !this.wanted) return;
    this.leave();
    this.tell();
    this.shown();
  }

  leave() { Object.assign(this, { moment: undefined, wanted: undefined, percent: 0 }); }

  /** Shows a moment once it is found; a later request replaces this one. Returns why there is none, or "". */
  async seek(/** @type {Wanted} */ wanted) {
    Object.assign(this, { wanted, percent: 0 });
    if (this.isAsking) return "";
    this.isAsking = true;
    while (this.wanted) await this.goOn(this.wanted);
    this.isAsking = false;
    this.tell();
    return this.why;
  }

  /** Sends the request for a moment, and shows it if it is found. */
  async goOn(/** @type {Wanted} */ wanted) {
    const { number } = this.history;
    const answer = await this.ask({ ask: "past", at: wanted.at, ...(wanted.toBreak ? { to_break: true } : {}) });
    if (this.wanted !== wanted) return;
    if (answer?.percent !== undefined) this.percent = answer.percent;
    else this.take(answer, number);
    this.tell();
    this.shown();
  }

  /** Shows the moment of an answer; the present if it has none. number: of the history that was asked for */
  take(/** @type {Message | null} */ answer, /** @type {number} */ number) {
    this.why = answer?.error ?? "";
    const { moment, text, language = 0 } = answer ?? {};
    const source = text === undefined ? this.built() : { text, language };
    const isOther = answer?.number !== number || number !== this.history.number;
    if (!answer?.error) this.leave();
    this.wanted = undefined;
    if (!moment || isOther) return;
    const names = Object.fromEntries(OF_SOURCE.map((key) => [key, this.present[key]]).filter(([, value]) => value !== undefined));
    this.history = { ...this.history, end: moment.end };
    this.moment = {
      ...moment, state: { ...moment.state, ...names }, before: { ...moment.before, ...names },
      ...(source ? { source } : {}),
    };
  }

  /** Shows where the moment is among those of the run. */
  tell() {
    const { backward, forth, now, moment, "moment-count": counted } = this.parts;
    const step = this.place;
    const last = this.history.end ?? 1;
    const isPast = this.moment !== undefined;
    const known = isPast ? textOf("past.step", { step: `${step}`, last: `${last}` }) : textOf("past.at-now", { step: `${step}` });
    const count = step === undefined ? textOf("past.now-uncounted") : known;
    const says = isPast ? textOf("past.shown", { count }) : "";
    backward.disabled = !this.isStill || step === 0;
    forth.disabled = !isPast;
    now.disabled = !isPast && !this.wanted;
    Object.assign(moment, { max: last, value: step ?? last, disabled: !this.isStill || last === 0, ariaValueText: count });
    put(counted, count);
    say("says-past", this.wanted && this.percent ? textOf("past.replay", { percent: `${this.percent}` }) : says);
    this.root.classList.toggle("past", isPast);
  }
}
