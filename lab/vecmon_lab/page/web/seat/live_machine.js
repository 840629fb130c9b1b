// A seat's machine, live: paints the parts of its state that changed.

import { announcementOf } from "../panels/announcement.js";
import { make, part, prose, put } from "../common/dom.js";
import { Past, isAlike } from "./past.js";
import { textOf } from "../common/texts.js";
import { Log } from "../panels/transcript.js";
import { MachineView, usedIn } from "../panels/view.js";

/** @typedef {import("../messages").State} State */
/** @typedef {import("../messages").HistoryView} HistoryView */

const BLANK = { vtype: "8000000000000000", vl: 0, vstart: 0, vxrm: 0, vxsat: 0 }; // vtype is vill
const of32 = (/** @type {string} */ value) => Object.fromEntries(Array.from({ length: 32 }, (_, number) => [number, value]));

/**
 * A new machine, before its program executes anything: the command `enter` sets all registers to 0, and the lab perhaps the stack pointer.
 * Its memory is the state's.
 * @type {(state: State) => State}
 */
const newMachine = (state) =>
  state.x ? { ...state, ...BLANK, x: { ...of32("0"), 2: state.x[2] }, v: of32("0".repeat(64)) } : state;

/** A machine's state, painted where it changed: at its seat, and for a teacher who looks over the shoulder. */
export class LiveMachine {
  seat = "";
  /** @type {State} */ state = { run: "absent" };
  before = this.state;
  /** @type {Set<number>} */ used = new Set(); // vector registers that weren't zero since the machine began
  refusal = ""; // of the last request, until a program stops
  notice = ""; // in place of a refusal, until the state changes
  isBuilding = false; // whether another program is being built, which the reason for the stop isn't about
  frame = 0; // in which it is painted
  /** @type {State | undefined} */ said; // whose step was announced

  /**
   * @param {HTMLElement} root has the machine, its stage and its past
   * @param {import("./past").Ask} ask asks the server for earlier states
   */
  constructor(root, ask) {
    this.view = new MachineView(root);
    this.log = part(root, "log");
    this.announced = root.matches("body") ? part(root, "announced") : null;
    this.entries = new Log(this.log, true);
    this.view.machine.addEventListener("change", () => this.paint());
    this.past = new Past(root, ask, () => this.paint());
  }

  /** @type {(seat: string, state: State, history: HistoryView, entries: string[], isAnew: boolean) => void} */
  show(seat, state, history, entries, isAnew) {
    if (isAnew) this.entries.clear();
    if (seat !== this.seat) this.past.leave();
    this.past.follow(state, history);
    this.seat = seat;
    this.entries.add(entries);
    // once, for all messages before it
    if (entries.length || state !== this.state) this.frame ||= requestAnimationFrame(() => this.paint());
    if (state === this.state) return;
    const isNew = state.began !== undefined && state.began !== this.state.began;
    if (isAnew || state.prepared) this.before = state;
    else if (isNew || !isAlike(state, this.state)) this.before = isNew ? newMachine(state) : this.state;
    if (state.stop && state.stop !== this.state.stop) this.refusal = ""; // the stop is newer
    Object.assign(this, { state, notice: "" });
    if (isAnew || isNew || !state.v) this.used = new Set();
    usedIn(state).forEach((number) => this.used.add(number));
  }

  /** Called with each state that is painted. */
  painted = (/** @type {State} */ _) => {};

  /** Paints it, or the moment of the past that is shown. A machine that runs may never have been looked at. */
  paint() {
    cancelAnimationFrame(this.frame);
    this.frame = 0;
    const { state, before } = this.past.moment ?? this;
    this.view.paint(state, before, { v: this.used });
    this.painted(state);
    this.announce(state, before);
    this.showStage();
    this.entries.showEnd();
  }

  /** Says in words what the last step did. Pages that look over a shoulder are silent. */
  announce(/** @type {State} */ state, /** @type {State} */ before) {
    if (!this.announced || state === this.said || !state.x || !before.x) return;
    this.said = state;
    const [now, then] = /** @type {import("../types").MachineState[]} */ ([state, before]);
    const { elements, hasAbiNames } = this.view.changed;
    put(this.announced, announcementOf(now, then, elements, hasAbiNames));
  }

  /**
   * Shows the newest of a notice, a refusal and the reason for the stop; the reason is in the status line if another one is newer. Shows
   * none while another program is being built.
   */
  showStage() {
    const state = this.past.moment?.state ?? this.state;
    const newer = this.notice || this.past.why || (this.past.moment ? "" : this.refusal);
    if (this.isBuilding) {
      this.view.showStep(state);
      this.view.showStop("");
      return;
    }
    const absent = state.run === "absent" ? [make("small", "", textOf("step.no-machine"))] : [];
    const stop = newer && state.stop ? [make("span", "", ...prose(state.stop))] : [];
    this.view.showStep(state, ...absent, ...stop);
    this.view.showStop(newer || (state.stop ?? ""));
  }
}
