// The run bar: buttons that run, step, stop and reset a program. What is off has a title that says why.

import { part, put } from "../common/dom.js";
import { textOf } from "../common/texts.js";

/** @typedef {import("../messages").StudentView} View */
/** @typedef {View["condition"] | "Assembling" | "Starting" | "No connection"} Condition */
/**
 * @typedef {"go" | "one" | "many" | "until-go" | "step-over" | "step-out" | "halt" | "slice" | "again" | "assemble" | "new"
 *   | "images"} Name
 */

/** @type {Name[]} */
const NAMES = ["go", "one", "many", "until-go", "step-over", "step-out", "halt", "slice", "again", "assemble", "new", "images"];
/** @type {Record<Condition, string>} */
const CONDITIONS = { // in words
  "Not begun": textOf("condition.not-begun"), Starting: textOf("condition.starting"), "No connection": textOf("condition.no-connection"),
  Ready: textOf("condition.ready"), Assembling: textOf("condition.assembling"), Running: textOf("condition.running"),
  Paused: textOf("condition.paused"), Ended: textOf("condition.ended"), Fault: textOf("condition.fault"),
};

/** @type {Name[]} */
const IN_PAST = ["go", "one", "many"]; // that go on in the past

export class RunBar {
  isBuilding = false; // whether a source is being assembled or compiled
  /** @type {Condition} */ condition = "Not begun";
  /** @type {View | null} */ view = null;

  /** @param {HTMLElement} root has the buttons @param {import("./bench").Bench} bench whose program is run */
  constructor(root, bench) {
    this.root = root;
    this.bench = bench;
  }

  /** Shows while `work` goes on that a source is being built. */
  /** @type {<Result>(work: Promise<Result>) => Promise<Result>} */
  building(work) {
    const paint = (/** @type {boolean} */ isBuilding) => {
      Object.assign(this, { isBuilding }).paint();
      Object.assign(this.bench.live, { isBuilding }).showStage();
    };
    paint(true);
    return work.finally(() => paint(false));
  }

  paint(view = this.view) {
    this.view = view;
    if (!view) return;
    const present = this.isBuilding ? "Assembling" : this.bench.live.past.moment?.condition ?? view.condition;
    const { isReady, isStarting } = this.bench.connection;
    const absent = isStarting ? "Starting" : "No connection";
    this.condition = isReady ? present : absent;
    put(part(this.root, "run"), CONDITIONS[this.condition]);
    part(this.root, "run").dataset.condition = this.condition;
    const isGoingOn = Boolean(this.bench.live.past.moment) || (this.condition === "Paused" && !this.bench.hasChanged);
    put(part(this.root, "go"), isGoingOn ? textOf("run.continue") : textOf("run"));
    part(this.root, "slice").hidden = !view.own_slices;
    for (const id of NAMES) {
      const button = part(this.root, id);
      const why = this.whyOff(id, view);
      button.dataset.title ??= button.title;
      const title = why || button.dataset.title;
      if (button.title !== title) Object.assign(button, { disabled: why !== "", title });
    }
  }

  /** Why a button is off; "" where it is on. */
  whyOff(/** @type {Name} */ id, /** @type {View} */ { state, ready, again }) {
    const { moment, wanted } = this.bench.live.past;
    if (wanted) return textOf("off.replay");
    if (moment) return IN_PAST.includes(id) ? "" : textOf("off.past");
    if (this.condition === "No connection") return textOf("off.no-connection");
    if (this.condition === "Assembling") return textOf("off.building");
    if (this.condition === "Starting" || !ready) return textOf("off.not-ready");
    if (["assemble", "new", "images"].includes(id)) return "";
    if (id === "halt" || id === "slice") return state.run === "running" ? "" : textOf("off.not-running");
    if (id === "again") return again ? "" : textOf("off.no-source");
    if (state.run === "running") return textOf("off.running");
    if (this.condition === "Ended" && id !== "go" && again && !this.bench.hasChanged) return textOf("off.ended");
    return state.run === "absent" && !this.bench.editor.source.text.trim() ? textOf("off.no-program") : "";
  }
}
