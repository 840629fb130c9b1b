// Paints the state of one user: from an object, and the one before, for the changes.

import { make, part, parts, prose, put } from "../common/dom.js";
import { Lanes } from "../elements/lanes.js";
import { ListingPanel } from "./listing.js";
import { MemoryPanel, OutputPanel } from "./memory.js";
import { paintRegisters } from "./scalars.js";
import { textOf } from "../common/texts.js";
import { paintVariables } from "./variables.js";
import { saysMore, withNames } from "../common/words.js";

/** @typedef {import("../messages").State} State */
/** @typedef {import("../types").MachineState} MachineState */
/** @typedef {{ v: Set<number>, x?: Set<number> }} Used numbers of registers; without x all scalar registers are in use */

/** The numbers of a state's vector registers that aren't zero. */
export const usedIn = (/** @type {State | undefined} */ { v = {} } = { run: "absent" }) =>
  Object.keys(v).filter((number) => /[^0]/.test(v[number])).map(Number);

/** The state of a machine; null without a machine, or if it runs and was never looked at. */
/** @type {(state: State | undefined) => MachineState | null} */
const machineOf = (state) => (state && state.run !== "absent" && state.x ? /** @type {MachineState} */ (state) : null);

/** The panels of a machine, and the stage above them, below a root that has both. */
export class MachineView {
  isFormChosen = false; // whether the reader has chosen how numbers are shown
  /** Chooses how numbers are shown, unless the reader has. */
  suggestForm = (/** @type {"signed" | "unsigned"} */ _) => {};

  constructor(/** @type {ParentNode} */ root) {
    this.machine = part(root, "machine");
    this.parts = parts(root, "names", "step", "stop");
    this.output = new OutputPanel(root);
    this.lanes = new Lanes(part(root, "vectors"));
    this.memory = new MemoryPanel(root);
    const panels = [new ListingPanel(root), this.memory].map((panel) => panel.paint.bind(panel));
    this.paints = [...panels, paintVariables.bind(null, root)];
    this.paintRegisters = paintRegisters.bind(null, root);
    this.linkNumbers(part(root, "form"), part(root, "numbers"));
  }

  /** Keeps the form of numbers the same for elements and registers; the reader's choice stays. */
  linkNumbers(/** @type {HTMLSelectElement} */ form, /** @type {HTMLSelectElement} */ numbers) {
    const lists = [form, numbers].filter(Boolean); // some pages have no registers
    const choose = (/** @type {string} */ value) => lists.forEach((list) => (list.value = value));
    this.suggestForm = (/** @type {"signed" | "unsigned"} */ value) => this.isFormChosen || choose(value);
    this.machine.addEventListener("change", ({ target }) => {
      const list = lists.find((each) => each === target);
      if (!list) return;
      this.isFormChosen = true;
      choose(list.value);
    }, true); // before what paints the numbers
    choose(form.value || "signed");
  }

  /** The number of elements that the last instruction changed, and the names of registers in use. */
  get changed() {
    const elements = this.lanes.columns?.changed.filter(Boolean).length ?? 0;
    return { elements, hasAbiNames: this.parts.names.value === "abi" };
  }

  /** The command, which its page knows, and the instruction that executed last, or that faulted. */
  showStep(/** @type {State} */ state, /** @type {Node[]} */ ...done) {
    if (state.run === "running") done.push(make("small", "", textOf("step.running")));
    if (state.instruction) {
      const line = (state.code?.[state.instruction] ?? "").slice(9);
      const text = withNames(line, this.parts.names.value === "abi") || `0x${state.instruction}`; // nothing is mapped there
      const said = saysMore(state.lines?.[state.instruction] ?? "", line); // which the listing may cut
      const label = state.faulted ? textOf("step.stopped") : textOf("step.executed");
      done.push(make("span", "instruction", make("small", "", label), " ", text), make("small", "", ...prose(said)));
    }
    this.parts.step.replaceChildren(...done);
  }

  /** Why something stopped or was refused. */
  showStop(/** @type {string} */ words) {
    put(this.parts.stop, words, prose(words));
    this.parts.stop.classList.toggle("said", words !== "");
  }

  /**
   * Paints a state, compared with the one before it. `used` has the vector registers that always have rows, and the scalar ones that come
   * before the others; `step` is the state that the elements are compared with, before the last step.
   * @type {(state: State, previous: State | undefined, used: Used, step?: State) => void}
   */
  paint(state, previous, used, step = previous) {
    const shown = machineOf(state);
    this.machine.classList.toggle("absent", !shown);
    this.machine.classList.toggle("running", shown?.run === "running");
    if (!shown) return;
    const types = (shown.variables ?? []).map(({ element }) => element[0]).filter((kind) => "iu".includes(kind || "?"));
    if (types.length) this.suggestForm(types.includes("i") ? "signed" : "unsigned"); // by the types of a source in C
    this.output.paint(shown); // first, since it asks how the page is laid out
    const hasAbiNames = this.parts.names.value === "abi";
    this.lanes.show({ state: shown, before: machineOf(step) ?? shown, used: used.v, hasAbiNames });
    const before = machineOf(previous) ?? shown;
    for (const paint of this.paints) paint(shown, before);
    this.paintRegisters(shown, before, used.x ?? new Set());
  }
}
