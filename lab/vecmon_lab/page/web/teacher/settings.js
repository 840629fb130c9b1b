// The settings of a class: exercises, clocks and rights of all machines, their scripts, and the operator's lines.

import { byId, elementsIn, header, make, renew, timeText } from "../common/dom.js";
import { listenToLines, requestsOf, unfitLines } from "../seat/lines.js";
import { textOf } from "../common/texts.js";
import { Log } from "../panels/transcript.js";

/** @typedef {import("../messages").MachineView} MachineView */
/** @typedef {import("../messages").TeacherView} TeacherView */

/** @type {("slices" | "ms" | "limit")[]} */
const NUMBERS = ["slices", "ms", "limit"]; // of a clock
const SAVES = { script: textOf("settings.save-script"), transcript: textOf("settings.save-transcript") };

export class Settings {
  constructor(/** @type {import("./teacher").Teacher} */ teacher) {
    this.teacher = teacher;
    this.log = new Log(byId("operator-log"), false);
    byId("clocks").onchange = ({ target }) => this.set(/** @type {HTMLInputElement} */ (target));
    listenToLines(byId("operator-line"), (lines) => this.operate(lines));
  }

  field = (/** @type {string} */ name) => /** @type {HTMLInputElement} */ (byId("clocks").elements.namedItem(name));

  /** @type {(view: TeacherView, logs: Record<string, string[]>, isAnew: boolean) => void} */
  show(view, logs, isAnew) {
    this.showExercises(view);
    const machines = Object.entries(view.machines);
    byId("operated").hidden = machines.length === 1;
    renew(byId("operated"), machines.map(([letter]) => make("option", "", letter)));
    renew(byId("machines"), machines.flatMap(([letter, machine]) => this.machine(letter, machine)));
    if (isAnew) this.log.clear();
    for (const [letter] of machines) this.log.add(logs[letter] ?? [], machines.length > 1 ? `${letter} ` : "");
    this.log.showEnd();
    byId("operator-log").ariaLive = "polite";
    this.showClocks(Object.values(view.machines));
  }

  /** Shows which exercises are on, how many seats have passed them, and checks that failed on the server's side, the last one first. */
  showExercises(/** @type {TeacherView} */ { course, exercises, failures }) {
    for (const table of /** @type {HTMLTableElement[]} */ (elementsIn(document, ".course table")))
      course.forEach((each, place) => this.showExercise(table.rows[place] ?? table.insertRow(), each, exercises[each.name]?.seats));
    const items = failures.map(({ seat, exercise, time, cause }) => {
      const what = `${timeText(time)} ${this.teacher.withName(seat)}, ${exercises[exercise].title}`;
      return make("li", "", textOf("settings.failed", { what, cause }));
    });
    renew(byId("failures"), items.reverse());
  }

  /** Shows an exercise that can be turned on and off. */
  /** @type {(row: HTMLElement, exercise: TeacherView["course"][0], seats?: TeacherView["exercises"][string]["seats"]) => void} */
  showExercise(row, { name, title, minutes, on: checked }, seats = {}) {
    const results = Object.values(seats);
    const passed = results.filter((each) => each.passed).length;
    const box = Object.assign(make("input", ""), { type: "checkbox", name, onchange: () => this.turn(name) });
    const counts = results.length ? textOf("settings.counts", { passed, trying: results.length - passed }) : "";
    const cells = [minutes ? textOf("time.minutes", { minutes }) : "", counts].map((text) => make("td", "", text));
    renew(row, [header("row", make("label", "", box, ` ${title}`)), ...cells]);
    Object.assign(elementsIn(row, "input")[0], { checked });
  }

  /** Turns an exercise on or off. */
  turn(/** @type {string} */ name) {
    const on = this.teacher.view.course.filter((each) => each.on !== (each.name === name)).map((each) => each.name);
    this.teacher.request({ ask: "exercises", on });
  }

  /** A machine: buttons that save its script and transcript; what is wrong with it, its script, and the digest of its answers. */
  /** @type {(letter: string, machine: MachineView) => HTMLElement[]} */
  machine(letter, { lines, script, of, restarts, loss, digest, trouble }) {
    const saves = Object.entries(SAVES).map(([name, text]) =>
      Object.assign(make("button", "", text), { name, onclick: () => this.download(letter, name) }));
    const [number, bytes, most] = [lines, script, of].map((each) => each.toLocaleString(textOf("language")));
    const replaced = restarts ? textOf("settings.replaced", { restarts, loss }) : "";
    const figures = `${trouble} ${textOf("settings.script", { lines: number, bytes, most, digest })} ${replaced}`.trim();
    return [make("div", "top", make("h3", "", textOf("settings.machine", { letter })), ...saves), make("p", "figures", figures)];
  }

  /** Sets what was changed at all machines: rights, or the clock. */
  set(/** @type {HTMLInputElement} */ { name, type, checked, valueAsNumber }) {
    if (!byId("clocks").reportValidity()) return;
    const value = type === "checkbox" ? checked : valueAsNumber;
    /** @type {import("../types").MachineAction} */
    const request = name === "own" ? { ask: "rights", own_slices: checked } : { ask: "clock", [name]: value };
    for (const machine of Object.keys(this.teacher.view.machines)) this.teacher.request({ machine, ...request });
  }

  /** Shows the clock of all machines: the first one's numbers, and whether only some are on. */
  showClocks(/** @type {MachineView[]} */ machines) {
    for (const name of NUMBERS) if (document.activeElement !== this.field(name)) this.field(name).value = `${machines[0].clock[name]}`;
    const states = { on: machines.map(({ clock }) => clock.on), own: machines.map((machine) => machine.own_slices) };
    for (const [name, each] of Object.entries(states))
      Object.assign(this.field(name), { checked: each.every(Boolean), indeterminate: each.some(Boolean) && !each.every(Boolean) });
  }

  operate(/** @type {string[]} */ lines) {
    const unfit = unfitLines(lines);
    const machine = byId("operated").value;
    if (unfit) return this.log.add([`!${unfit}`]);
    return requestsOf(lines).forEach((request) => this.teacher.request({ machine, ...request }));
  }

  /** Saves a machine's script or transcript; all of them where it has several. */
  async download(/** @type {string} */ letter, /** @type {string} */ name) {
    const { scripts } = this.teacher.view.machines[letter];
    for (let number = 1; number <= scripts; number++) {
      const place = number < scripts ? `${letter}.${number}` : letter;
      const isThere = await this.teacher.connection.download(`${place}/${name}`, `${place}.${name}.txt`);
      if (!isThere) this.log.add([`!${textOf("settings.not-fetched", { file: `${place}.${name}.txt` })}`]);
    }
  }
}
