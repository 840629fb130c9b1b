// The teacher's list: a row for each seat, those who need help first, with a column for each exercise.

import { byId, header, make, put, renew } from "../common/dom.js";
import { textOf } from "../common/texts.js";

/** @typedef {import("../messages").SeatView} SeatView */
/** @typedef {import("../messages").SeatStatus} SeatStatus */
/** @typedef {Record<string, import("../messages").ExerciseTable>} Exercises by name */

const FIRST_EXERCISE = 4; // its column, from 0 on
const AGES_EVERY = 5000; // ms
const GROUPS = ["hand", "help", "work", "waits", "free"]; // of seats, from above
/** @type {Record<SeatStatus["kind"], string>} */
const SIGNS = {
  none: "", running: "▶", paused: "•", breakpoint: "•", problems: "⊗", fault: "↯", limit: "↻", output: "…", ebreak: "✓", ended: "✓",
};

/** For how long, in words, of seconds. */
function forHow(/** @type {number} */ seconds) {
  const minutes = Math.floor(seconds / 60);
  if (minutes < 1) return textOf("time.seconds", { seconds: Math.max(0, Math.floor(seconds)) });
  if (minutes < 60) return textOf("time.minutes", { minutes });
  return textOf("time.hours", { hours: Math.floor(minutes / 60), minutes: minutes % 60 });
}

/** The status of a seat as a sign and in words, as `fault: vle32.v, element 0`. */
/** @type {(seat: SeatView) => [sign: string, words: string]} */
export function statusOf({ tabs, hand, status: { kind, count, text } }) {
  if (hand) return ["☝", hand.text ? textOf("status.hand-text", { text: hand.text }) : textOf("status.hand")];
  if (kind === "none" && !tabs) return ["", textOf("status.not-here")];
  return [SIGNS[kind], count === undefined ? text : textOf("status.problems", { count })];
}

/** Since when a seat waits for help or has its status, in seconds since 1970. */
const waitOf = (/** @type {SeatView} */ { hand, stuck_since: stuck, since }) => hand?.since ?? stuck ?? since;

/** A seat's work at an exercise, in words. */
/** @type {(result: import("../messages").SeatResult | undefined, most: number) => string} */
export function workText(result, most) {
  if (!result) return textOf("work.unchecked");
  const { tries, passed, best } = result;
  return passed ? textOf("work.passed", { number: passed }) : textOf("work.tries", { best, most, count: tries });
}

/** The head of an exercise's column, whose button shows the answers of the seat that is looked at. */
/** @type {(value: string, exercise: string, number: number) => HTMLElement} */
function columnHead(value, exercise, number) {
  const names = { value, title: textOf("teacher.column.title", { exercise }) };
  const button = Object.assign(make("button", "", `${number}`, make("span", "title", ` ${exercise}`)), names);
  if (number < 10) button.setAttribute("aria-keyshortcuts", `${number}`);
  return header("col", button);
}

/** A row, whose checkbox and button stay, since they may have the focus. */
class Row {
  told = /** @type {SeatView} */ ({});
  /** @type {Exercises} */ exercises = {};
  seen = ""; // its rank when the teacher looked at it last

  constructor(/** @type {string} */ seat) {
    this.seat = seat;
    this.box = Object.assign(make("input", ""), { type: "checkbox", ariaLabel: textOf("teacher.choose-seat.label", { seat }) });
    this.look = make("button", "look");
    this.minutes = make("td", "minutes");
    this.row = make("tr", "", make("td", "", this.box), header("row", this.look));
    this.row.dataset.seat = seat;
  }

  /** The place of its group. */
  get group() {
    const { run, stuck, tabs, name, hand } = this.told;
    return [hand, stuck, run !== "absent", tabs || name, true].findIndex(Boolean);
  }

  /** A text that sorts rows: by their groups, and those who need help by the time since when they wait. */
  get rank() { return `${this.group} ${this.group < 2 ? waitOf(this.told) : ""} ${this.seat}`; }

  /** @type {(told: SeatView, exercises: Exercises, names: string[]) => void} names: of exercises, in their order */
  show(told, exercises, names) {
    if (told === this.told && exercises === this.exercises) return;
    Object.assign(this, { told, exercises });
    const [sign, text] = statusOf(told);
    const words = Object.assign(make("span", "", text), { title: `${text}\n${told.line} → ${told.answer}` });
    const condition = make("td", "condition", Object.assign(make("span", "sign", sign), { ariaHidden: "true" }), words);
    const [box, look] = this.row.cells;
    renew(this.row, [box, look, condition, this.minutes, ...names.map((name) => this.cell(name, exercises[name]))]);
    put(this.look, `${this.seat} ${told.name}`, [make("span", "seat", this.seat), " ", make("span", "", told.name)]);
    this.row.className = GROUPS[this.group];
  }

  /** The cell of an exercise: a tick with the number of the try, the most cases that passed, or a dot. */
  cell(/** @type {string} */ value, /** @type {Exercises[string]} */ { title, of, seats }) {
    const result = seats[this.seat];
    if (!result) return make("td", "untried", "·");
    const { passed, best } = result;
    const mark = passed ? ["✓", make("small", "", passed > 1 ? `${passed}` : "")] : [`${best}`, make("small", "", `/${of}`)];
    const names = { value, title: `${title}: ${workText(result, of)}` };
    return make("td", passed ? "passed" : "tried", Object.assign(make("button", "", ...mark), names));
  }
}

const byRank = (/** @type {Row} */ one, /** @type {Row} */ other) => (one.rank < other.rank ? -1 : 1);

export class Roster {
  /** @type {Row[]} */ rows = []; // those who need help first, longest first

  constructor(/** @type {import("./teacher").Teacher} */ teacher) {
    this.teacher = teacher;
    byId("seats").onmouseleave = () => this.sort();
    byId("roster").onclick = ({ target }) => this.clicked(/** @type {HTMLElement} */ (target));
    document.addEventListener("keydown", (event) => this.pressed(event));
    byId("next-help").onclick = () => this.goOn(1);
    byId("previous-help").onclick = () => this.goOn(-1);
    setInterval(() => this.age(), AGES_EVERY);
  }

  /** Shows the seats of machines, which may be more than before. */
  show(/** @type {import("../messages").TeacherView} */ { machines, course, exercises, shoulder }) {
    const seats = Object.keys(machines).flatMap((letter) => Object.keys(machines[letter].seats).map((digit) => letter + digit));
    if (seats.length > this.rows.length) this.rows = seats.map((seat) => new Row(seat));
    const names = course.map(({ name }) => name).filter((name) => name in exercises);
    const heads = [...byId("columns").children].slice(0, FIRST_EXERCISE);
    renew(byId("columns"), [...heads, ...names.map((name, place) => columnHead(name, exercises[name].title, place + 1))]);
    for (const row of this.rows) {
      row.show(this.teacher.seatOf(row.seat), exercises, names);
      row.row.ariaCurrent = `${row.seat === shoulder}`;
      if (row.seat === shoulder) row.seen = row.rank;
    }
    this.age();
    this.sort();
  }

  age = () => this.rows.forEach(({ group, told, minutes }) => put(minutes, group < 3 ? forHow(this.teacher.now() - waitOf(told)) : ""));

  /** The rows of those who need help, the longest wait first, also while the list stays as it is. */
  get waiting() { return this.rows.filter(({ group }) => group < 2).sort(byRank); }

  /** Looks at the first student who needs help and wasn't looked at since; without one at the next, or with -1 at the one before. */
  goOn(/** @type {number} */ step) {
    const rows = step < 0 ? this.waiting.reverse() : this.waiting;
    const place = rows.findIndex(({ seat }) => seat === this.teacher.shoulder.seat);
    const row = (step > 0 && rows.find(({ rank, seen }) => rank !== seen)) || rows[place + 1] || rows[0];
    row?.look.focus();
    if (row) this.teacher.lookAt(row.seat);
  }

  /** Looks at the seat of a row; with a click on an exercise, at its answers. */
  async clicked(/** @type {HTMLElement} */ target) {
    const exercise = target.closest("button")?.value;
    const seat = target.closest("tr")?.dataset.seat ?? this.teacher.shoulder.seat;
    if (!seat || target.matches("input")) return;
    await this.teacher.lookAt(seat);
    if (!exercise) return;
    this.teacher.shoulder.panes.show("seat-answers");
    this.teacher.shoulder.showAnswers(exercise);
  }

  /** Arrow keys go to the row above and the one below. */
  pressed(/** @type {KeyboardEvent} */ event) {
    const step = { ArrowDown: 1, ArrowUp: -1 }[event.key];
    const target = /** @type {Element} */ (event.target);
    if (!step || event.defaultPrevented || (target !== document.body && !target.closest("#seats"))) return;
    event.preventDefault();
    const seat = target.closest("tr")?.dataset.seat ?? this.teacher.shoulder.seat;
    const place = this.rows.findIndex((row) => row.seat === seat) + step;
    this.rows[Math.min(this.rows.length - 1, Math.max(0, place))].look.focus();
  }

  /** Puts those who need help above; not while somebody points at a row. */
  sort() {
    const body = byId("seats");
    const rows = this.rows;
    if (body.childElementCount === rows.length && body.matches(":hover")) return;
    rows.sort(byRank);
    if (rows.every(({ row }, place) => row === body.children[place])) return;
    const focused = /** @type {HTMLElement} */ (document.activeElement);
    body.replaceChildren(...rows.map(({ row }) => row));
    if (body.contains(focused)) focused.focus({ preventScroll: true });
  }
}
