// The seat over whose shoulder the teacher looks: its source, its machine, and its answers to exercises.

import { LiveMachine } from "../seat/live_machine.js";
import { Editor } from "../editor/editor.js";
import { ask, byId, elementsIn, put } from "../common/dom.js";
import { offerTries } from "../seat/exercises.js";
import { offerLanguages } from "../editor/languages.js";
import { Panes } from "../panels/panes.js";
import { Problems } from "../editor/problems.js";
import { statusOf, workText } from "./roster.js";
import { Source } from "../editor/source.js";
import { textOf } from "../common/texts.js";

/** @typedef {import("../messages").TeacherView} TeacherView */

export class Shoulder {
  exercise = ""; // whose answers are shown

  /** @param {HTMLElement} root of all its parts @param {import("./teacher").Teacher} teacher */
  constructor(root, teacher) {
    this.teacher = teacher;
    byId("shoulder").append(byId("desk"));
    byId("machine").append(byId("seat-answers"));
    byId("tab-dock").after(byId("tab-answers"));
    byId("vectors-title").after(byId("past"));
    for (const each of elementsIn(root, ".missing")) put(each, textOf("shoulder.no-program"));
    this.live = new LiveMachine(root, (request) => teacher.connection.ask(request));
    byId("source").readOnly = true;
    byId("language").disabled = true;
    this.editor = new Editor(byId("source"), undefined, byId("language"));
    this.source = new Source(root, this.editor, teacher.connection);
    this.problems = new Problems(root, this.editor, () => this.panes.show("editor"));
    byId("show-problems").remove(); // they are below the source
    byId("editor").append(byId("problems"));
    this.panes = new Panes(root, "teacher");
    byId("answer-try").onchange = () => this.read(byId("answer-try").selectedIndex + 1);
    byId("on-wall").onclick = () => teacher.request({ ask: "wall", seat: teacher.view.wall === this.seat ? "" : this.seat });
    byId("lower-hand").onclick = () => teacher.request({ ask: "hand", seat: this.seat });
    byId("reset").onclick = () =>
      ask(textOf("shoulder.loss", { seat: this.seat }), textOf("run.reset"), () => teacher.request({ ask: "reset", seat: this.seat }));
  }

  /** @type {(view: TeacherView, before: Partial<TeacherView>, log: string[]) => void} before: {} on a new connection */
  show(view, before, log) {
    const { shoulder: seat, source, state = { run: "absent" }, history = { number: 0 }, problems, caret = 0 } = view;
    const isOther = seat !== before.shoulder;
    byId("shoulder").classList.toggle("looks", Boolean(seat));
    if (!source) return;
    offerLanguages(byId("language"), view);
    const told = this.teacher.seatOf(seat);
    const open = view.exercises[told.exercise];
    const work = open ? ` · ${open.title}: ${workText(open.seats[seat], open.of)}` : "";
    put(byId("shoulder-title"), this.teacher.withName(seat));
    put(byId("shoulder-says"), `${statusOf(told)[1]}${work}`);
    byId("lower-hand").hidden = !told.hand;
    byId("on-wall").ariaPressed = `${view.wall === seat}`;
    this.live.show(seat, state, history, log, isOther);
    this.source.show(seat, source);
    this.source.mark(state);
    const found = problems ? [...problems.mistakes, ...problems.warnings] : []; // by the last assembly
    if (isOther) this.showAnswers();
    if (isOther || problems !== before.problems) this.problems.show(found.map((each) => ({ ...each, fix: [] })));
    if (caret && caret !== before.caret) this.editor.code.setCursor({ line: caret - 1, ch: 0 }); // where the student typed last
  }

  /** The name of the seat. */
  get seat() { return this.teacher.view.shoulder; }

  /** Shows the answers of the seat that is looked at to an exercise, by default the one that was chosen last; the last one first. */
  showAnswers(exercise = this.exercise) {
    const { tries = 0 } = this.teacher.view.exercises[exercise]?.seats[this.seat] ?? {};
    this.exercise = exercise;
    offerTries(byId("answer-try"), tries);
    byId("answer-try").selectedIndex = tries - 1;
    if (exercise) this.read(tries);
  }

  /** Shows an answer with the name of its seat. number: of the try; 0 without one */
  async read(/** @type {number} */ number) {
    const { seat, exercise, teacher } = this;
    const answer = number ? await teacher.request({ ask: "answer", seat, exercise, number }) : null;
    put(byId("answer-title"), `${teacher.withName(seat)}: ${teacher.view.exercises[exercise]?.title ?? exercise}`);
    put(byId("answer"), answer?.text ?? (number ? "" : textOf("shoulder.no-answer")));
    put(byId("answer-says"), answer?.told?.reason ?? "");
    byId("answer-try").title = teacher.view.languages[answer?.language ?? 0];
  }
}
