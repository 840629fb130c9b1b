// The problems of a source: a list whose entries lead to their places, marks in the editor, and texts that may replace a word.

import { MARGIN } from "./editor.js";
import { button, make, parts, put } from "../common/dom.js";
import { LineMarks } from "./line_marks.js";
import { textOf } from "../common/texts.js";

/** @typedef {import("../messages").Mistake} Problem */
/** @typedef {import("./codemirror").Position} Position */

/** A problem's message, with a word before that of a warning. */
const messageOf = (/** @type {Problem} */ { severity, message }) =>
  severity === "warning" ? textOf("problems.warning", { message }) : message;

/** The place of a column, which counts characters from 1 on, in a line's text. */
const placeOf = (/** @type {string} */ text, /** @type {number} */ column) => [...text].slice(0, column - 1).join("").length;

export class Problems {
  /** @type {Problem[]} */ all = [];
  /** @type {Problem[]} */ marked = []; // in the text, until it changes
  /** @type {Problem[]} */ awaited = []; // at the word that is being typed: they come into sight once the caret leaves it
  place = -1; // of the problem that was gone to last
  line = -1; // whose problems are shown below it, counted from 0
  /** @type {import("./codemirror").Clearable | undefined} */ below;

  /**
   * @param {ParentNode} root has the list and its buttons
   * @param {import("./editor").Editor} editor
   * @param {(panel: "editor" | "problems") => void} show brings a panel into sight
   */
  constructor(root, editor, show) {
    editor.problems = this;
    this.code = editor.code;
    this.canFix = !editor.isReadOnly;
    this.showPanel = show;
    this.marks = new LineMarks(this.code);
    this.parts = parts(root, "mistakes", "no-problems", "problems-count", "next-problem", "previous-problem");
    this.parts["next-problem"].addEventListener("click", () => this.goOn(1));
    this.parts["previous-problem"].addEventListener("click", () => this.goOn(-1));
  }

  /** Shows problems that were found while the source is typed: one at the word before the caret waits until the caret leaves the word. */
  showTyped(/** @type {Problem[]} */ problems) {
    const awaited = problems.filter((problem) => this.isAtCaret(problem));
    this.show(problems.filter((problem) => !awaited.includes(problem)));
    this.awaited = awaited;
  }

  /** Whether a problem's word ends at the caret, or has it in it. */
  isAtCaret(/** @type {Problem} */ problem) {
    if (!problem.line) return false;
    const { from, to } = this.rangeOf(problem);
    const { line, ch } = this.code.getCursor();
    return line === from.line && from.ch <= ch && ch <= to.ch;
  }

  /** Shows the problems that waited for the caret to leave a word. */
  caretMoved() {
    if (this.awaited.length && !this.awaited.some((problem) => this.isAtCaret(problem))) this.show([...this.all, ...this.awaited]);
  }

  /** Lists problems, and marks them in the text. */
  show(/** @type {Problem[]} */ problems) {
    const { mistakes, "no-problems": none, "problems-count": count, "next-problem": next, "previous-problem": previous } = this.parts;
    Object.assign(this, { all: problems, awaited: [], place: -1 });
    mistakes.replaceChildren(...problems.map((problem, place) => this.item(problem, place)));
    put(count, problems.length ? `${problems.length}` : "");
    none.hidden = problems.length > 0;
    next.disabled = !problems.length;
    previous.disabled = !problems.length;
    this.mark(problems);
  }

  /** An item of the list; a linker's problem has no place. */
  item(/** @type {Problem} */ problem, /** @type {number} */ place) {
    const text = `${problem.line ? `${problem.line}:${problem.column}: ` : ""}${messageOf(problem)}`;
    return make("li", problem.severity, button(text, text, () => this.go(place)), ...this.fixes(problem));
  }

  /** Goes to the next problem, or with -1 to the one before; after the last one to the first. */
  goOn(/** @type {number} */ step) {
    const { length } = this.all;
    this.go((Math.max(this.place, step < 0 ? 0 : -1) + step + length) % length);
  }

  /** Selects a problem's word in the editor. */
  go(/** @type {number} */ place) {
    this.place = place;
    const problem = this.all[place];
    if (!problem.line) return;
    this.showPanel("editor");
    const { from, to } = this.rangeOf(problem);
    this.code.focus();
    this.code.setSelection(problem.length ? from : to, to);
    this.code.scrollIntoView(from, MARGIN);
  }

  /** The range of a problem's word; at the end of a line, that of the character before. */
  /** @type {(problem: Problem) => { from: Position, to: Position }} */
  rangeOf({ line, column, length }) {
    const text = this.code.getLine(line - 1) ?? "";
    const from = placeOf(text, length ? column : Math.max(1, column - 1));
    return { from: { line: line - 1, ch: from }, to: { line: line - 1, ch: placeOf(text, column + length) } };
  }

  /** Marks problems in place of those before; those without a line aren't in the text. */
  mark(/** @type {Problem[]} */ problems) {
    if (!problems.length && !this.marked.length) return;
    this.code.operation(() => {
      this.marks.clear();
      this.marked = problems.filter(({ line }) => line > 0 && line <= this.code.lineCount());
      for (const problem of [...this.marked].reverse()) this.markWord(problem); // so that the first one of a line is in the gutter
      this.line = -1; // so that what was below a line goes
      this.showBelow();
    });
  }

  /** Underlines a problem's word, and shows a sign in the gutter. */
  markWord(/** @type {Problem} */ problem) {
    const { severity, line } = problem;
    const { from, to } = this.rangeOf(problem);
    const title = messageOf(problem);
    const range = this.code.markText(from, to, { className: `problem ${severity}`, attributes: { title } });
    this.marks.removers.push(() => range.clear());
    const sign = Object.assign(make("span", `problem-sign ${severity}`, severity === "error" ? "✖" : "▲"), { title });
    this.marks.sign(line, "problems", sign);
    this.marks.style(line, `problem-line-${severity}`, "gutter");
  }

  /** Shows the problems of the caret's line below it. */
  showBelow() {
    const { line } = this.code.getCursor();
    if (line === this.line) return;
    this.line = line;
    this.below?.clear();
    const here = this.marked.filter((problem) => problem.line === line + 1);
    if (!here.length) return;
    const items = here.map((problem) => make("p", problem.severity, messageOf(problem), " ", ...this.fixes(problem)));
    this.below = this.code.addLineWidget(line, make("div", "problems-below", ...items), { noHScroll: true });
  }

  /** Buttons that replace a problem's word, where the text can be edited. */
  fixes(/** @type {Problem} */ problem) {
    return ((this.canFix && problem.fix) || []).map((text, place) => {
      const title = `${textOf("problems.replace.title")}${place ? "" : " (Ctrl .)"}`;
      return Object.assign(button(text, textOf("problems.replace", { text }), () => this.replace(problem, text)), { title });
    });
  }

  /** Replaces a problem's word, which undo takes back. */
  replace(/** @type {Problem} */ problem, /** @type {string} */ text) {
    const { from, to } = this.rangeOf(problem);
    this.code.replaceRange(text, from, to, "fix");
    this.code.focus();
  }
}
