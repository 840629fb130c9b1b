// The editor of a source: CodeMirror with the machine's lines, breakpoints, problems, names to choose, and the source's language.

import { ASSEMBLER, namesAt } from "./asm_mode.js";
import { hollowSign } from "./breakpoints.js";
import { CodeMirror } from "./codemirror.js";
import { elementsIn, make } from "../common/dom.js";
import { LineMarks } from "./line_marks.js";
import { textOf } from "../common/texts.js";
import { TypeMarks } from "./type_marks.js";

export const MARGIN = 60; // px around a line that is scrolled into sight
const INDENT = 8; // columns
const INDENT_OF_C = 4; // columns
const TOGETHER = 1000; // ms: what is typed without a longer pause is undone at once
const MOST_CHANGES = 300; // that undo goes back to
const CONTROL = /[\x01-\x08\x0b\x0c\x0e-\x1f\x7f]/; // characters that no key types: all but tabs and ends of lines
// Characters that are shown by their numbers: controls, and those without a width or that change the direction of the text
const SHOWN_BY_NUMBER = /[\x00-\x08\x0a-\x1f\x7f-\x9f\xad\u061c\u200b\u200e\u200f\u2028-\u202e\u2060-\u2069\ufeff\ufff9-\ufffc]/g;
const ALSO_PAINTED = 80; // lines above and below those in sight: a screen reader has only what is painted

/** @typedef {import("../types").SourceText} SourceText */
/**
 * Lines by number: executed last, and next; 0 for none. stops: with breakpoints; held: with those of the program before a change
 * @typedef {{ last: number, next: number, stops: number[], held: number[] }} MachineLines
 */

/** @type {MachineLines} */
export const NO_MARKS = { last: 0, next: 0, stops: [], held: [] };

const PHRASES = { // of CodeMirror's dialogs
  "Search:": textOf("editor.search"), "(Use /re/ syntax for regexp search)": textOf("editor.search.help"),
  "Replace:": textOf("editor.replace"), "Replace all:": textOf("editor.replace-all"), "With:": textOf("editor.with"),
  "Replace with:": textOf("editor.replace-with"), "Replace?": textOf("editor.is-replaced"),
  Yes: textOf("editor.yes"), No: textOf("editor.no"), All: textOf("editor.all"), Stop: textOf("editor.stop"),
};

/** Ignores a key without Ctrl that would type a control character. */
function refuseControl(/** @type {KeyboardEvent & { codemirrorIgnore?: boolean }} */ event) {
  if (event.ctrlKey || event.metaKey || !CONTROL.test(String.fromCharCode(event.charCode))) return;
  event.preventDefault();
  event.codemirrorIgnore = true;
}

/** The sign of a character that is shown by its number, as U+001B. */
function controlSign(/** @type {string} */ character) {
  const number = `U+${character.charCodeAt(0).toString(16).toUpperCase().padStart(4, "0")}`;
  return Object.assign(make("span", "cm-invalidchar", number), { title: number, ariaLabel: number });
}

export class Editor {
  /** @type {(line: number) => void} */ toggleBreakpoint = () => {};
  /** @type {(line: string, place: number) => void} */ caretMoved = () => {};
  /** @type {import("./problems").Problems | undefined} */ problems; // of the text, which mark themselves in it
  marks = NO_MARKS;
  unseen = 0; // a line that comes into sight when the editor does
  isLetter = false; // whether the last change was a typed letter
  isLeaving = false; // whether Tab leaves the editor
  /** @type {Map<number, number>} */ languages = new Map(); // by CodeMirror's number of each state of the text

  /**
   * @param {HTMLTextAreaElement} field is replaced by the editor; readOnly and aria-label are its own
   * @param {() => unknown} changed is called when the source has become another one
   * @param {HTMLSelectElement} language a list of languages, one of them chosen
   */
  constructor(field, changed = () => {}, language = make("select", "")) {
    this.isReadOnly = field.readOnly;
    this.changed = changed;
    this.language = language;
    this.box = make("div", "lines");
    field.replaceWith(this.box);
    this.box.append(field);
    this.code = CodeMirror.fromTextArea(field, this.options(field));
    const ariaReadOnly = field.readOnly ? "true" : null;
    Object.assign(this.code.getInputField(), { role: "textbox", ariaMultiLine: "true", ariaReadOnly });
    this.machineMarks = new LineMarks(this.code);
    this.types = new TypeMarks(this.code);
    this.languages.set(this.code.changeGeneration(), this.source.language);
    this.listen();
  }

  options(/** @type {HTMLTextAreaElement} */ { readOnly, ariaLabel }) {
    const fix = () => elementsIn(this.box, ".problems-below button")[0]?.click();
    const extraKeys = {
      Tab: () => (this.code.somethingSelected() ? this.indent("add") : this.code.execCommand("insertSoftTab")),
      "Shift-Tab": () => this.indent("subtract"),
      Esc: false, // Escape, then Tab leaves the editor
      "Ctrl-/": "toggleComment", "Cmd-/": "toggleComment",
      "Ctrl-Space": () => this.suggest(true),
      "Ctrl-.": fix, "Cmd-.": fix,
    };
    return {
      mode: ASSEMBLER, lineNumbers: true, gutters: ["marks", "CodeMirror-linenumbers", "problems"], inputStyle: "contenteditable",
      readOnly, screenReaderLabel: ariaLabel, indentUnit: INDENT, tabSize: INDENT, historyEventDelay: TOGETHER, undoDepth: MOST_CHANGES,
      viewportMargin: ALSO_PAINTED, matchBrackets: true, autoCloseBrackets: true, styleActiveLine: true,
      extraKeys: readOnly ? { Esc: false } : extraKeys, phrases: PHRASES,
      specialChars: SHOWN_BY_NUMBER, specialCharPlaceholder: controlSign,
    };
  }

  listen() {
    const { code, box } = this;
    this.language.addEventListener("change", () => this.chooseLanguage());
    code.on("change", (_, { origin, text }) => (this.isLetter = origin === "+input" && text.length === 1 && text[0].length === 1));
    code.on("changes", (_, changes) => this.took(changes.some(({ origin }) => origin === "undo" || origin === "redo")));
    code.on("cursorActivity", () => this.moved());
    code.on("gutterClick", (_, line) => this.toggleBreakpoint(line + 1));
    code.on("keydown", (_, event) => this.pressed(event));
    code.on("keypress", (_, event) => refuseControl(event)); // WebKitGTK has one of Escape, too
    code.on("focus", () => (this.isLeaving = true)); // so Tab passes by, until something is typed or clicked
    box.addEventListener("pointerup", () => (this.isLeaving = false));
    const resized = new ResizeObserver(() => { // it has another size, or is shown
      code.refresh();
      this.types.measure();
      this.bringIntoSight();
    });
    resized.observe(box);
  }

  /** The source: its text and the number of its language. */
  get source() { return { text: this.code.getValue(), language: Math.max(0, this.language.selectedIndex) }; }

  get isC() { return this.language.selectedOptions[0]?.text.startsWith("C") ?? false; }

  /** Whether undo has something to take back. */
  get hasPast() { return this.code.historySize().undo > 0; }

  /** Puts in another source, which can be undone. */
  put(/** @type {SourceText} */ { text, language }) {
    if (text === this.source.text && language === this.source.language) return;
    this.language.selectedIndex = language;
    this.code.setValue(text);
  }

  /** Adds lines after the text, with an empty one before them, and brings them into sight. */
  append(/** @type {string} */ lines) {
    const { code } = this;
    const last = code.lastLine();
    const end = { line: last, ch: code.getLine(last).length };
    code.replaceRange(`${end.ch ? "\n" : ""}\n${lines}`, end, end);
    code.setCursor({ line: code.lastLine(), ch: 0 });
  }

  /** Takes up a language that was chosen, which can be undone. */
  chooseLanguage() {
    const caret = this.code.getCursor();
    this.code.setValue(this.code.getValue());
    this.code.setCursor(caret);
  }

  /** Indents the lines that are selected, as a change of its own for undo, apart from typed text before and after it. */
  indent(/** @type {"add" | "subtract"} */ how) {
    this.code.changeGeneration(true);
    this.code.indentSelection(how);
    this.code.changeGeneration(true);
  }

  /** The number of the caret's line. */
  get caretLine() { return this.code.getCursor().line + 1; }

  /**
   * The text of the caret's line, and the caret's place in it.
   * @returns {[line: string, place: number]}
   */
  get caret() {
    const { line, ch } = this.code.getCursor();
    return [this.code.getLine(line), ch];
  }

  /** Takes up the text as it has become. isTurned: by undo or redo, which bring back the language of then */
  took(/** @type {boolean} */ isTurned) {
    const number = this.code.changeGeneration();
    const language = this.languages.get(number);
    if (isTurned && language !== undefined) this.language.selectedIndex = language;
    this.languages.set(number, this.source.language);
    this.showLanguage();
    this.problems?.mark([]);
    this.mark(NO_MARKS);
    this.changed();
  }

  /** Colours and indents the text as its language has it. */
  showLanguage() {
    const mode = this.isC ? "text/x-csrc" : ASSEMBLER;
    if (this.code.getOption("mode") === mode) return;
    const indent = this.isC ? INDENT_OF_C : INDENT;
    for (const [name, value] of Object.entries({ mode, indentUnit: indent, tabSize: indent })) this.code.setOption(name, value);
  }

  /** Follows the caret: behind a typed letter it offers names. */
  moved() {
    const { line, ch } = this.code.getCursor();
    if (this.isLetter) this.suggest(false);
    else this.code.closeHint();
    this.isLetter = false;
    this.problems?.caretMoved();
    this.problems?.showBelow();
    this.caretMoved(this.code.getLine(line), ch);
  }

  pressed(/** @type {KeyboardEvent & { codemirrorIgnore?: boolean }} */ event) {
    const { isLeaving } = this;
    if (event.key === "Escape") this.isLeaving = !this.code.state.completionActive;
    else this.isLeaving = isLeaving && ["Shift", "Tab"].includes(event.key);
    event.codemirrorIgnore = event.key === "Tab" && isLeaving; // the browser moves the focus
  }

  /** Offers names that go on from the word before the caret. isAsked: by a key; after typing, Enter takes only a name that was chosen */
  suggest(/** @type {boolean} */ isAsked) {
    this.code.closeHint();
    if (this.isC || this.isReadOnly) return;
    const { line, ch } = this.code.getCursor();
    const text = this.code.getLine(line);
    const { word, names } = namesAt(text.slice(0, ch), text.slice(ch), this.source.text, isAsked);
    if (!names.length) return;
    const list = names.map(([name, form]) =>
      ({ text: name, render: (/** @type {HTMLElement} */ item) => item.append(make("b", "", name), form.slice(name.length)) }));
    const hints = { list, from: { line, ch: ch - word.length }, to: { line, ch }, selectedHint: isAsked ? 0 : -1 };
    const isChosen = () => Number(this.code.state.completionActive?.widget.selectedHint) >= 0;
    /** @type {Record<string, (code: unknown, handle: import("./codemirror").HintHandle) => unknown>} */
    const extraKeys = {
      Enter: (_, handle) => (isChosen() ? handle.pick() : CodeMirror.Pass),
      Tab: (_, handle) => {
        if (!isChosen()) handle.setFocus(0);
        handle.pick();
      },
    };
    // CodeMirror's own update would take an Enter that comes at once for a choice.
    const own = { completeSingle: false, updateOnCursorActivity: false, scrollMargin: 1, alignWithWord: true };
    this.code.showHint({ hint: () => hints, extraKeys, ...own });
  }

  /** Marks lines of the machine; the next one to be executed comes into sight. */
  mark(/** @type {MachineLines} */ marks) {
    if (JSON.stringify(marks) === JSON.stringify(this.marks)) return;
    this.unseen = marks.next === this.marks.next ? this.unseen : marks.next;
    this.marks = marks;
    const { last, next, stops, held } = marks;
    const breakpoint = (/** @type {number} */ line) => (stops.includes(line) ? [make("span", "breakpoint", "●")] : []);
    const arrow = (/** @type {number} */ line) => (line === next ? [make("span", "arrow", "▶")] : []);
    this.code.operation(() => {
      this.machineMarks.clear();
      this.machineMarks.style(last, "executed");
      this.machineMarks.style(next, "next");
      for (const line of new Set([...stops, next]))
        this.machineMarks.sign(line, "marks", make("span", "", ...breakpoint(line), ...arrow(line)));
      for (const line of held) this.machineMarks.sign(line, "marks", hollowSign());
    });
    this.bringIntoSight();
  }

  bringIntoSight(line = this.unseen) {
    if (!line || !this.code.getWrapperElement().offsetHeight) return;
    this.code.scrollIntoView({ line: line - 1, ch: 0 }, MARGIN);
    this.unseen = 0;
  }
}
