// The source of a seat: what is typed goes to the server, and what others write there comes; versions; a file to save.

import { LoadedLines } from "./breakpoints.js";
import { NO_MARKS } from "./editor.js";
import { offerFile, part, parts, put, timeText } from "../common/dom.js";
import { offer } from "./languages.js";
import { languageOf, suffixOf } from "./links.js";
import { roomText } from "./room.js";
import { MOST_LETTERS, isApart, isDue, isUnsent, keyOf, sourceState } from "./source_state.js";
import { lineOf, stoppedLines } from "../panels/source_lines.js";
import { textOf } from "../common/texts.js";

/** @typedef {import("../types").Message} Message */
/** @typedef {import("../messages").SourceView} SourceView */
/** @typedef {import("../messages").VersionView} Version */
/** @typedef {import("../types").SourceText} SourceText */

const PAUSE = 700; // ms in which nothing is typed, and then it is sent
const UNSENT = "unsent"; // the key of a text in the tab's storage that the server hadn't got as the page was closed or reloaded
/** @type {Record<string, string>} */
const REASONS = { typed: textOf("source.typed"), written: textOf("source.assembled"), given: textOf("source.given") };

/** A version in words, as `14:05 given, Doubles`. */
const versionText = (/** @type {Version} */ { time, why, title }) => `${timeText(time)} ${REASONS[why]}${title && ", "}${title}`;

export class Source {
  seat = "";
  /** @type {SourceView | null} */ told = null;
  /** @type {Set<string>} */ sent = new Set(); // keys of requests under way
  /** @type {Map<number, number>} */ held = new Map(); // lines with breakpoints of the loaded program, by their numbers in the changed text
  isTyped = false; // whether the text was changed since the page was opened
  timer = 0;
  /** @type {import("./source_state").Apart | null} */ apart = null;
  windows = 1; // that the seat is open in
  /** @type {() => Promise<unknown>} */ openFree = async () => undefined; // opens the program without an exercise, if there is one
  /** @type {{ of: number, used: number } | undefined} */ share; // the seat's, of the script

  /**
   * @param {ParentNode} root has the buttons and lists of the editor
   * @param {import("./editor").Editor} editor
   * @param {import("../types").Connection} connection
   */
  constructor(root, editor, connection) {
    this.editor = editor;
    this.connection = connection;
    this.loaded = new LoadedLines(editor.code);
    this.file = part(root, "open");
    this.parts = parts(root, "versions", "assemble", "left", "windows", "windows-say", "use-own", "show-other");
    const { versions, "use-own": useOwn, "show-other": showOther } = this.parts;
    useOwn.addEventListener("click", () => this.useOwn());
    showOther.addEventListener("click", () => this.showOther());
    document.addEventListener("visibilitychange", () => {
      this.keepUnsaved();
      this.send();
    });
    addEventListener("pagehide", () => this.keepUnsaved());
    addEventListener("beforeunload", (event) => this.leave(event));
    versions.addEventListener("change", () => this.showVersion(versions.selectedIndex));
    part(root, "save").addEventListener("click", () => this.save());
    part(root, "open-file").addEventListener("click", () => this.file.click());
    this.file.addEventListener("change", () => this.open(this.file.files?.[0]));
  }

  /** Where the editor's text is. The page derives its displays and actions from this state. */
  get state() {
    const { told, sent, isTyped, apart } = this;
    return sourceState({ told, here: this.editor.source, sent, isTyped, apart });
  }

  save() {
    const { text, language } = this.editor.source;
    offerFile(`${this.seat}.${suffixOf(language, this.editor.language)}`, new Blob([text]));
  }

  /** Puts a file into the editor, where undo takes it back. From the start page it is no answer to an exercise. */
  async open(/** @type {File | undefined} */ file) {
    if (file && document.body.matches(".starting")) await this.openFree();
    if (file) await this.replace({ text: await file.text(), language: languageOf(file.name, this.editor.language) });
    this.file.value = ""; // so that the same file can be opened again
  }

  /** Takes up what was typed. */
  typed() {
    this.isTyped = true;
    this.showLanguage();
    this.showWindows();
    clearTimeout(this.timer);
    this.timer = setTimeout(() => this.send(), PAUSE);
  }

  /** Sends the typed text, with the number that it was typed at: text that others wrote meanwhile stays. */
  async send() {
    clearTimeout(this.timer);
    this.timer = 0;
    if (!isDue(this.state) || !this.connection.isReady) return;
    if (this.sent.size) this.timer = setTimeout(() => this.send(), PAUSE);
    else await this.bringOwn({ line: this.editor.caretLine });
  }

  /** Keeps what was typed in the browser, since the page may be closed before the text is sent: in a class, for a reload of this tab. */
  keepUnsaved() {
    const { connection, editor, number, seat, told } = this;
    if (!told || !this.isTyped || this.isTooLong) return;
    const own = { ...editor.source, exercise: told.exercise };
    if (connection.keepUnsaved) connection.keepUnsaved(own);
    else if (isUnsent(this.state)) sessionStorage.setItem(UNSENT, JSON.stringify({ ...own, number, seat, sent: [...this.sent] }));
    else sessionStorage.removeItem(UNSENT);
  }

  /** Sends what was typed before the page is closed. Without a connection the browser asks whether to close it. */
  leave(/** @type {BeforeUnloadEvent} */ event) {
    this.send();
    if (isUnsent(this.state) && !this.connection.isReady && !this.connection.keepUnsaved) event.preventDefault();
  }

  /** Takes back what this tab kept of the seat before a reload; it becomes a version if another window has changed the source since. */
  takeUnsent(/** @type {SourceView} */ source) {
    const { seat = "", sent = [], ...kept } = JSON.parse(sessionStorage.getItem(UNSENT) ?? "{}");
    sessionStorage.removeItem(UNSENT);
    if (seat !== this.seat || keyOf(kept) === keyOf(source) || this.editor.isReadOnly) return;
    const isCurrent = kept.number === source.number || sent.includes(keyOf(source));
    if (isCurrent && kept.exercise === source.exercise) {
      this.editor.put(kept);
      this.typed();
    } else this.connection.ask({ ask: "draft", ...kept });
  }

  /** Does what brings a source to the server; the answer. */
  /** @type {<Answer>(source: SourceText, carryOut: () => Promise<Answer>) => Promise<Answer>} */
  bring(source, carryOut) {
    this.sent.add(keyOf(source));
    return carryOut().finally(() => this.sent.delete(keyOf(source)));
  }

  /** The number of the seat's source that the editor's text comes from; -1 if another window has changed that since. */
  get number() { return isApart(this.state) ? -1 : this.told?.number; }

  /** Sends the editor's text to the server, with its exercise; a text to keep becomes a version. line: the caret's */
  bringOwn(/** @type {{ keep?: boolean, line?: number, number?: number }} */ more) {
    const { source } = this.editor;
    const { number = 0, exercise = "" } = { ...this.told, number: this.number };
    const window = this.apart && isApart(this.state) ? { window: this.apart.name } : {};
    if (this.apart) this.apart.kept = keyOf(source);
    return this.bring(source, () => this.connection.ask({ ask: "draft", ...source, number, exercise, ...window, ...more }));
  }

  /** Makes this window's text the seat's; that of the other window becomes a version. */
  async useOwn() {
    if (this.told && isApart(this.state)) await this.bringOwn({ number: this.told.number, line: this.editor.caretLine });
  }

  /** Shows the seat's text in place of this window's, which becomes a version first. */
  async showOther() {
    const answer = isApart(this.state) ? await this.bringOwn({}) : null;
    if (!answer || answer.error || !this.told) return;
    this.apart = null;
    this.editor.put(this.told);
    this.showWindows();
  }

  /** Shows in how many windows the seat is open, and whether this one has a text of its own. */
  showWindows(windows = this.windows) {
    this.windows = windows;
    const { windows: line, "windows-say": says, "use-own": useOwn, "show-other": showOther } = this.parts;
    const several = windows > 1 ? textOf("windows.open", { number: `${windows}` }) : "";
    const isOwn = isApart(this.state);
    put(says, isOwn ? textOf("windows.apart") : several);
    line.hidden = !isOwn && windows < 2;
    useOwn.hidden = !isOwn;
    showOther.hidden = !isOwn;
  }

  /** Whether the text is too long to become a version. */
  get isTooLong() { return this.state === "too-long"; }

  /** Puts another source into the editor, where undo takes it back; what is there becomes a version first, or stays. */
  async replace(/** @type {SourceText} */ source) {
    if (this.isTooLong) return;
    const own = this.editor.source;
    const isOwn = !this.editor.isReadOnly && !["absent", "sample"].includes(this.state);
    const isKept = isOwn && own.text.trim() && keyOf(own) !== keyOf(source);
    const answer = isKept ? await this.bringOwn({ keep: true }) : { error: "" };
    if (answer && !answer.error) this.editor.put(source);
  }

  /** Opens an exercise, whose source comes from the server; returns whether that had the source of the one before. */
  async openExercise(/** @type {string} */ exercise) {
    clearTimeout(this.timer);
    if (this.isTooLong) return false;
    if (isUnsent(this.state)) this.bringOwn({ keep: false });
    const answer = await this.connection.ask({ ask: "open", exercise });
    return Boolean(answer && !answer.error);
  }

  /** Shows what the button does to a source in this language, and what is left of the seat's share if a compiled source has little room. */
  showLanguage(share = this.share) {
    this.share = share;
    const isCompiled = this.editor.source.language > 0;
    const left = share && isCompiled ? roomText(share) : "";
    put(this.parts.assemble, isCompiled ? textOf("source.compile") : textOf("source.assemble"));
    put(this.parts.left, this.isTooLong ? textOf("source.too-long", { most: MOST_LETTERS.toLocaleString(textOf("language")) }) : left);
  }

  /** Shows what the server has, unless it is what was typed here. */
  /** @type {(seat: string, source: SourceView) => void} */
  show(seat, source) {
    const { editor, told } = this;
    const isNew = seat !== this.seat || !told;
    const isOwn = (/** @type {SourceText} */ each) => keyOf(each) === keyOf(told) || this.sent.has(keyOf(each));
    const isOther = !isNew && (source.exercise !== told.exercise || (source.number > told.number && !isOwn(source)));
    const versions = source.versions.map(versionText).reverse();
    if (told?.versions !== source.versions) offer(this.parts.versions, textOf("source.versions"), versions);
    if (isOther && this.isTooLong) return;
    const isSeatsWindow = !isNew && !source.given && source.exercise === told.exercise && !editor.isReadOnly;
    const isOwnUnsent = isUnsent(this.state);
    Object.assign(this, { seat, told: source });
    if (!isSeatsWindow || keyOf(source) === keyOf(editor.source)) this.apart = null;
    else if (isOther && isOwnUnsent) this.apart ??= { name: Math.random().toString(36).slice(2, 12), kept: "" };
    if (this.apart) {
      this.timer ||= setTimeout(() => this.send(), PAUSE);
      return;
    }
    if (isNew || editor.isReadOnly) {
      if (isNew ? source.text || editor.isReadOnly : keyOf(source) !== keyOf(told)) editor.put(source);
      if (isNew) this.takeUnsent(source);
    } else if (isOther) {
      const { number, exercise } = told;
      if (isOwnUnsent && !isOwn(editor.source)) this.connection.ask({ ask: "draft", ...editor.source, number, exercise }); // a version
      editor.put(source);
      if (source.exercise !== exercise) editor.code.clearHistory(); // what is undone is of one exercise
    } else if (isUnsent(this.state)) this.timer ||= setTimeout(() => this.send(), PAUSE);
  }

  /** The source in the machine, if what was typed since isn't at the server yet. */
  get built() {
    const { told } = this;
    return told?.stands && this.state !== "loaded" ? { text: told.text, language: told.language } : undefined;
  }

  /** Whether the machine has the source as it is here. */
  get stands() { return this.state === "loaded"; }

  /**
   * Marks the lines that the machine executed last and executes next, and those with breakpoints; returns them. A source that has changed
   * has only the breakpoints, hollow.
   */
  mark(/** @type {import("../messages").State} */ state) {
    const { breaks = [], pc, instruction, stops = {} } = state;
    const stopped = stoppedLines(stops, breaks);
    const lines = { last: lineOf(state, instruction), next: lineOf(state, pc), stops: stopped, held: [] };
    if (this.stands) this.loaded.take(stops);
    this.held = this.stands ? new Map() : this.loaded.present(stops, stopped);
    const marks = this.stands ? lines : { ...NO_MARKS, held: [...this.held.keys()] };
    this.editor.mark(marks);
    return marks;
  }

  /** Marks the lines of a state in an editor with the source that is in the machine; returns them. */
  markIn(/** @type {import("./editor").Editor} */ editor, /** @type {import("../messages").State} */ state) {
    const { breaks = [], pc, instruction, stops = {} } = state;
    const lines = { last: lineOf(state, instruction), next: lineOf(state, pc), stops: stoppedLines(stops, breaks), held: [] };
    editor.mark(lines);
    return lines;
  }

  /** Puts an earlier version into the editor, where undo takes it back; the last one has the place 1. */
  async showVersion(/** @type {number} */ place) {
    this.parts.versions.selectedIndex = 0;
    const answer = await this.connection.ask({ ask: "version", number: this.told?.versions.at(-place)?.number ?? 0 });
    if (answer?.text !== undefined) await this.replace({ text: answer.text, language: answer.language ?? 0 });
  }
}
