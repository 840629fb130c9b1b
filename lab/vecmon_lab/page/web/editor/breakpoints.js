// Breakpoints at lines of a text that isn't the machine's source: those that wait for it, and those of the loaded program. They stay at
// their lines when the text changes.

import { make } from "../common/dom.js";
import { textOf } from "../common/texts.js";

/** @typedef {import("./codemirror").LineHandle} LineHandle */

/** The sign of a breakpoint that the text's program gets once it is loaded. */
export const hollowSign = () => Object.assign(make("span", "breakpoint", "○"), { title: textOf("breakpoints.waiting") });

/** @typedef {Record<string, string[]>} Stops the addresses of each line's breakpoints */
/** @typedef {[number, number][]} Pairs of each line a number by which it is known, and its number in the text */
/** @typedef {{ text: string, lines: Pairs, stops: Stops }} KeptLines */

const KEY = "breakpoints"; // of the lines in the tab's storage

/** Lines that stay at their places when the text changes. After the whole text was replaced, they come back with it, as by undo. */
class FollowedLines {
  /** @type {KeptLines | null} */ left = null; // those of the text that was replaced last, if it had any
  /** @type {Stops} */ stops = {}; // of the program that the lines belong to

  /** @param {import("./codemirror").Editor} code */
  constructor(code) {
    this.code = code;
    code.on("beforeChange", (_, change) => this.replacesAll(change) && this.leave());
  }

  /** Whether a change replaces the whole text, as pasting over all of it does: CodeMirror keeps its first and its last line then. */
  replacesAll(/** @type {import("./codemirror").Change} */ { from, to, text, origin }) {
    const last = this.code.lineCount() - 1;
    const isAll = !from.line && !from.ch && to.line === last && to.ch === (this.code.getLine(last) ?? "").length;
    return origin === "setValue" || (isAll && text.length > 1);
  }

  /** The lines as they are in the text. */
  /** @returns {Pairs} */
  get pairs() { return []; }

  /** Sets where lines are. */
  put(/** @type {Pairs} */ _lines) {}

  /** @returns {KeptLines} */
  get kept() { return { text: this.code.getValue(), lines: this.pairs, stops: this.stops }; }

  leave() {
    const { kept } = this;
    if (kept.lines.length) this.left = kept;
  }

  /** Sets the lines that were left, if their text is back. */
  comeBack(left = this.left) {
    if (!left || left.text !== this.code.getValue()) return;
    this.left = null;
    this.stops = left.stops;
    this.put(left.lines);
  }
}

/** Keeps lines in the tab's storage, as the page may be reloaded now. */
export function keepLines(/** @type {FollowedLines[]} */ ...all) {
  sessionStorage.setItem(KEY, JSON.stringify(all.map(({ kept }) => kept)));
}

/** Takes back lines that were kept, if the text is as it was then. */
export function takeKeptLines(/** @type {FollowedLines[]} */ ...all) {
  const kept = JSON.parse(sessionStorage.getItem(KEY) ?? "[]");
  all.forEach((lines, place) => lines.comeBack(kept[place]));
}

export class WaitingBreakpoints extends FollowedLines {
  /** @type {Set<LineHandle>} */ all = new Set(); // their lines

  /** @param {import("./codemirror").Editor} code */
  constructor(code) {
    super(code);
    code.on("changes", () => this.comeBack());
  }

  /** The numbers of the lines that have one, in rising order. */
  get lines() {
    const places = [...this.all].flatMap((line) => this.code.getLineNumber(line) ?? []); // without lines that are gone
    return places.map((place) => place + 1).sort((one, other) => one - other);
  }

  /** Sets that of a line, or removes it. */
  toggle(/** @type {number} */ line) {
    const handle = this.code.getLineHandle(line - 1);
    if (handle && this.all.delete(handle)) this.code.setGutterMarker(handle, "marks", null);
    else this.set(line);
  }

  set(/** @type {number} */ line) {
    if (line <= this.code.lineCount()) this.all.add(this.code.setGutterMarker(line - 1, "marks", hollowSign()));
  }

  clear() {
    this.all.forEach((line) => this.code.setGutterMarker(line, "marks", null));
    this.all.clear();
  }

  /** @returns {Pairs} */
  get pairs() { return this.lines.map((line) => [line, line]); }

  put(/** @type {Pairs} */ lines) { lines.forEach(([, line]) => this.set(line)); }

  leave() {
    super.leave();
    this.clear();
  }
}

/** Follows the lines of the loaded source through changes of the text. */
export class LoadedLines extends FollowedLines {
  /** @type {Stops} */ stops = {}; // of the loaded program
  /** @type {Map<number, LineHandle>} */ handles = new Map(); // by the lines' numbers in the loaded source
  isCurrent = false; // whether the text hasn't changed since they were taken

  /** @param {import("./codemirror").Editor} code */
  constructor(code) {
    super(code);
    code.on("change", () => {
      this.isCurrent = false;
      this.comeBack();
    });
  }

  leave() {
    super.leave();
    this.handles = new Map();
  }

  /** @returns {Pairs} */
  get pairs() { return [...this.present(this.stops, [...this.handles.keys()])].map(([now, line]) => [line, now]); }

  /** Takes the lines of a text that is the loaded source. */
  take(/** @type {Stops} */ stops) {
    if (this.isCurrent && stops === this.stops) return;
    Object.assign(this, { stops, isCurrent: true });
    this.put(Object.keys(stops).map((line) => [Number(line), Number(line)]));
  }

  put(/** @type {Pairs} */ lines) {
    const places = lines.map(([line, now]) => /** @type {const} */ ([line, this.code.getLineHandle(now - 1)]));
    this.handles = new Map(places.flatMap(([line, handle]) => (handle ? [[line, handle]] : [])));
  }

  /**
   * Lines of the loaded source that are still in the text, by their numbers there. None if other lines were taken.
   * @type {(stops: Stops, lines: number[]) => Map<number, number>}
   */
  present(stops, lines) {
    if (stops !== this.stops && JSON.stringify(stops) !== JSON.stringify(this.stops)) return new Map();
    this.stops = stops;
    const placeOf = (/** @type {number} */ line) => {
      const handle = this.handles.get(line);
      return handle ? this.code.getLineNumber(handle) : null;
    };
    return new Map(lines.flatMap((line) => {
      const place = placeOf(line);
      return place === null ? [] : [[place + 1, line]];
    }));
  }
}
