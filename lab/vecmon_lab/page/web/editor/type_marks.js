// The vector types at the ends of lines in an editor, or below lines that leave no room for them. They are no part of the text.

import { lineTypeText } from "../panels/line_types.js";

const TAB = 8; // columns
const GAP = 2; // columns between a line and its type

/** The columns of a line's text. */
export const columnsOf = (/** @type {string} */ text) =>
  [...text].reduce((column, character) => (character === "\t" ? column + TAB - (column % TAB) : column + 1), 0);

export class TypeMarks {
  /** @type {{ mark: import("./codemirror").Mark, line: string, text: string, isBelow: boolean }[]} */ marks = []; // line: its text
  room = Infinity; // columns in sight

  /** @param {import("./codemirror").Editor} code */
  constructor(code) {
    this.code = code;
    code.on("changes", () => this.removeChanged());
  }

  /** Shows the types of a source in place of those before. */
  show(/** @type {import("../messages").LineType[]} */ types) {
    this.put(new Map(types.map((each) => [each.line - 1, lineTypeText(each)])));
  }

  /** Takes the width of the editor as it is now. */
  measure() {
    const { clientWidth } = this.code.getScrollInfo();
    const room = Math.floor((clientWidth - this.code.getGutterElement().offsetWidth) / this.code.defaultCharWidth());
    if (!clientWidth || room === this.room) return;
    this.room = room;
    this.put(new Map(this.marks.map(({ mark, text }) => [mark.find()?.from.line ?? -1, text])));
  }

  /** Puts texts at lines, by the numbers of these from 0 on; those that are there already stay. */
  put(/** @type {Map<number, string>} */ texts) {
    this.code.operation(() => {
      this.marks = this.marks.filter((each) => {
        const line = each.mark.find()?.from.line ?? -1;
        const stays = texts.get(line) === each.text && this.isBelow(each.line, each.text) === each.isBelow;
        if (stays) texts.delete(line);
        else each.mark.clear();
        return stays;
      });
      for (const [number, text] of texts) this.mark(number, text);
    });
  }

  isBelow(/** @type {string} */ line, /** @type {string} */ text) { return columnsOf(line) + GAP + text.length > this.room; }

  /** Marks the last character of a line. */
  mark(/** @type {number} */ number, /** @type {string} */ text) {
    const line = this.code.getLine(number);
    if (!line) return;
    const isBelow = this.isBelow(line, text);
    const from = { line: number, ch: line.length - [...line].slice(-1)[0].length };
    const options = { className: isBelow ? "typed below" : "typed", attributes: { "data-type": text } };
    this.marks.push({ mark: this.code.markText(from, { line: number, ch: line.length }, options), line, text, isBelow });
  }

  /** Removes the types of lines that have changed. */
  removeChanged() {
    this.marks = this.marks.filter(({ mark, line }) => {
      const place = mark.find();
      const stays = place !== undefined && this.code.getLine(place.from.line) === line;
      if (!stays) mark.clear();
      return stays;
    });
  }
}
