// Vector types beside lines of a source: their words and their places, by hand.

import assert from "node:assert/strict";
import test from "node:test";
import { TypeMarks, columnsOf } from "../../../vecmon_lab/page/web/editor/type_marks.js";
import { lineTypeText } from "../../../vecmon_lab/page/web/panels/line_types.js";

test("the words of a type have its width, group and length", () => {
  const text = (/** @type {string[]} */ types, /** @type {number | undefined} */ vl = undefined) =>
    lineTypeText({ line: 1, types, ...(vl === undefined ? {} : { vl }) });
  assert.equal(text(["d1"], 8), "e32 m2 · vl 8");
  assert.equal(text(["d1"]), "e32 m2 · vl ≤ 16"); // VLMAX for VLEN = 256
  assert.equal(text(["5"], 4), "e8 mf8 · vl 4");
  assert.equal(text(["8000000000000000"], 0), "vill · vl 0");
  assert.equal(text(["c0", "d1"]), "differs by the way here: e8 m1 or e32 m2");
  assert.equal(text(["50", "d0"], 8), "differs by the way here: e32, m1, ta, mu or e32, m1, ta, ma");
  assert.equal(text([]), "vtype ?");
});

test("a tab goes to the next multiple of eight columns", () => {
  assert.equal(columnsOf("\tvadd.vv v1,\tv2"), 26);
  assert.equal(columnsOf("# 𝑥\t#"), 9); // a letter of two units
});

/** An editor's text with marks, as far as `TypeMarks` uses it. */
class Text {
  gutter = 40;
  width = 440;
  /** @type {{ line: number, from: number, to: number, options: any }[]} */ marks = [];
  /** @type {() => void} */ changed = () => {};

  constructor(/** @type {string[]} */ ...lines) { this.lines = lines; }

  on(/** @type {string} */ _, /** @type {() => void} */ heard) { this.changed = heard; }
  getScrollInfo() { return { clientWidth: this.width }; }
  getGutterElement() { return { offsetWidth: this.gutter }; }
  defaultCharWidth() { return 10; }
  getLine(/** @type {number} */ line) { return this.lines[line]; }
  operation(/** @type {() => void} */ perform) { perform(); }
  markText(/** @type {any} */ from, /** @type {any} */ to, /** @type {any} */ options) {
    const mark = { line: from.line, from: from.ch, to: to.ch, options };
    this.marks.push(mark);
    return {
      find: () => (this.marks.includes(mark) ? { from: { line: mark.line }, to: { line: mark.line } } : undefined),
      clear: () => (this.marks = this.marks.filter((each) => each !== mark)),
    };
  }

  /** What is shown: the line, the place of its last character, the text, and whether it is below the line. */
  get shown() {
    return this.marks.map(({ line, from, to, options }) =>
      [line, from, to, options.attributes["data-type"], options.className.endsWith("below")]);
  }
}

test("types are at the last characters of their lines, and below lines without room", () => {
  const code = new Text("vsetvli t0, a0, e32, m1, ta, ma", "nop", "nop # 𝑥");
  const marks = new TypeMarks(/** @type {any} */ (code));
  marks.measure(); // 40 columns
  marks.show([{ line: 1, types: ["d0"] }, { line: 2, types: ["d0"], vl: 8 }, { line: 3, types: [] }]);
  const first = [0, 30, 31, "e32 m1 · vl ≤ 8", true];
  assert.deepEqual(code.shown, [first, [1, 2, 3, "e32 m1 · vl 8", false], [2, 6, 8, "vtype ?", false]]);
  const [{ options }] = code.marks;
  marks.show([{ line: 1, types: ["d0"] }]);
  assert.deepEqual(code.shown, [first]);
  assert.equal(code.marks[0].options, options); // it wasn't drawn again
  code.width = 530; // 49 columns: 31, 2 and 16
  marks.measure();
  assert.deepEqual(code.shown, [[...first.slice(0, 4), false]]);
});

test("a line that changes loses its type", () => {
  const code = new Text("vsetvli t0, a0, e32, m1", "nop", "vmv.v.i v1, 0");
  const marks = new TypeMarks(/** @type {any} */ (code));
  marks.show([{ line: 1, types: ["d0"] }, { line: 3, types: ["d0"] }]);
  code.lines[0] += ", ta";
  code.lines.splice(1, 1);
  code.marks[1].line = 1; // it has moved with its line
  code.changed();
  assert.deepEqual(code.shown.map(([line]) => line), [1]);
  marks.show([]);
  assert.deepEqual(code.shown, []);
});
