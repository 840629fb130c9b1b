// The inputs of a source in assembler: a row below the editor for each line `#> a0 = i32 3, 1, 4`. Only the text stores them, so a row
// writes its line.

import { button, make, part } from "../common/dom.js";
import { textOf } from "../common/texts.js";

/** @typedef {{ line: number, place: string, type: string, values: string }} Input line: counted from 0; type: "" for a number */

const INPUT = /^\s*#>\s*([\w.$]+)\s*=\s*(?:((?:[iu](?:8|16|32|64)|text)\b(?:\[\d*\])?))?\s*(.*?)\s*$/;
const TYPES = ["i8", "u8", "i16", "u16", "i32", "u32", "i64", "u64", "text"];

/** The inputs of a text. */
/** @type {(text: string) => Input[]} */
export const inputsOf = (text) =>
  text.split("\n").flatMap((each, line) => {
    const [, place = "", type = "", values = ""] = INPUT.exec(each) ?? [];
    return place ? [{ line, place, type, values }] : [];
  });

/** The line of an input. */
export const inputLine = (/** @type {Input} */ { place, type, values }) => ["#>", place, "=", type, values].filter(Boolean).join(" ");

export class Inputs {
  shown = ""; // the inputs that the rows have, as JSON

  /** @param {ParentNode} root @param {import("./editor").Editor} editor */
  constructor(root, editor) {
    this.editor = editor;
    this.box = part(root, "inputs");
    const types = Object.assign(make("datalist", "", ...TYPES.map((type) => make("option", "", type))), { id: "input-types" });
    this.rows = make("div", "rows");
    this.box.append(types, this.rows);
    part(root, "add-input").addEventListener("click", () => this.add());
    editor.code.on("changes", () => this.paint());
    this.paint();
  }

  get inputs() { return this.editor.isC ? [] : inputsOf(this.editor.source.text); }

  /** Shows the rows as the text has them; a field that is typed into stays. */
  paint() {
    const { inputs } = this;
    const shown = JSON.stringify(inputs);
    this.box.hidden = !inputs.length;
    if (shown === this.shown) return;
    this.shown = shown;
    const { activeElement } = document;
    const [place, column] = [...this.rows.children].flatMap((row, at) =>
      row === activeElement?.parentElement ? [at, [...row.children].indexOf(activeElement)] : []);
    this.rows.replaceChildren(...inputs.map((input) => this.row(input)));
    const field = this.rows.children[place]?.children[column];
    if (field instanceof HTMLElement) field.focus();
  }

  /** The row of an input: its argument register, its type, its values, and a button that removes it. */
  row(/** @type {Input} */ input) {
    const labels = { place: textOf("inputs.place"), type: textOf("inputs.type"), values: textOf("inputs.values") };
    /** @type {(name: "place" | "type" | "values") => HTMLInputElement} */
    const field = (name) => {
      const element = Object.assign(make("input", name), { value: input[name], spellcheck: false, ariaLabel: labels[name] });
      element.placeholder = name === "type" ? textOf("inputs.number") : "";
      if (name === "type") element.setAttribute("list", "input-types");
      element.addEventListener("change", () => this.write(input.line, inputLine({ ...input, [name]: element.value.trim() })));
      return element;
    };
    const remove = button("×", textOf("inputs.remove", { place: input.place }), () => this.write(input.line, ""));
    return make("div", "input", field("place"), field("type"), field("values"), remove);
  }

  /** Puts a text in place of a line, which the empty text removes. */
  write(/** @type {number} */ line, /** @type {string} */ text) {
    const { code } = this.editor;
    const isLast = line === code.lastLine();
    const end = text || isLast ? { line, ch: code.getLine(line).length } : { line: line + 1, ch: 0 };
    code.replaceRange(text, { line, ch: 0 }, end);
  }

  /** Adds an input after the last one, or before the text, with the caret's focus in its first field. */
  add() {
    const { inputs, editor } = this;
    const line = inputs.length ? inputs[inputs.length - 1].line + 1 : 0;
    const isAfterLast = line > editor.code.lastLine();
    const place = `a${Math.min(inputs.length, 7)}`;
    const text = inputLine({ line, place, type: "", values: "0" });
    editor.code.replaceRange(isAfterLast ? `\n${text}` : `${text}\n`, { line, ch: 0 }, { line, ch: 0 });
    const field = this.rows.lastElementChild?.firstElementChild;
    if (field instanceof HTMLElement) field.focus();
  }
}
