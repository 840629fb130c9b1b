// Marks at lines of an editor, which go together.

export class LineMarks {
  /** @type {(() => unknown)[]} */ removers = [];

  /** @param {import("./codemirror").Editor} code */
  constructor(code) {
    this.code = code;
  }

  clear = () => this.removers.splice(0).forEach((remove) => remove());

  /** Gives the ground of a line, or its gutter, a class. */
  style(/** @type {number} */ line, /** @type {string} */ kind, /** @type {"background" | "gutter"} */ where = "background") {
    if (line < 1 || line > this.code.lineCount()) return;
    const handle = this.code.addLineClass(line - 1, where, kind);
    this.removers.push(() => this.code.removeLineClass(handle, where, kind));
  }

  /** Shows a sign in a gutter of a line. */
  sign(/** @type {number} */ line, /** @type {string} */ gutter, /** @type {HTMLElement} */ sign) {
    if (line < 1 || line > this.code.lineCount()) return;
    const handle = this.code.setGutterMarker(line - 1, gutter, sign);
    this.removers.push(() => this.code.setGutterMarker(handle, gutter, null));
  }
}
