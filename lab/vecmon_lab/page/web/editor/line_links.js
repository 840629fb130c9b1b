// A source in C above its instructions. Lines have three tints in turn, which their instructions share; the line at the pointer or
// the caret is marked with its instructions.

import { elementsIn, part } from "../common/dom.js";
import { LineMarks } from "./line_marks.js";
import { TINTS } from "../panels/source_lines.js";

/** @typedef {import("../panels/source_lines").Starts} Starts */

export class LineLinks {
  /** @type {Starts | undefined} */ starts; // of the source that is in the editor and in the machine
  line = 0; // that is marked

  /** @param {HTMLElement} root of a machine @param {import("./editor").Editor} editor */
  constructor(root, { box: source, code }) {
    this.program = part(root, "program");
    this.listing = part(root, "listing");
    this.code = code;
    this.tints = new LineMarks(code);
    this.marked = new LineMarks(code);
    const rowOf = (/** @type {Event} */ { target }) => /** @type {HTMLElement | null} */ (/** @type {Element} */ (target).closest("tr"));
    this.listing.addEventListener("mouseover", (event) => this.mark(Number(rowOf(event)?.dataset.line)));
    source.addEventListener("mousemove", ({ clientY }) => this.mark(code.lineAtHeight(clientY, "window") + 1));
    for (const box of [this.listing, source]) box.addEventListener("mouseleave", () => this.mark(code.getCursor().line + 1));
  }

  /** Shows a state's rows, which are made anew; starts: undefined unless a compiled program is that of the editor's source. */
  show(/** @type {Starts | undefined} */ starts) {
    const isOther = starts !== this.starts;
    this.starts = starts;
    if (isOther) {
      this.program.classList.toggle("both", starts !== undefined);
      this.code.operation(() => this.tint());
    }
    this.mark(isOther ? 0 : this.line, true);
  }

  /** Marks a line and its instructions in place of those before. isNew: whether the rows are */
  mark(/** @type {number} */ line, isNew = false) {
    if (line === this.line && !isNew) return;
    this.line = line;
    for (const row of elementsIn(this.listing, "tr")) row.classList.toggle("linked", Number(row.dataset.line) === line);
    this.marked.clear();
    if (Object.values(this.starts ?? {}).includes(line)) this.marked.style(line, "linked");
  }

  /** Gives the lines that have instructions their tints, in place of those before. */
  tint() {
    this.tints.clear();
    for (const line of new Set(Object.values(this.starts ?? {}))) this.tints.style(line, `tint-${line % TINTS}`);
  }
}
