// The source of a lesson as it was written: its lines, with those that were executed last and come next marked, and those with breakpoints.

import { elementsIn, make, part, unseen } from "../common/dom.js";
import { lineOf } from "./source_lines.js";
import { lineTypeText } from "./line_types.js";
import { textOf } from "../common/texts.js";

const MARGIN = 60; // px above a line that is scrolled into sight

/** The signs of a line, with texts for those who don't see them. The executed line has its ground for a sign, as in the editor. */
function signs(/** @type {boolean} */ isStop, /** @type {boolean} */ isExecuted, /** @type {boolean} */ isNext) {
  return [
    ...(isStop ? [make("span", "breakpoint", "●"), unseen(textOf("listing.breakpoint"))] : []),
    ...(isNext ? [make("span", "arrow", "▶"), unseen(textOf("listing.next"))] : []),
    ...(isExecuted ? [unseen(textOf("listing.executed"))] : []),
  ];
}

export class WrittenSource {
  next = 0; // the number of the line that was brought into sight
  width = 0; // px that the types have been placed for
  /** @type {HTMLElement[]} */ typed = []; // texts of lines with vector types

  /** @param {ParentNode} root has the box of the lines @param {string} text of the source */
  constructor(root, text) {
    this.box = part(root, "written");
    this.lines = text.replace(/\n$/, "").split("\n").map((line) => make("li", "", make("span", "marks"), make("span", "text", line)));
    elementsIn(this.box, "ol")[0].replaceChildren(...this.lines);
    new ResizeObserver(() => this.placeTypes()).observe(this.box);
  }

  /** Shows the vector types at the lines of the source. */
  showTypes(/** @type {import("../messages").LineType[]} */ types) {
    this.typed = types.map((each) => {
      const text = /** @type {HTMLElement} */ (this.lines[each.line - 1].children[1]);
      text.dataset.type = lineTypeText(each);
      return text;
    });
    this.placeTypes();
  }

  /** Places the types at the ends of their lines, or below those that leave no room. */
  placeTypes() {
    const { typed, box: { clientWidth } } = this;
    if (!clientWidth || clientWidth === this.width) return;
    this.width = clientWidth;
    typed.forEach((text) => text.classList.remove("below"));
    const long = typed.filter((text) => text.offsetLeft + text.offsetWidth > clientWidth);
    long.forEach((text) => text.classList.add("below"));
  }

  /** Marks the lines of a state, and brings the next one into sight. */
  paint(/** @type {import("../messages").State} */ state) {
    const executed = lineOf(state, state.instruction);
    const next = lineOf(state, state.pc);
    const stops = new Set(state.breaks?.map((address) => lineOf(state, address)));
    this.lines.forEach((line, place) => {
      const number = place + 1;
      line.classList.toggle("executed", number === executed);
      line.classList.toggle("next", number === next);
      line.ariaCurrent = number === next ? "step" : null;
      line.children[0].replaceChildren(...signs(stops.has(number), number === executed, number === next));
    });
    if (next !== this.next) this.bringIntoSight(next);
  }

  bringIntoSight(/** @type {number} */ number) {
    const { box, lines } = this;
    const line = lines[number - 1];
    if (!line || !box.clientHeight) return;
    this.next = number;
    const isSeen = line.offsetTop >= box.scrollTop && line.offsetTop + line.offsetHeight <= box.scrollTop + box.clientHeight;
    if (!isSeen) box.scrollTop = line.offsetTop - MARGIN;
  }
}
