// A profile: the widths of bars, the order of instructions, and the frame that the flame graph shows in full width.

import { setWidths } from "./bars.js";
import { byId, elementsIn } from "../common/dom.js";

const [body] = byId("rows").tBodies;
const byAddress = [...body.rows];
const ticksOf = (/** @type {HTMLElement} */ row) => Number(row.dataset.ticks); // of an instruction; a symbol's label has none
const byTicks = byAddress.filter((row) => row.dataset.ticks).sort((one, other) => ticksOf(other) - ticksOf(one));

/** Shows the instructions in an order. */
function show(/** @type {boolean} */ isByTicks) {
  body.replaceChildren(...(isByTicks ? byTicks : byAddress));
  byId("by-ticks").ariaPressed = `${isByTicks}`;
  byId("by-address").ariaPressed = `${!isByTicks}`;
}

/** Shows a frame, and those that called it, in full width. */
function choose(/** @type {Element} */ button) {
  for (const frame of elementsIn(byId("flame"), "li")) frame.classList.toggle("chosen", frame.contains(button));
}

setWidths();
byId("by-address").addEventListener("click", () => show(false));
byId("by-ticks").addEventListener("click", () => show(true));
for (const button of elementsIn(byId("flame"), "button")) button.addEventListener("click", () => choose(button));
