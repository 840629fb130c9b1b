// Lines of a source: the one of an instruction. `starts` has the numbers of lines by the addresses where their
// instructions begin, and 0 at the other addresses.

import { inOrder } from "./rows.js";

/** @typedef {Record<string, number>} Starts */

export const TINTS = 3; // grounds of lines and their instructions, in turn
/** @typedef {import("../messages").State} State */

/** @type {WeakMap<Starts, string[]>} */
const sorted = new WeakMap(); // the addresses of starts in rising order

/** The address where the source line of an instruction starts. */
/** @type {(starts: Starts, pc: string) => string | undefined} */
export function startOf(starts, pc) {
  if (!sorted.has(starts)) sorted.set(starts, inOrder(Object.keys(starts)));
  return sorted.get(starts)?.findLast((address) => parseInt(address, 16) <= parseInt(pc, 16));
}

/** The lines with breakpoints, by the addresses that each line's breakpoints have. */
/** @type {(stops: Record<string, string[]>, breaks: string[]) => number[]} */
export const stoppedLines = (stops, breaks) =>
  Object.keys(stops).filter((line) => stops[line].some((address) => breaks.includes(address))).map(Number);

/** The number of the source line of an instruction; 0 without one. */
/** @type {(state: State, address: string | undefined) => number} */
export function lineOf({ starts, line_numbers: numbers }, address = "") {
  return numbers?.[address] ?? (starts && starts[startOf(starts, address) ?? ""]) ?? 0;
}

/** The places, among addresses of instructions that follow each other, where another line begins, with its number. */
export function lineBegins(/** @type {Starts} */ starts, /** @type {(string | undefined)[]} */ instructions) {
  let before = 0;
  return instructions.flatMap((pc, place) => {
    const line = starts[startOf(starts, pc ?? "") ?? ""];
    if (!line || line === before) return [];
    before = line;
    return [{ place, line }];
  });
}
