// The elements of the last vector instruction as columns, and their strips.

import { countOf, executedOf } from "./instruction.js";
import { instructionRows, registerRow } from "./lane_rows.js";
import { LETTER } from "../common/numbers.js";
import { textOf } from "../common/texts.js";
import { vectorType } from "../common/words.js";

/** @typedef {import("./instruction").View} View */
/** @typedef {import("./lane_rows").Row} Row */
/**
 * outcomes: by element, none where the last instruction is no vector instruction; changed: whether an element of a result changed;
 * pairs: of curves; longest: the number of characters of the longest cell
 * @typedef {object} Columns
 * @property {import("./instruction").Executed | undefined} executed
 * @property {Row[]} rows
 * @property {number} elements
 * @property {import("./instruction").Outcome[]} outcomes
 * @property {boolean[]} changed
 * @property {import("./instruction").Pair[]} pairs
 * @property {number} longest
 * @property {number} vl
 */
/** @typedef {{ columns: number, size: "large" | "medium" | "small" | "tiny", head: "wide" | "narrow" | "least" }} Fit */

/** @type {[Fit["size"], number][]} sizes of letters, in sixteenths of a rem, and which of them are used for more than 4 columns */
const SIZES = [["large", 15], ["medium", 13], ["small", 12], ["tiny", 11]];
const HEADS = { wide: 112, narrow: 84, least: 54 }; // widths of a row's head in sixteenths of a rem
const NARROW = 480; // sixteenths of a rem

/**
 * Returns the columns of elements of the last vector instruction; without one those of the registers in use.
 * @param {View} view
 * @returns {Columns}
 */
export function columnsOf(view) {
  const executed = view.width ? undefined : executedOf(view);
  const rows = executed ? instructionRows(view, executed) : registerRows(view);
  const { outcomes, pairs } = executed ?? { outcomes: [], pairs: [] };
  const elements = Math.max(outcomes.length, ...rows.map(({ cells }) => cells.length));
  const changed = Array.from({ length: elements }, (_, element) => rows.some(({ cells }) => cells[element]?.classes.includes("changed")));
  const longest = Math.max(2, ...rows.flatMap(({ cells }) => cells.map(({ text }) => text.length)));
  return { executed, rows, elements, outcomes, changed, pairs, longest, vl: (executed ?? view.state).vl };
}

/** @type {(first: number, count: number) => number[]} */
const numbersFrom = (first, count) => Array.from({ length: count }, (_, place) => first + place);

/**
 * Returns a row for each register group in use, as the instruction took it that wrote it last, and for other registers that aren't zero
 * as the vector type has them; or for all registers, if the view has their width.
 * @param {View} view
 * @returns {Row[]}
 */
function registerRows(view) {
  const { state, used = new Set(), width } = view;
  if (width) return numbersFrom(0, 32).map((register) => plainRow(view, { register, width, size: 1 }));
  const { groups = {} } = state;
  const { sew, lmul } = vectorType(state.vtype);
  const rows = [];
  for (let register = 0; register < 32; ) {
    const most = register % Math.max(1, lmul) ? 1 : Math.max(1, lmul);
    const isFree = numbersFrom(register, most).every((each) => !(each in groups));
    const group = groups[register] ?? { width: sew, size: isFree ? most : 1 };
    const isUsed = register in groups || numbersFrom(register, group.size).some((each) => used.has(each));
    if (isUsed) rows.push(plainRow(view, { ...group, register }));
    register += group.size;
  }
  return rows;
}

/**
 * Returns the row of a register group that no instruction took just now.
 * @param {View} view
 * @param {{ register: number, size: number, width: number }} group
 * @returns {Row}
 */
function plainRow({ state, before, form, width: chosen }, { register, size, width }) {
  const { vill, most, sew } = vectorType(state.vtype);
  const isMask = width === 1 && !chosen;
  const words = isMask ? textOf("row.mask") : width === sew || chosen ? "" : textOf("row.width", { width });
  const count = isMask ? Math.max(1, Math.floor(most)) : countOf({ size, width });
  const outcomes = Array.from({ length: count }, (_, element) =>
    vill || chosen ? "" : element >= state.vl ? "tail" : element < state.vstart ? "prestart" : "active");
  const values = { registers: state.v, olds: before.v ?? state.v, outcomes, form };
  return registerRow("plain", words, { register, width, count }, values);
}

/**
 * Returns how many columns have room, and the size of their letters: the most of 16, 8, 4 and 2, then the largest letters.
 * room: the width of all columns and the head, and a sixteenth of a rem, in px
 * @param {Pick<Columns, "longest" | "elements" | "vl">} columns
 * @param {{ width: number, unit: number }} room
 * @returns {Fit}
 */
export function fit({ longest, elements, vl }, { width, unit }) {
  const enough = Math.max(8, 2 ** Math.ceil(Math.log2(Math.max(1, vl)))); // few elements need no wide strip
  const head = width >= NARROW * unit ? "wide" : longest > 8 ? "least" : "narrow";
  const rest = width - unit * HEADS[head];
  const most = Math.min(enough, elements);
  for (const columns of [16, 8, 4].filter((each) => each / 2 < most)) {
    const sizes = columns > 4 ? SIZES.slice(0, 3) : SIZES;
    const size = sizes.find(([, sixteenths]) => rest / columns >= (longest * sixteenths * LETTER + (sixteenths > 13 ? 20 : 6)) * unit);
    if (size) return { columns, size: size[0], head };
  }
  return { columns: Math.min(2, Math.max(1, elements)), size: "tiny", head };
}

/**
 * Returns the first elements of the strips of columns, and the first of those that are folded: strips of an unchanged tail alone.
 * @param {Columns} columns
 * @param {number} width columns of a strip
 * @param {boolean} [isOpen] whether none is folded
 * @returns {{ strips: number[], folded: number }} folded: the number of elements where none is folded
 */
export function stripsOf({ elements, outcomes, changed }, width, isOpen = false) {
  const used = outcomes.findLastIndex((each, element) => each !== "tail" || changed[element]);
  const last = isOpen || !outcomes.length ? elements - 1 : Math.max(0, used);
  const strips = Array.from({ length: Math.floor(last / width) + 1 }, (_, place) => place * width);
  return { strips, folded: Math.min(elements, strips.length * width) };
}
