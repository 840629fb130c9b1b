// The rows of the pane of elements: the mask bits, the sources, memory, and the values before and after an instruction.

import { OUTCOMES } from "./element_words.js";
import { addressOf, countOf, isMoving } from "./instruction.js";
import { REGISTER_BITS, elementOf, memoryElement, numberText, registersText } from "../common/numbers.js";
import { textOf } from "../common/texts.js";
import { scalarName } from "../common/words.js";

/** @typedef {import("./instruction").Access} Access */
/** @typedef {import("./instruction").Executed} Executed */
/** @typedef {import("./instruction").Group} Group */
/** @typedef {import("./instruction").Outcome} Outcome */
/** @typedef {import("./instruction").View} View */
/** @typedef {import("../common/numbers").NumberForm} NumberForm */
/** @typedef {import("../common/numbers").Registers} Registers */
/** @typedef {{ text: string, classes: string[], words: string }} Cell */
/**
 * A row. register: the first one of its group, -1 in memory; head: the name of a place in memory; words: the row's role
 * in the instruction; cells: one for each element that it has.
 * @typedef {object} Row
 * @property {"mask" | "source" | "memory" | "before" | "after" | "plain"} kind
 * @property {number} register
 * @property {number} width
 * @property {string} head
 * @property {string} words
 * @property {Cell[]} cells
 */
/** @typedef {{ register: number, width: number, count: number }} Place where the elements of a row are, and their number */

const KINDS = { memory: textOf("row.memory"), before: textOf("row.before"), after: textOf("row.after") };

/**
 * Makes the cell of an element. was: its value before, where it is a result; an unknown value is null.
 * @param {bigint | null} value
 * @param {Outcome | ""} outcome
 * @param {{ width: number, form: NumberForm, was?: bigint | null }} how
 * @returns {Cell}
 */
function cellOf(value, outcome, { width, form, was }) {
  const isChanged = was !== undefined && was !== value;
  const bit = width === 1 && value !== null ? [value ? "set" : "clear"] : [];
  const marks = [...(outcome ? [outcome] : []), ...(isChanged ? [/** @type {const} */ ("changed")] : [])];
  const words = marks.filter((mark) => mark !== "active").map((mark) => OUTCOMES[mark]).join(", ");
  return { text: value === null ? "?" : numberText(value, width, form), classes: [...bit, ...marks], words };
}

/**
 * Makes a row of elements of registers. outcomes: by element; olds: the registers before, where the elements are a result
 * @param {Row["kind"]} kind
 * @param {string} words
 * @param {Place} place
 * @param {{ registers: Registers, olds?: Registers, outcomes: (Outcome | "")[], form: NumberForm }} values
 * @returns {Row}
 */
export function registerRow(kind, words, { register, width, count }, { registers, olds, outcomes, form }) {
  const cells = Array.from({ length: count }, (_, element) => {
    const was = olds && elementOf(olds, register, width, element);
    return cellOf(elementOf(registers, register, width, element), outcomes[element], { width, form, was });
  });
  return { kind, register, width, head: "", words, cells };
}

/**
 * The form of numbers of elements and of offsets, which are unsigned.
 * @param {View} view
 */
const indexForm = ({ form }) => (form === "hexadecimal" ? form : "unsigned");

/** @type {(outcomes: Outcome[], other: Outcome | "") => (Outcome | "")[]} */
const tailOr = (outcomes, other) => outcomes.map((outcome) => (outcome === "tail" ? outcome : other));

/**
 * Returns the rows of an instruction: v0, where it is a mask or a source of bits, and those of its operands.
 * @param {View} view
 * @param {Executed} executed
 * @returns {Row[]}
 */
export function instructionRows(view, executed) {
  const { mask, earlier, elements, outcomes, access } = executed;
  const rows = access ? accessRows(view, executed, access) : operandRows(view, executed);
  if (!mask) return rows;
  const values = { registers: earlier.v, outcomes: tailOr(outcomes, "active"), form: view.form };
  const words = mask === "mask" ? textOf("row.mask") : textOf("row.bits");
  return [registerRow("mask", words, { register: 0, width: 1, count: elements }, values), ...rows];
}

/**
 * Returns the rows of the sources and of the result of an instruction without memory.
 * @param {View} view
 * @param {Executed} executed
 * @returns {Row[]}
 */
function operandRows(view, executed) {
  const { destination, sources, layout } = executed;
  const hasAll = isMoving(executed) || layout === "reduce";
  const rows = sources.flatMap((each, place) => {
    const others = [destination, ...sources.slice(0, place)];
    const isDouble = others.some((other) => other?.register === each.register && other.width === each.width);
    return hasAll || !isDouble ? [sourceRow(view, executed, each)] : [];
  });
  if (isMoving(executed)) rows.reverse(); // the moved source is next to the curves
  return [...rows, ...resultRows(view, executed, !["gather", "compress"].includes(layout))];
}

/**
 * Returns the row of a source.
 * @param {View} view
 * @param {Executed} executed
 * @param {Group} source
 */
function sourceRow(view, executed, source) {
  const { earlier, elements, outcomes, pairs, known } = executed;
  const { role } = source;
  const read = role === "single" ? [0] : pairs.map(([from]) => from);
  const own = outcomes.map((_, element) => (read.includes(element) ? "active" : "idle"));
  const form = role === "index" ? indexForm(view) : view.form;
  const values = { registers: earlier.v, outcomes: role === "single" || role === "moved" ? own : outcomes, form };
  const words = known ? textOf("row.from") : textOf("row.now");
  return registerRow("source", words, { ...source, count: Math.min(elements, countOf(source)) }, values);
}

/**
 * Returns the rows of the destination: before, where that is wanted and it is one group, and after.
 * @param {View} view
 * @param {Executed} executed
 * @param {boolean} hasBefore
 * @returns {Row[]}
 */
function resultRows({ state, before, form }, { destination, elements, earlier, results, old: hasOld }, hasBefore) {
  if (!destination) return [];
  const { register, size, groups, width } = destination;
  const isKnown = hasOld || before !== state; // as it isn't once a page was opened again
  const old = { registers: earlier.olds, outcomes: tailOr(results, ""), form };
  const now = { registers: state.v, olds: earlier.olds, outcomes: results, form };
  return Array.from({ length: groups }, (_, field) => {
    const place = { register: register + field * size, width, count: Math.min(elements, countOf(destination)) };
    const after = registerRow("after", KINDS.after, place, now);
    return hasBefore && groups === 1 && isKnown ? [registerRow("before", KINDS.before, place, old), after] : [after];
  }).flat();
}

/**
 * Returns the rows of an access: offsets, memory and registers, in the order in which values go.
 * @param {View} view
 * @param {Executed} executed
 * @param {Access} access
 * @returns {Row[]}
 */
function accessRows(view, executed, access) {
  const { groups: [data, index], elements, earlier, outcomes } = executed;
  const source = (/** @type {string} */ words, /** @type {Group} */ each, /** @type {NumberForm} */ form) =>
    registerRow("source", words, { ...each, count: elements }, { registers: earlier.v, outcomes, form });
  const offsets = index ? [source(textOf("row.offset"), index, indexForm(view))] : [];
  const fields = Array.from({ length: access.fields }, (_, field) => field);
  const rows = (/** @type {"memory" | "before" | "after"} */ kind) =>
    fields.map((field) => memoryRow(view, executed, access, kind, field));
  if (!access.store) return [...offsets, ...rows("memory"), ...resultRows(view, executed, true)];
  const stored = fields.map((field) =>
    source(fieldName(access, textOf("row.from"), field), { ...data, register: data.register + field * data.size }, view.form));
  // memory before the store is unknown once a page was opened again
  return [...offsets, ...stored, ...(access.fields > 1 || view.before === view.state ? [] : rows("before")), ...rows("after")];
}

/** @type {(access: Access, words: string, field: number) => string} */
const fieldName = ({ fields }, words, field) => (fields > 1 ? textOf("row.field", { field }) : words);

/**
 * Returns the row of an access's elements in memory, or of a field of its segments. The tail has no place in memory.
 * @param {View} view
 * @param {Executed} executed
 * @param {Access} access
 * @param {"memory" | "before" | "after"} kind
 * @param {number} field
 * @returns {Row}
 */
function memoryRow({ state, form, hasAbiNames }, { earlier, outcomes, groups: [{ width }] }, access, kind, field) {
  const read = (/** @type {Record<string, string> | undefined} */ rows, /** @type {number} */ element) => {
    const found = memoryElement(rows, addressOf(access, width, element, field), Math.max(8, width));
    return width === 1 && found !== null ? (found >> BigInt(element & 7)) & 1n : found;
  };
  const cells = outcomes.map((outcome, element) => {
    if (outcome === "tail") return { text: "", classes: ["tail"], words: OUTCOMES.tail };
    const old = read(kind === "memory" ? state.memory : earlier.memory, element); // a load leaves the memory that it read as it is
    if (kind !== "after") return cellOf(old, kind === "before" ? "" : outcome, { width, form });
    return cellOf(read(state.memory, element), outcome, { width, form, was: old });
  });
  const head = `(${scalarName(access.base, hasAbiNames)})`;
  return { kind, register: -1, width, head, words: fieldName(access, KINDS[kind], field), cells };
}

/**
 * Returns the name of what a row has from one element to another: registers, or a place in memory.
 * @param {Row} row
 * @param {number} first
 * @param {number} last
 */
export function headOf({ register, width, head, cells }, first, last) {
  if (register < 0) return head;
  if (width === 1) return `v${register}`;
  const numberOf = (/** @type {number} */ element) => register + Math.floor((element * width) / REGISTER_BITS);
  return registersText(numberOf(first), numberOf(Math.max(first, Math.min(last, cells.length - 1))));
}
