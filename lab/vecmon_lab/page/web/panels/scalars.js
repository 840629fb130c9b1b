// The scalar registers, in as many columns as fit: each with its name, its other name and its value; of an address with the label at it
// or before it.

import { elementsIn, make, part, put, renew } from "../common/dom.js";
import { textOf } from "../common/texts.js";
import { ABI_NAMES, signedText } from "../common/words.js";

/** @typedef {import("../types").MachineState} MachineState */

const COLUMN = 9; // characters of a register besides its value
const WIDEST = 14; // characters of a number with the same number as an address; a longer one is shown only as an address
const POINTERS = ["ra", "sp", "gp"]; // registers that have addresses
const PAGE_DIGITS = 3; // hexadecimal digits of a place in a page of memory
const ROW_DIGITS = 1; // and in a row of a state's memory

/** The parts of an address before a place in it, and the place. */
/** @type {(address: string, digits: number) => [start: string, place: number]} */
const divided = (address, digits) => [address.slice(0, -digits), parseInt(address.slice(-digits), 16)];

/**
 * Returns the name of an address: its label, or a label of data whose numbers it is among or right after, as `numbers+8`; "" without one.
 * @type {(address: string, state: MachineState) => string}
 */
export function placeName(address, { labels = {}, data = {} }) {
  if (labels[address]) return labels[address][0];
  const [page, place] = divided(address, PAGE_DIGITS);
  for (const [start, { type, count }] of Object.entries(data)) {
    const [own, first] = divided(start, PAGE_DIGITS);
    const size = count * (type === "text" ? 1 : Number(type.slice(1)) / 8);
    if (page && own === page && labels[start] && place > first && place <= first + size) return `${labels[start][0]}+${place - first}`;
  }
  return "";
}

/** Whether a number is the address of a row of memory in a state, above its first page. */
/** @type {(value: string, state: MachineState) => boolean} */
const isInMemory = (value, { memory }) => value.length > PAGE_DIGITS && `${divided(value, ROW_DIGITS)[0]}0` in memory;

/** Shows registers in a list, whose columns fit them. */
function paintList(/** @type {HTMLElement} */ list, /** @type {HTMLElement[]} */ rows) {
  renew(list, rows);
  const longest = Math.max(0, ...elementsIn(list, "dd").map(({ textContent }) => `${textContent}`.length));
  list.style.setProperty("--register-width", `${longest + COLUMN}ch`);
}

/**
 * Shows the scalar registers of a machine below the root of its panels.
 * used: the numbers of those in use; the others are folded, where the page has a fold for them. An empty set: all are in use
 * @type {(root: ParentNode, state: MachineState, before: MachineState, used: Set<number>) => void}
 */
export function paintRegisters(root, state, before, used) {
  const hasNames = part(root, "names").value === "abi";
  const form = part(root, "numbers").value;
  const labelOf = (/** @type {string} */ label) => (label ? [make("small", "label", ` ${label}`)] : []);
  const rows = ABI_NAMES.map((abi, number) => {
    const value = state.x[number];
    const numbered = `x${number}`;
    const [name, other] = hasNames ? [abi, numbered] : [numbered, abi];
    const signed = signedText(value);
    const place = placeName(value, state);
    const isHexadecimal = form === "hexadecimal";
    const decimal = form === "unsigned" ? `${BigInt(`0x${value}`)}` : signed;
    const isNear = isInMemory(value, state);
    const isLong = `${decimal} 0x${value}`.length > WIDEST;
    const isAddress = place !== "" || (POINTERS.includes(abi) && value !== "0") || (isNear && isLong);
    const text = isHexadecimal || isAddress ? `0x${value}` : decimal;
    const label = place || (text === decimal && isNear ? `0x${value}` : "");
    const cell = make("dd", before.x[number] === value ? "" : "changed", text, ...labelOf(label));
    cell.title = `${numbered}, ${abi}: 0x${value} = ${signed}${place && ` = ${place}`}`;
    cell.dataset.value = isHexadecimal ? value : decimal;
    if (number) cell.dataset.edit = `set x${number}`;
    return make("div", value === "0" ? "zero" : "", make("dt", "", name, " ", make("small", "", other)), cell);
  });
  const pc = make("dd", "", `0x${state.pc}`, ...labelOf(placeName(state.pc, state)));
  Object.assign(pc.dataset, { edit: "setpc", value: state.pc });
  const [list, unused] = elementsIn(root, "dl.registers");
  const others = unused && used.size ? rows.filter((_, number) => !used.has(number)) : [];
  paintList(list, [make("div", "", make("dt", "", "pc"), pc), ...rows.filter((row) => !others.includes(row))]);
  if (!unused) return;
  paintList(unused, others);
  const [fold] = elementsIn(root, "#unused-registers");
  fold.hidden = !others.length;
  put(elementsIn(fold, "summary")[0], textOf("registers.unused", { count: others.length }));
}
