// The line of the chosen element: its place, how it took part, and the line that can change it.

import { OUTCOMES } from "./element_words.js";
import { addressOf } from "./instruction.js";
import { REGISTER_BITS, elementOf, numberText } from "../common/numbers.js";
import { textOf } from "../common/texts.js";

/** @typedef {import("./instruction").View} View */
/** @typedef {import("./columns").Columns} Columns */
/**
 * name: of the element; place: its bytes or its address; sentence: how it took part, or what it was before;
 * value: as the pane shows it; edit: the line that sets it
 * @typedef {{ name: string, place: string, sentence: string, value: string, edit: string | null }} Detail
 */

/**
 * Returns the line of an element. chosen: the register whose row is chosen, where no instruction has one result
 * @param {View} view
 * @param {Columns} columns
 * @param {number} element
 * @param {number} [chosen]
 * @returns {Detail}
 */
export function detailOf(view, columns, element, chosen) {
  const results = columns.rows.filter(({ kind, cells }) => (kind === "after" || kind === "plain") && cells[element]);
  const row = results.find((each) => each.register === chosen) ?? results[0];
  const name = columns.rows.length ? textOf("detail.element", { element }) : "";
  const detail = { name, place: "", sentence: sentenceOf(view, columns, element), value: "", edit: null };
  if (!row) return detail;
  const { register, width } = row;
  if (register < 0) return { ...detail, place: addressText(columns, element) };
  const own = register + Math.floor((element * width) / REGISTER_BITS);
  const index = element % (REGISTER_BITS / width);
  const value = row.cells[element].text;
  const hexadecimal = width > 1 ? ` = 0x${numberText(elementOf(view.state.v, register, width, element), width, "hexadecimal")}` : "";
  const place = `${placeText(own, width, index)}: ${value}${hexadecimal}`;
  return { ...detail, place, value, edit: elementEdit(view, own, width, index) };
}

/**
 * Returns the address of an element of an access; "" without one, and in the tail.
 * @param {Columns} columns
 * @param {number} element
 */
const addressText = ({ executed, outcomes }, element) => executed?.access && outcomes[element] !== "tail"
  ? `0x${addressOf(executed.access, executed.groups[0].width, element).toString(16)}` : "";

/**
 * Returns what changes an element of a register. width: in bits
 * @type {(view: View, register: number, width: number, index: number) => string}
 */
export const elementEdit = ({ form }, register, width, index) =>
  `vset v${register} ${width} ${index} ${width === 1 ? "mask" : form}`;

/** @type {(register: number, width: number, place: number) => string} */
function placeText(register, width, place) {
  const bytes = width / 8;
  if (width === 1) return textOf("detail.bit", { bit: place, register: `v${register}` });
  if (bytes === 1) return textOf("detail.byte", { register: `v${register}`, byte: place });
  return textOf("detail.bytes", { register: `v${register}`, first: place * bytes, last: (place + 1) * bytes - 1 });
}

/**
 * Returns why an element has its value, where no formula says it.
 * @param {View} view
 * @param {Columns} columns
 * @param {number} element
 */
function sentenceOf({ state }, columns, element) {
  const { executed, rows, vl } = columns;
  if (!executed) return "";
  const outcome = executed.results[element];
  const address = addressText(columns, element);
  const where = address && (executed.access?.store ? textOf("detail.to", { address }) : textOf("detail.from", { address }));
  const [before, after] = ["before", "after"].map((kind) => rows.find((row) => row.kind === kind)?.cells[element]?.text);
  const was = before === undefined ? "" : before === after ? textOf("detail.unchanged", { value: before }) : `${before} → ${after}`;
  const isPacked = executed.layout === "compress";
  /** @type {Record<string, string>} */
  const sentences = {
    masked: textOf("detail.masked", { element }),
    tail: element >= vl ? textOf("detail.tail", { element, vl }) : isPacked ? textOf("detail.tail.packed") : textOf("detail.unwritten"),
    prestart: state.faulted ? textOf("detail.done", { where }) : textOf("detail.prestart", { vstart: executed.vstart }),
    fault: textOf("detail.fault", { where }),
    pending: OUTCOMES.pending,
    kept: textOf("detail.kept", { element }),
  };
  return [sentences[outcome] ?? where, was].filter(Boolean).join("; ") || (executed.destination ? "" : OUTCOMES[outcome]);
}
