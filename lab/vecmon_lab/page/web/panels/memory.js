// Memory in rows of 16, 8 or 4 bytes, by the width of the pane, with a gap where rows are left out, with numbers where the source or its
// variables have them, and with marks of the bytes that the last instruction accessed; and what the program has printed.

import { header, make, part, renew } from "../common/dom.js";
import { LETTER, littleEndian } from "../common/numbers.js";
import { RowTable, placesOf } from "./rows.js";
import { lineOf } from "./source_lines.js";
import { textOf } from "../common/texts.js";
import { knownVariables, numberText } from "./variables.js";
import { ABI_NAMES } from "../common/words.js";

/** @typedef {import("../types").MachineState} MachineState */
/** @typedef {{ at: bigint, element: string, counts: number[] }} PlacedArray */
/** @typedef {(place: bigint, most: number) => [element: string, size: number]} KindAt the kind of a number at a place, and its bytes */

const NAMES = [textOf("memory.address"), textOf("memory.bytes"), "4–7", "8–11", "12–15", textOf("memory.text")];
const ACCESSES = { read: "read", write: "written" }; // classes
const ROW = 16; // bytes of a row in a state
const HEAD = 15; // characters of the address and of spaces
/** @type {Record<string, number>} */
const ROOM = { i8: 6, u8: 5, x8: 6 }; // characters of a byte as a number, with a space and its place in the text; of others 4.4
/** @type {Record<string, string>} */
const KINDS = { signed: "i", unsigned: "u", hexadecimal: "x" }; // of numbers, by the form in which the page shows them

/** The rows of a machine's memory. */
export class MemoryPanel {
  /** @type {[MachineState, MachineState] | null} */ shown = null;
  letters = Infinity; // that fit into a row
  goal = ""; // an address that the reader has chosen, until memory changes
  /** Asks for the memory at an address, which may not be shown yet. */
  look = (/** @type {string} */ _) => {};

  constructor(/** @type {ParentNode} */ root) {
    this.box = part(root, "bytes");
    this.form = part(root, "memory-form");
    this.numbers = part(root, "numbers");
    part(root, "memory-address").addEventListener("change", ({ currentTarget }) =>
      this.goTo(/** @type {HTMLInputElement} */ (currentTarget)));
    this.rows = new RowTable(this.box, textOf("memory"), NAMES, textOf("memory.none"));
    new ResizeObserver(([{ contentRect }]) => this.measured(contentRect.width)).observe(this.box);
  }

  /** Paints the rows again where the box has another width. */
  measured(/** @type {number} */ width) {
    if (!width) return;
    this.letters = width / (LETTER * parseFloat(getComputedStyle(this.box).fontSize));
    if (this.shown) this.paint(...this.shown);
  }

  /** Brings into sight the memory that a field names: by an address, a label, or a register that has the address. */
  goTo(/** @type {HTMLInputElement} */ field) {
    const address = this.shown ? addressOf(field.value.trim(), this.shown[0]) : "";
    field.setCustomValidity(address || !field.value ? "" : textOf("memory.address.unknown"));
    if (!field.reportValidity() || !address) return;
    this.goal = address;
    this.look(address);
    if (this.shown) this.paint(...this.shown);
  }

  /** The kind of a number that the reader has chosen for all memory; "" for the types of the source. */
  get kind() {
    const { value } = this.form;
    return value === "c" ? "c8" : value && `${KINDS[this.numbers.value]}${value}`;
  }

  /** A change comes into sight, the first one where there are more. */
  paint(/** @type {MachineState} */ state, /** @type {MachineState} */ before) {
    this.shown = [state, before];
    const placed = knownVariables(state).flatMap(({ at, ...rest }) => (at === null ? [] : [{ at, ...rest }]));
    const names = placed.filter(({ counts, isLocal }) => counts.length || !isLocal);
    const labels = names.map(({ at, declaration }) => [at.toString(16), [declaration]]);
    const arrays = [...placed.filter(({ element }) => element && element !== "c8"), ...arraysOf(state)];
    const letters = Math.max(4.4, ...[...arrays.map(({ element }) => element), this.kind].map((kind) => ROOM[kind] ?? 0));
    const bytes = [ROW, ROW / 2].find((each) => HEAD + letters * each <= this.letters) ?? ROW / 4;
    /** @type {Record<string, string[]>} */
    const named = { ...state.labels, ...Object.fromEntries(labels) };
    const [now, then] = [state.memory, before.memory].map((rows) => cutRows(rows, bytes, Object.keys(named)));
    const bytesOf = (/** @type {string} */ address) => now[address].length / 2;
    const places = placesOf(Object.keys(now), bytesOf, named);
    const { kind } = this;
    /** @type {KindAt} */
    const kindAt = (place, most) => (kind ? [kind, Number(kind.slice(1)) / 8] : elementAt(place, arrays, most));
    const row = (/** @type {string} */ address) =>
      memoryRow(address, now[address], then[address], { columns: bytes / 4, kindAt, accessed: state.accessed ?? [] });
    const isOther = ({ address = "" }) => ![undefined, now[address]].includes(then[address]);
    const changed = places.find(isOther)?.address;
    if (changed) this.goal = "";
    const isGoal = ({ address = "" }) =>
      this.goal && address && isWithin(BigInt(`0x${this.goal}`), BigInt(`0x${address}`), bytesOf(address));
    this.rows.show(places, row, changed ?? places.find(isGoal)?.address);
  }
}

/** The address that a text names in a state, as hexadecimal digits; "" without one. */
/** @type {(text: string, state: MachineState) => string} */
function addressOf(text, { labels = {}, x }) {
  const labelled = Object.keys(labels).find((address) => labels[address].includes(text));
  const register = ABI_NAMES.includes(text) ? ABI_NAMES.indexOf(text) : /^x([12]?\d|3[01])$/.test(text) ? Number(text.slice(1)) : -1;
  const digits = /^(?:0x)?([0-9a-f]{1,16})$/i.exec(text)?.[1];
  return labelled ?? (register >= 0 ? x[register] : digits ? BigInt(`0x${digits}`).toString(16) : "");
}

/**
 * Rows of a state cut into shorter ones, and at labels, so that each label is above the row that starts at its address.
 * labels: addresses, as the rows have them
 * @type {(rows: Record<string, string>, bytes: number, labels: string[]) => Record<string, string>}
 */
export function cutRows(rows, bytes, labels) {
  /** @type {Map<string, number[]>} */
  const offsets = new Map(); // of the labels in each row
  for (const at of labels.map((label) => BigInt(`0x${label}`))) {
    const offset = at % BigInt(ROW);
    const row = (at - offset).toString(16);
    offsets.set(row, [...(offsets.get(row) ?? []), Number(offset)]);
  }
  const regular = Array.from({ length: ROW / bytes }, (_, place) => place * bytes);
  return Object.fromEntries(Object.entries(rows).flatMap(([address, digits]) => {
    const starts = [...new Set([...regular, ...(offsets.get(address) ?? [])])].sort((one, other) => one - other);
    return starts.map((start, place) => {
      const own = digits.slice(2 * start, 2 * (starts[place + 1] ?? ROW));
      return [(BigInt(`0x${address}`) + BigInt(start)).toString(16), own];
    });
  }));
}

/** The numbers that a source in assembler has at its labels. */
const arraysOf = (/** @type {MachineState} */ { data = {} }) =>
  Object.entries(data).filter(([, { type }]) => type !== "text").map(([address, { type, count }]) =>
    ({ at: BigInt(`0x${address}`), element: type, counts: [count] }));

/** Sentences on calls that a program made or is about to make, if the machine doesn't have them; none before the first instruction. */
const unsupported = (/** @type {MachineState} */ state) =>
  Object.entries(state.instruction || state.stop ? state.calls ?? {} : {}).map(([address, sentence]) => {
    const line = lineOf(state, address);
    return line ? textOf("output.unsupported-at", { line, sentence }) : `0x${address}: ${sentence}.`;
  });

/** The output of a machine's program. */
export class OutputPanel {
  output = ""; // in hexadecimal
  shown = "";
  pause = 0; // a timer, until which nothing else is shown

  constructor(/** @type {ParentNode} */ root) {
    this.empty = part(root, "no-output");
    this.mark = part(root, "output-new");
    this.text = part(root, "output");
    this.calls = part(root, "unsupported");
    const observer = new ResizeObserver(() => this.seen());
    observer.observe(this.text);
    observer.observe(this.calls);
  }

  /** Shows the end of new output when its panel comes into sight. */
  seen() {
    if (this.mark.hidden || !(this.text.checkVisibility() || this.calls.checkVisibility())) return;
    this.mark.hidden = true;
    this.text.scrollTop = this.text.scrollHeight;
  }

  /** The output's end stays in sight, unless one has scrolled away from it. Much of it isn't shown anew each frame. */
  paint(/** @type {MachineState} */ state) {
    this.output = state.output ?? Object.values(state.outputs ?? {}).join("");
    const calls = unsupported(state);
    this.empty.hidden = Boolean(this.output || calls.length);
    this.text.hidden = !this.output;
    if (calls.length && !this.calls.childElementCount) this.mark.hidden = this.empty.checkVisibility() || this.calls.checkVisibility();
    renew(this.calls, calls.map((call) => make("li", "call", call)));
    this.show();
  }

  show() {
    if (this.pause || this.output === this.shown) return;
    const showNext = () => {
      this.pause = 0;
      this.show();
    };
    this.pause = setTimeout(showNext, this.output.length / 400); // ms, 328 for 64 KB
    this.shown = this.output;
    const follows = !this.mark.hidden || this.text.scrollTop + this.text.clientHeight > this.text.scrollHeight - 18;
    this.mark.hidden = !this.shown || this.text.checkVisibility();
    this.text.textContent = outputText(this.shown);
    if (follows) this.text.scrollTop = this.text.scrollHeight;
  }
}

/** Whether a place is within some bytes from an address. */
/** @type {(place: bigint, start: bigint, bytes: number) => boolean} */
const isWithin = (place, start, bytes) => start <= place && place < start + BigInt(bytes);

/** The kind of the number at a place, and its bytes, `most` at most; one byte where no variable has a number there. */
/** @type {(place: bigint, arrays: PlacedArray[], most: number) => [element: string, size: number]} */
function elementAt(place, arrays, most) {
  const sizeOf = (/** @type {PlacedArray} */ { element }) => Number(element.slice(1)) / 8;
  const array = arrays.find((each) => isWithin(place, each.at, each.counts.reduce((product, count) => product * count, sizeOf(each))));
  const size = array ? sizeOf(array) : 1;
  return array && size <= most && place % BigInt(size) === 0n ? [array.element, size] : ["", 1];
}

/**
 * A row of memory, of digits as long as it has bytes.
 * @param {string} address
 * @param {string} digits
 * @param {string | undefined} digitsBefore
 * @param {{ columns: number, kindAt: KindAt, accessed: import("../messages").Access[] }} how columns: of four bytes that the table has
 */
function memoryRow(address, digits, digitsBefore, { columns, kindAt, accessed }) {
  const bytes = digits.length / 2;
  const cells = Array.from({ length: Math.ceil(bytes / 4) }, () => make("td", ""));
  for (let place = 0, size = 1; place < bytes; place += size) {
    const at = BigInt("0x" + address) + BigInt(place);
    const [element, length] = kindAt(at, bytes - place);
    const access = accessed.find((each) => isWithin(at, BigInt(`0x${each.address}`), each.length))?.kind ?? "";
    size = length;
    const own = digits.slice(2 * place, 2 * (place + size));
    const changed = digitsBefore !== undefined && digitsBefore.slice(2 * place, 2 * (place + size)) !== own;
    const kinds = [element && "number", changed ? "changed" : /[^0]/.test(own) ? "" : "zero", access && ACCESSES[access]];
    const span = make("span", kinds.filter(Boolean).join(" "), element ? elementText(element, own) : own);
    span.dataset.edit = `poke ${at.toString(16)}`;
    if (element) span.title = own.replace(/..(?=.)/g, "$& ");
    const cell = cells[place >> 2];
    cell.append(...(cell.firstChild ? [" "] : []), span);
    cell.colSpan = Math.max(1, size / 4);
  }
  const text = (digits.match(/../g) ?? []).map(letterOf);
  const filled = cells.filter((cell) => cell.firstChild);
  const missing = columns - filled.reduce((sum, { colSpan }) => sum + colSpan, 0);
  const rest = missing > 0 ? [Object.assign(make("td", ""), { colSpan: missing })] : [];
  const row = make("tr", "", header("row", `0x${address}`), ...filled, ...rest, make("td", "text", text.join("")));
  row.dataset.address = address;
  return row;
}

/** A byte as a letter; a dot for those that aren't letters, digits or signs of ASCII. */
const letterOf = (/** @type {string} */ byte) => (/[2-6].|7[0-9a-e]/.test(byte) ? String.fromCharCode(parseInt(byte, 16)) : "·");

/** A number of a kind, or a letter, from its bytes. */
/** @type {(element: string, bytes: string) => string} */
const elementText = (element, bytes) => (element === "c8" ? letterOf(bytes) : numberText(element, littleEndian(bytes)));

/** Bytes in hexadecimal as a text, with a picture for each control character but newlines and tabs. */
function outputText(/** @type {string} */ digits) {
  const bytes = Uint8Array.fromHex?.(digits) ?? Uint8Array.from(digits.match(/../g) ?? [], (byte) => parseInt(byte, 16));
  const picture = (/** @type {string} */ character) => String.fromCharCode(0x2400 + character.charCodeAt(0));
  return new TextDecoder().decode(bytes).replace(/[\x00-\x08\x0b-\x1f]/g, picture);
}
