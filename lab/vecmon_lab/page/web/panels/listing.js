// The program: labels, breakpoints, the program counter, the current instruction, and new words.

import { header, make, part, unseen } from "../common/dom.js";
import { RowTable, placesOf } from "./rows.js";
import { TINTS, lineOf, startOf } from "./source_lines.js";
import { textOf } from "../common/texts.js";
import { saysMore, withNames } from "../common/words.js";

/** @typedef {import("../types").MachineState} MachineState */

const MARKS = [textOf("listing.marks"), textOf("listing.address"), textOf("listing.word")];
const NAMES = [...MARKS, textOf("listing.instruction"), textOf("listing.source")];
const COLUMNS = 20; // of an instruction, as the style has it

/** The listing of a machine's program. */
export class ListingPanel {
  /** @type {MachineState["code"] | null} */ code = null;
  /** @type {MachineState["labels"]} */ labels;
  /** @type {import("./rows").Place[]} */ places = [];
  pc = ""; // the program's last place
  seen = ""; // the row scrolled into sight

  constructor(/** @type {ParentNode} */ root) {
    this.names = part(root, "names");
    this.rows = new RowTable(part(root, "listing"), textOf("listing.label"), NAMES, textOf("listing.none"));
  }

  paint(/** @type {MachineState} */ state, /** @type {MachineState} */ before) {
    if (state.code !== this.code || state.labels !== this.labels) {
      const places = placesOf(Object.keys(state.code), () => 4, state.labels);
      Object.assign(this, { code: state.code, labels: state.labels, places });
    }
    const { instruction } = state;
    if (instruction && state.code[instruction] && !Object.keys(state.starts ?? {}).length) this.seen = instruction;
    else if (state.pc !== this.pc) this.seen = state.pc;
    this.pc = state.pc;
    this.rows.show(this.places, (address) => listingRow(state, before, address, this.names.value === "abi"), this.seen);
  }
}

/** @type {(state: MachineState, before: MachineState, address: string, abi: boolean) => HTMLTableRowElement} */
function listingRow(state, before, address, abi) {
  const line = state.code[address];
  const marks = make("td", "marks");
  const isOfLine = address === startOf(state.starts ?? {}, state.pc);
  const kinds = [address === state.pc ? "next" : "", address === state.instruction ? "told" : "", isOfLine ? "here" : ""];
  if (state.breaks.includes(address)) marks.append(make("span", "breakpoint", "●"), unseen(textOf("listing.breakpoint")));
  if (kinds[0]) marks.append(make("span", "arrow", "▶"), unseen(textOf("listing.next")));
  if (kinds[1]) marks.append(unseen(state.faulted ? textOf("listing.stopped") : textOf("listing.executed")));
  const text = make("td", "text", withNames(line.slice(9), abi));
  const goal = state.targets?.[address];
  if (goal) text.append(make("span", "goal", ` → ${state.labels?.[goal]?.[0] ?? `0x${goal}`}`));
  const word = make("td", "word", line.slice(0, 8));
  if (before.code[address] !== line && (before.code[address] || !state.instruction)) word.classList.add("changed");
  const call = state.calls?.[address]; // which the machine doesn't support
  if (call) text.append(make("span", "call", call));
  const said = state.lines?.[address] ?? "";
  const room = " ".repeat(Math.max(0, `${text.textContent}`.length + 1 - COLUMNS)); // where the instruction reaches into it
  const beside = call ? "" : room + saysMore(said, line.slice(9));
  const source = Object.assign(make("td", "source", beside), { title: said });
  const row = make("tr", kinds.join(" "), marks, header("row", `0x${address}`), word, text, source);
  Object.assign(row.dataset, { address, edit: `break ${address}` });
  const number = state.starts ? lineOf(state, address) : 0;
  if (number) row.classList.add(`tint-${number % TINTS}`);
  if (number) row.dataset.line = `${number}`;
  return row;
}
