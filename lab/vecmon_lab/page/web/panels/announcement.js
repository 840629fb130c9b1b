// The effect of a step in words, for readers who hear the page: the instruction and its changes.

import { textOf } from "../common/texts.js";
import { ABI_NAMES, scalarName, signedText, withNames } from "../common/words.js";

/** @typedef {import("../types").MachineState} MachineState */

const MOST = 4; // scalar registers that are named

/** The scalar registers that differ from the state before, each with its value. */
/** @type {(state: MachineState, before: MachineState, hasAbiNames: boolean) => string[]} */
const scalarChanges = (state, before, hasAbiNames) =>
  ABI_NAMES.flatMap((_, number) => {
    const value = state.x[number];
    return value === before.x[number] ? [] : [`${scalarName(number, hasAbiNames)} = ${signedText(value)}`];
  });

/** The vector registers that differ from the state before. */
/** @type {(state: MachineState, before: MachineState) => string[]} */
const vectorChanges = (state, before) =>
  Object.keys(state.v).filter((number) => state.v[number] !== before.v[number]).map((number) => `v${number}`);

/**
 * Returns the instruction that executed last, and what differs from the state before; "" without an instruction. After several
 * instructions all of them have made the difference.
 * elements: the number of elements that the last instruction changed
 * @type {(state: MachineState, before: MachineState, elements: number, hasAbiNames: boolean) => string}
 */
export function announcementOf(state, before, elements, hasAbiNames) {
  const text = state.code[state.instruction ?? ""]?.slice(9);
  if (!text) return "";
  const vectors = vectorChanges(state, before);
  const scalars = scalarChanges(state, before, hasAbiNames);
  const isStep = before.pc === state.instruction;
  const registers = vectors.join(", ");
  const oneText = textOf("step.changed-element", { registers });
  const ownText = elements === 1 ? oneText : textOf("step.changed-elements", { registers, count: elements });
  const vectorText = isStep ? ownText : textOf("step.changed-vectors", { registers });
  const listed = vectors.length ? [vectorText] : [];
  const changes = [...scalars.slice(0, MOST), ...listed].join(", ") || textOf("step.changed-nothing");
  const instruction = withNames(text, hasAbiNames);
  return isStep ? textOf("step.announced", { instruction, changes }) : textOf("step.announced-several", { instruction, changes });
}
