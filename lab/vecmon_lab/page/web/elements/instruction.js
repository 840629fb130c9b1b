// The vector instruction that a state executed last: the core's data, with lists in place of runs, and the registers before it.

import { REGISTER_BITS } from "../common/numbers.js";

/** @typedef {import("../common/numbers").Registers} Registers */
/** @typedef {import("../messages").ShownGroup} Group */
/** @typedef {import("../messages").ShownAccess} Access */
/** @typedef {import("../messages").OutcomeRun["outcome"]} Outcome */
/** @typedef {import("../types").MachineState} State */
/** @typedef {[number, number]} Pair an element of the source, and the element of the result that it goes to */
/**
 * A state, the one before it, the registers that always have rows, the form of numbers, and whether scalar registers have the names of the
 * ABI. width: of elements in bits, where all registers are shown in place of the last instruction.
 * @typedef {object} View
 * @property {State} state
 * @property {State} before
 * @property {Set<number>} [used]
 * @property {import("../common/numbers").NumberForm} form
 * @property {boolean} hasAbiNames
 * @property {number} [width]
 */
/**
 * The state before an instruction, as far as it is known. v: with its sources; olds: with its destination, else as in the state before.
 * @typedef {{ v: Registers, olds: Registers, memory: State["memory"] }} Earlier
 */
/**
 * @typedef {Omit<import("../messages").ShownExecuted, "outcomes" | "results" | "pairs"> & { outcomes: Outcome[], results: Outcome[],
 *   pairs: Pair[], destination: Group | undefined, sources: Group[], earlier: Earlier }} Executed
 */

/** The number of elements of a register group; of a mask that of all its bits. */
/** @type {(group: { size: number, width: number }) => number} */
export const countOf = ({ size, width }) => (width === 1 ? REGISTER_BITS : (size * REGISTER_BITS) / width);

/** Whether elements of the source go to other places. */
export const isMoving = (/** @type {Executed} */ { groups }) => groups.some(({ role }) => role === "moved");

/** @type {(runs: import("../messages").OutcomeRun[]) => Outcome[]} */
const listed = (runs) => runs.flatMap(({ outcome, count }) => Array(count).fill(outcome));

/**
 * Returns the vector instruction that a state executed last, or that faulted; undefined if it is none with vector operands.
 * @param {View} view
 * @returns {Executed | undefined}
 */
export function executedOf({ state, before }) {
  const { executed } = state;
  if (!executed) return undefined;
  const { groups, outcomes, results = outcomes, pairs } = executed;
  const destination = groups.find(({ role }) => role === "destination");
  return {
    ...executed,
    outcomes: listed(outcomes),
    results: listed(results),
    pairs: pairs.flatMap(({ source, result, count, step }) =>
      Array.from({ length: count }, (_, place) => /** @type {Pair} */ ([source + place, result + place * step]))),
    destination,
    sources: groups.filter((each) => each !== destination),
    earlier: earlierOf(state, before),
  };
}

/**
 * @param {State} state
 * @param {State} before
 * @returns {Earlier}
 */
function earlierOf({ read, executed, v, memory }, before) {
  const known = { ...(read?.v0 === undefined ? {} : { 0: read.v0 }), ...read?.v };
  const olds = { ...(before.v ?? v), ...known };
  return { v: executed?.follows ? olds : { ...v, ...known }, olds, memory: before.memory ?? memory };
}

/**
 * Returns the address of an element of an access, or of a field of its segment. width: of elements in bits
 * @param {Access} access
 * @param {number} width
 * @param {number} element
 */
export function addressOf({ start, step = 0, addresses, bytes }, width, element, field = 0) {
  const place = width === 1 ? element >> 3 : element;
  const first = addresses ? BigInt(`0x${addresses[place]}`) : BigInt(`0x${start}`) + BigInt(step) * BigInt(place);
  return BigInt.asUintN(64, first + BigInt(bytes * field));
}
