// Variables of a source in C, if its compiler lists them: their values, and their places while the program is here.

import { header, make, part, table } from "../common/dom.js";
import { memoryElement } from "../common/numbers.js";
import { textOf } from "../common/texts.js";
import { withNames } from "../common/words.js";

/** @typedef {import("../types").MachineState} MachineState */

const number = (/** @type {string} */ digits) => BigInt(`0x${digits}`);

/** A number of a kind as `i32`, `u8`, `c8` or `x64` in words. */
export function numberText(/** @type {string} */ element, /** @type {bigint} */ value) {
  const bits = Number(element.slice(1));
  if (element[0] === "i") return BigInt.asIntN(bits, value).toString();
  const unsigned = BigInt.asUintN(bits, value);
  return element[0] === "x" ? `0x${unsigned.toString(16)}` : unsigned.toString();
}

/**
 * The variables that are known at the program's place, those of functions first: their declarations, where they lie, in
 * words and as an address, and their value as a text.
 */
export function knownVariables(/** @type {MachineState} */ { variables = [], pc, x, memory }) {
  const holds = (/** @type {import("../messages").Scope} */ { first, end }) => first <= parseInt(pc, 16) && parseInt(pc, 16) < end;
  const known = variables.filter(({ scopes }) => !scopes.length || scopes.some(holds));
  known.sort((one, other) => Number(one.function === "") - Number(other.function === ""));
  return known.map(({ declaration, element, counts, scopes, locations }) => {
    const { kind, register, offset } = locations.find(holds) ?? { kind: "gone", register: 0, offset: "0" };
    const sum = kind === "vector" ? 0n : BigInt.asUintN(64, number(x[register]) + number(offset));
    const at = kind === "memory" ? sum : null;
    const isNumber = element && !counts.length;
    const isValue = kind === "register" || kind === "value";
    const value = isValue ? sum : isNumber && kind === "memory" ? memoryElement(memory, sum, Number(element.slice(1))) : null;
    const text = isNumber && value !== null ? numberText(element, value) : "";
    /** @type {Record<string, string>} */
    const places = { register: `x${register}`, vector: `v${register}`, memory: textOf("variables.at", { address: sum.toString(16) }),
      value: "", untold: textOf("variables.unsupported"), gone: textOf("variables.gone") };
    return { declaration, element, counts, isLocal: scopes.length > 0, at, text, where: places[kind] };
  });
}

/** Shows the variables of a machine's program below the root of its panels. */
/** @type {(root: ParentNode, state: MachineState, before: MachineState) => void} */
export function paintVariables(root, state, before) {
  part(root, "show-variables").hidden = !state.variables?.length;
  const known = knownVariables({ ...before, variables: state.variables });
  const texts = new Map(known.map(({ declaration, text }) => [declaration, text]));
  const rows = knownVariables(state).map(({ declaration, text, where }) => {
    const kind = text !== (texts.get(declaration) ?? text) ? "changed" : "";
    const place = withNames(where, part(root, "names").value === "abi");
    return make("tr", "", header("row", declaration), make("td", kind, text), make("td", "where", place));
  });
  part(root, "variables").replaceChildren(table(textOf("variables"), make("tbody", "", ...rows)));
}
