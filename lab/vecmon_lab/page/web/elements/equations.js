// Formulas and equations from the parts that the core sends: names, numbers in the reader's form, and the result.

import { elementOf } from "../common/numbers.js";
import { textOf } from "../common/texts.js";
import { scalarName } from "../common/words.js";

/** @typedef {import("./instruction").View} View */
/** @typedef {import("./instruction").Executed} Executed */
/** @typedef {import("../messages").ShownTerm} Term */
/** @typedef {import("../messages").ShownEquation} Equation */
/** @typedef {(string | Term)[]} Parts */
/** @typedef {{ view: View, executed: Executed, element: number }} Place the element whose equation is written */

/**
 * Returns a number as text, with a true minus sign.
 * @param {bigint} value
 * @param {View} view
 */
function numberText(value, { form }) {
  const [size, sign] = value < 0n ? [-value, "−"] : [value, ""];
  return sign + (form === "hexadecimal" ? `0x${size.toString(16)}` : `${size}`);
}

/**
 * Returns the number that bits are.
 * @param {bigint} bits
 * @param {number} width in bits
 * @param {Term["sign"]} sign without one the reader's form of numbers counts
 * @param {View} view
 */
function taken(bits, width, sign, { form }) {
  const isSigned = sign ? sign === "signed" : form === "signed";
  return isSigned && width > 1 ? BigInt.asIntN(width, bits) : bits;
}

/**
 * Returns the number of the element that a term names.
 * @param {Term} term
 * @param {Place} place
 */
function indexOf({ by, index = 0 }, { executed, element }) {
  if (by === "pair") return executed.pairs.find(([, result]) => result === element)?.[0] ?? 0;
  return by === "element" ? element + index : index;
}

/**
 * Returns the value of a term.
 * @param {Term} term
 * @param {Place} place
 */
function valueOf(term, place) {
  const { value, register, width = 0, sign } = term;
  const index = indexOf(term, place);
  if (value === undefined && register === undefined) return BigInt(index);
  const bits = register === undefined ? BigInt(value ?? 0) : elementOf(place.executed.earlier.v, register, width, index);
  return taken(bits, width, sign, place.view);
}

/**
 * Returns the name of a term.
 * @param {Term} term
 * @param {Place} place
 */
function nameOf(term, place) {
  const { scalar, register, width, name, function: converting } = term;
  const index = indexOf(term, place);
  const element = register === undefined ? `${index}` : `v${register}${width === 1 ? ".mask" : ""}[${index}]`;
  const text = scalar === undefined ? (name?.replace("-", "−") ?? element) : scalarName(scalar, place.view.hasAbiNames);
  const isUnsigned = text[0] === "−" && valueOf(term, place) >= 0n; // a negative immediate
  const around = isUnsigned ? "unsigned" : converting;
  return around ? `${around}(${text})` : text;
}

/**
 * Returns parts as text, with parentheses around negative numbers next to other parts.
 * @param {Parts} parts
 * @param {(term: Term) => string} write
 */
function written(parts, write) {
  const texts = parts.map((part) => (typeof part === "string" ? part : write(part)));
  const isNegative = (/** @type {string} */ text, /** @type {number} */ place) => typeof parts[place] !== "string" && text[0] === "−";
  return texts.map((text, place) => (isNegative(text, place) && parts.length > 1 ? `(${text})` : text)).join("");
}

/** @type {(parts: Parts, place: Place) => [names: string, numbers: string]} */
const sidesOf = (parts, place) => [
  written(parts, (term) => nameOf(term, place)),
  written(parts, (term) => numberText(valueOf(term, place), place.view)),
];

/**
 * Returns a formula or a sentence with an instruction's own operands.
 * @param {Parts} parts
 * @param {boolean} hasAbiNames
 */
export const operandsText = (parts, hasAbiNames) =>
  parts
    .map((part) => (typeof part === "string" ? part : scalarName(part.scalar ?? 0, hasAbiNames)))
    .join("")
    .replace(/(?<!\w)-(?=\d)/g, "−");

/**
 * Returns the equation of an element: with names, with numbers, the result, and what selected its form; "" without one.
 * @param {View} view
 * @param {Executed | undefined} executed
 * @param {number} element
 */
export function equationText(view, executed, element) {
  const equation = executed?.equations.find(({ elements, target }) =>
    target || elements.some(([first, count]) => first <= element && element < first + count));
  if (!executed || !equation) return "";
  const place = { view, executed, element };
  const [names, numbers] = sidesOf(equation.parts, place);
  const last = resultText(equation, place);
  const sides = new Set([nameOf(targetOf(equation, place), place), names, numbers]);
  const shown = [...sides, ...(last === numbers ? [] : [last])].join(" = ");
  const causes = (equation.causes ?? []).map(({ parts, holds }) => {
    const [condition, filled] = sidesOf(parts, place);
    const both = condition === filled ? condition : `${condition} (${filled})`;
    return holds ? textOf("equation.true", { condition: both }) : textOf("equation.false", { condition: both });
  });
  return causes.length ? textOf("equation.since", { equation: shown, causes: causes.join(` ${textOf("equation.and")} `) }) : shown;
}

/** @type {(equation: Equation, place: Place) => Term} */
function targetOf({ target }, { executed: { destination } }) {
  return target ?? { register: destination?.register, width: destination?.width, by: "element" };
}

/**
 * Returns the exact result, and the value in the register if that is another one.
 * @param {Equation} equation
 * @param {Place} place
 */
function resultText({ target, sign, others }, { view, executed: { destination }, element }) {
  const width = target?.width ?? destination?.width ?? 0;
  const bits = target ? BigInt(target.value ?? 0) : elementOf(view.state.v, destination?.register ?? 0, width, element);
  const other = others?.[`${element}`]?.[view.form === "signed" ? 0 : 1];
  const exact = other === undefined ? taken(bits, width, sign, view) : BigInt(other);
  const value = taken(bits, width, undefined, view);
  const [result, stored] = [exact, value].map((each) => numberText(each, view));
  if (exact === value) return result;
  if (exact !== bits && exact !== BigInt.asIntN(width, bits)) return textOf("equation.lowest", { result, stored, width });
  return view.form === "signed" ? textOf("equation.signed", { result, stored }) : textOf("equation.unsigned", { result, stored });
}
