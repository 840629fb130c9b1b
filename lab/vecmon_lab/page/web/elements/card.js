// The card of the instruction that was executed last: its text, meaning, formula and counts; and the vector control registers.

import { OUTCOMES } from "./element_words.js";
import { make, prose, renew } from "../common/dom.js";
import { operandsText } from "./equations.js";
import { numberText } from "../common/numbers.js";
import { textOf } from "../common/texts.js";
import { ROUNDING, scalarName, typeText, typeWords, vectorType, withNames } from "../common/words.js";

/** @typedef {import("./instruction").View} View */
/** @typedef {import("./columns").Columns} Columns */
/**
 * text: the instruction; alias: the source's pseudo-instruction for it, or ""; meaning: sentences, with backquotes around code;
 * formula, scalars: with the instruction's operands; counts: classes of elements with their numbers in words
 * @typedef {{ text: string, alias: string, meaning: string, formula: string, scalars: string[], counts: [string, string][] }} Card
 */

/** @type {Partial<import("./instruction").State>} */
const INITIAL = { vl: 0, vstart: 0, vxrm: 0, vxsat: 0, policy: "keep" };
const COUNTS = ["active", "masked", "prestart", "fault", "pending", "tail"];

/**
 * Returns the content of the card.
 * @param {View} view
 * @param {Columns} columns
 * @returns {Card}
 */
export function cardOf(view, columns) {
  const { executed } = columns;
  const { state, hasAbiNames } = view;
  const line = state.code[state.instruction ?? ""] ?? "";
  const meaning = !line ? textOf("card.nothing") : state.faulted ? textOf("card.stopped") : textOf("card.no-operands");
  const text = withNames(line.slice(9), hasAbiNames);
  if (!executed) return { text, alias: "", meaning, formula: "", scalars: [], counts: [] };
  const does = operandsText(executed.does, hasAbiNames);
  const sentences = [does, maskSentence(state, executed), tailSentence(state, executed), ...stopSentences(view, executed)];
  return {
    text, alias: state.aliases?.[state.instruction ?? ""] ?? "",
    meaning: sentences.filter(Boolean).join(" "),
    formula: operandsText(executed.formula, hasAbiNames),
    scalars: scalarTexts(view, executed),
    counts: countsOf(columns, view),
  };
}

/**
 * Returns the values of the scalar registers that an instruction names: `a0 = 3`; an address in hexadecimal.
 * @param {View} view
 * @param {import("./instruction").Executed} executed
 */
const scalarTexts = ({ state, hasAbiNames }, { scalars, access }) => scalars.map((number) => {
  const value = BigInt("0x" + state.x[number]);
  const text = number === access?.base ? `0x${value.toString(16)}` : numberText(value, 64, "signed");
  return `${scalarName(number, hasAbiNames)} = ${text}`;
});

/**
 * Returns what happens to elements that are masked off.
 * @param {import("./instruction").State} state
 * @param {import("./instruction").Executed} executed
 */
function maskSentence(state, { mask, access, destination, layout }) {
  if (mask !== "mask") return "";
  if (access?.store) return textOf("card.mask.store");
  if (!destination || layout === "reduce") return textOf("card.mask.not-counted");
  if (!vectorType(state.vtype).mask || destination.width === 1) return textOf("card.mask.undisturbed");
  return state.policy === "ones" ? textOf("card.mask.ones") : textOf("card.mask.keep");
}

/**
 * Returns what happens to the tail of an instruction that packs elements, which starts below vl.
 * @param {import("./instruction").State} state
 * @param {import("./instruction").Executed} executed
 */
function tailSentence(state, { layout }) {
  if (layout !== "compress") return "";
  return vectorType(state.vtype).tail ? textOf("card.packed.agnostic") : textOf("card.packed.undisturbed");
}

/**
 * Returns where an instruction started after element 0 and where an access stopped, or that values of sources are unknown.
 * @param {View} view
 * @param {import("./instruction").Executed} executed
 */
function stopSentences({ state, before }, { end, vstart, shortened, access, known, old: hasOld }) {
  if (end === "illegal") return [textOf("card.illegal")];
  if (end === "fault") return [textOf("card.fault", { element: state.vstart })];
  const start = access && vstart ? textOf("card.start", { element: vstart }) : "";
  const cut = shortened ? textOf("card.cut", { element: state.vl }) : "";
  if (known && hasOld) return [start, cut];
  const several = known ? textOf("card.several") : textOf("card.several.unknown");
  return [start, cut, before === state ? textOf("card.unknown") : several];
}

/**
 * Counts elements by their class, which marks a count unless it is 0.
 * @param {Columns} columns
 * @param {View} view
 * @returns {[string, string][]}
 */
function countsOf({ outcomes, changed, executed }, { state, before }) {
  /** @type {Record<string, string>} */
  const words = { ...OUTCOMES };
  if (state.faulted) words.prestart = textOf("card.done");
  if (executed?.end === "illegal") words.pending = textOf("card.not-executed");
  if (executed?.shortened) words.pending = textOf("card.not-loaded");
  const hasBefore = before !== state || (executed?.destination && executed.old);
  const counts = COUNTS.map((kind) => ({ kind, number: outcomes.filter((each) => each === kind).length })).filter(({ number }) => number);
  if (hasBefore) counts.push({ kind: "changed", number: changed.filter(Boolean).length });
  return counts.map(({ kind, number }) => [number ? kind : "", textOf("card.count", { number, outcome: words[kind] })]);
}

/**
 * Puts the card's content into its element.
 * @param {Element} root
 * @param {Card} card
 */
export function paintCard(root, { text, alias, meaning, formula, scalars, counts }) {
  const names = [make("b", "", alias || text), ...(alias ? [make("code", "", text)] : [])];
  const legend = make("p", "legend", ...counts.map(([kind, words]) => make("span", kind, words)));
  const onclick = () => root.classList.toggle("brief");
  const tag = document.body.matches(".watching") ? "span" : "button"; // the wall has no controls
  const fold = Object.assign(make(tag, "formula", make("code", "", formula)), { onclick, title: textOf("card.fold.title") });
  const shown = formula ? [fold, make("small", "", scalars.join(", "))] : [];
  renew(root, [make("p", "what", ...names), make("p", "meaning", ...prose(meaning)), make("div", "terms", ...shown, legend)]);
}

/**
 * Puts the vector control registers into their list.
 * @param {HTMLElement} root
 * @param {import("./instruction").State} state
 * @param {import("./instruction").State} before
 */
export function paintFacts(root, state, before) {
  const type = vectorType(state.vtype);
  const vl = type.vill ? `${state.vl}` : textOf("card.vl", { vl: state.vl, most: type.most });
  const rounding = `${state.vxrm} ${ROUNDING[state.vxrm ?? 0]}`;
  const texts = { vl, vtype: typeText(type), vstart: state.vstart, vxrm: rounding, vxsat: state.vxsat, policy: state.policy };
  const pairs = Object.entries(texts).map(([key, text]) => {
    const name = /** @type {keyof typeof texts} */ (key);
    const kind = before[name] === state[name] ? "" : "changed";
    const isInitial = !kind && state[name] === INITIAL[name] && (name !== "vl" || type.vill);
    return make("div", isInitial ? "initial" : "", make("dt", "", name), make("dd", kind, `${text}`));
  });
  root.title = typeWords(type);
  renew(root, [...pairs, ...(type.vill ? [make("p", "", root.title)] : [])]);
}
