// The vector types at lines of a source, in words.

import { textOf } from "../common/texts.js";
import { typeName, typeText, vectorType } from "../common/words.js";

/** @typedef {import("../messages").LineType} LineType */

const LIST = new Intl.ListFormat(textOf("language"), { type: "disjunction" });

/** The vector type and length from a line on, as `e32 m1 · vl ≤ 8`. */
export function lineTypeText(/** @type {LineType} */ { types, vl }) {
  const all = types.map(vectorType);
  const [first] = all;
  if (!first) return textOf("types.unknown");
  if (all.length > 1) return textOf("types.differ", { types: LIST.format(distinctNames(all)) });
  const known = { type: typeName(first), vl: vl ?? first.most };
  return vl === undefined ? textOf("types.most", known) : textOf("types.length", known);
}

/** The names of types; with their policies if only these distinguish two of them. */
function distinctNames(/** @type {import("../common/words").VectorType[]} */ types) {
  const names = types.map(typeName);
  return new Set(names).size === names.length ? names : types.map(typeText);
}
