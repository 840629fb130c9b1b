// Names and words that the page shows next to the machine's numbers.

import { textOf } from "./texts.js";

export const ABI_NAMES =
  "zero ra sp gp tp t0 t1 t2 s0 s1 a0 a1 a2 a3 a4 a5 a6 a7 s2 s3 s4 s5 s6 s7 s8 s9 s10 s11 t3 t4 t5 t6".split(" ");

export const ROUNDING = [textOf("rounding.rnu"), textOf("rounding.rne"), textOf("rounding.rdn"), textOf("rounding.rod")];

/** @typedef {{ vill: boolean, sew: number, lmul: number, most: number, tail: bigint, mask: bigint }} VectorType */

/** vtype, a hexadecimal number, in its parts: SEW in bits, LMUL as a number, VLMAX; 32 bits and 1 where it is vill. */
/** @type {(vtype: string) => VectorType} */
export function vectorType(vtype) {
  const bits = BigInt("0x" + vtype);
  const vill = bits >> 63n === 1n;
  const sew = vill ? 32 : 8 << Number((bits >> 3n) & 7n);
  const lmul = vill ? 1 : [1, 2, 4, 8, 0, 1 / 8, 1 / 4, 1 / 2][Number(bits & 7n)];
  return { vill, sew, lmul, most: (256 / sew) * lmul, tail: (bits >> 6n) & 1n, mask: (bits >> 7n) & 1n };
}

const groupName = (/** @type {number} */ lmul) => (lmul < 1 ? `mf${1 / lmul}` : `m${lmul}`);

/** A vector type without its policies, as `e32 m1`. */
export const typeName = (/** @type {VectorType} */ { vill, sew, lmul }) => (vill ? "vill" : `e${sew} ${groupName(lmul)}`);

/** A vector type as the assembler writes it. */
export function typeText(/** @type {VectorType} */ type) {
  if (type.vill) return "vill";
  return `e${type.sew}, ${groupName(type.lmul)}, ${type.tail ? "ta" : "tu"}, ${type.mask ? "ma" : "mu"}`;
}

/** A vector type in a sentence. */
export function typeWords(/** @type {VectorType} */ type) {
  if (type.vill) return textOf("vtype.vill");
  /** @type {Record<number, string>} */
  const parts = { 0.5: textOf("vtype.half"), 0.25: textOf("vtype.quarter"), 0.125: textOf("vtype.eighth") };
  const group = parts[type.lmul] ?? textOf("vtype.group", { count: type.lmul });
  const [tail, mask] = [type.tail, type.mask].map((bit) => (bit ? textOf("vtype.agnostic") : textOf("vtype.undisturbed")));
  return textOf("vtype.elements", { count: type.most, bits: type.sew, group, tail, mask });
}

/** A 64-bit number, in hexadecimal without leading zeros, as a signed decimal one. */
export const signedText = (/** @type {string} */ hexadecimal) => BigInt.asIntN(64, BigInt("0x" + hexadecimal)).toString();

/** The name of a scalar register. */
/** @type {(number: number, abi: boolean) => string} */
export const scalarName = (number, abi) => (abi ? ABI_NAMES[number] : `x${number}`);

/** An instruction's text with the chosen names of scalar registers. */
/** @type {(text: string, abi: boolean) => string} */
export const withNames = (text, abi) => (abi ? text.replace(/\bx(\d+)\b/g, (_, number) => ABI_NAMES[number]) : text);

/** The text of a source's line next to its instruction, whose text is the machine's: all of it, or only its comment. */
export function saysMore(/** @type {string} */ line, /** @type {string} */ text) {
  const [own] = line.split(/\s*(?:#|\/\/)/);
  const numbered = own.replace(/\b[a-z]+\d*\b/g, (name) => (ABI_NAMES.includes(name) ? `x${ABI_NAMES.indexOf(name)}` : name));
  if (numbered.replace(/\s+/g, " ").replace(/ ?, ?/g, ", ") === text) return line.slice(own.length).trim();
  return line.replace(/\s{4,}(?=(?:#|\/\/)[^"]*$)/, "   "); // a comment may be far to the right
}
