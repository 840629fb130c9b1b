// The room that is left in the script of a seat's machine.

import { textOf } from "../common/texts.js";

const LOW = 0.1; // of the share: with less left, the page says so

/** The bytes that are left of a seat's share of the script, in words; "" while at least a tenth is left. */
/** @type {(share: { of: number, used: number }) => string} */
export function roomText({ of, used }) {
  const left = Math.max(0, of - used);
  return left < LOW * of ? textOf("source.room", { bytes: left.toLocaleString(textOf("language")) }) : "";
}
