// Words for how an element took part in an instruction.

import { textOf } from "../common/texts.js";

/** @type {Record<import("./instruction").Outcome | "changed", string>} */
export const OUTCOMES = {
  active: textOf("outcome.active"), masked: textOf("outcome.masked"), tail: textOf("outcome.tail"),
  prestart: textOf("outcome.prestart"), fault: textOf("outcome.fault"), pending: textOf("outcome.pending"),
  kept: textOf("outcome.kept"), idle: textOf("outcome.idle"), changed: textOf("outcome.changed"),
};
