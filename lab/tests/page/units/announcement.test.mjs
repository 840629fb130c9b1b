// What a step did in words, by states written by hand.
import assert from "node:assert/strict";
import { test } from "node:test";
import { announcementOf } from "../../../vecmon_lab/page/web/panels/announcement.js";

const registers = (/** @type {Record<string, string>} */ own = {}) =>
  ({ ...Object.fromEntries(Array.from({ length: 32 }, (_, number) => [number, "0"])), ...own });
/** @type {(own: object) => any} */
const state = (own) => ({ code: { 10000: "00a00513 addi x10, x0, 10" }, x: registers(), v: { 0: "00", 1: "00" }, ...own });

test("a step's announcement has the instruction and the registers that it changed", () => {
  const after = state({ instruction: "10000", x: registers({ 10: "a", 11: "ffffffffffffffff" }) });
  const first = state({ pc: "10000" });
  assert.equal(announcementOf(after, first, 0, true), "Executed addi a0, zero, 10: a0 = 10, a1 = -1.");
  assert.equal(announcementOf(after, first, 0, false), "Executed addi x10, x0, 10: x10 = 10, x11 = -1.");
  assert.equal(announcementOf(state({ instruction: "10000" }), first, 0, true), "Executed addi a0, zero, 10: no register changed.");
  const vector = state({ code: { 4: "5208a157 vid.v v1" }, instruction: "4", v: { 0: "00", 1: "01" } });
  assert.equal(announcementOf(vector, state({ pc: "4" }), 8, true), "Executed vid.v v1: 8 elements changed in v1.");
  assert.equal(announcementOf(vector, state({ pc: "4" }), 1, true), "Executed vid.v v1: 1 element changed in v1.");
  assert.equal(announcementOf(state({}), state({}), 0, true), "");
});

test("after a run the changes aren't those of the last instruction", () => {
  const last = { code: { 8: "00008067 jalr x0, 0(x1)" }, instruction: "8" };
  const after = state({ ...last, x: registers({ 10: "a" }), v: { 0: "01", 1: "01" } });
  const words = "Executed several instructions, jalr zero, 0(ra) as the last one: a0 = 10, v0, v1 changed.";
  assert.equal(announcementOf(after, state({ pc: "10000" }), 8, true), words);
});
