// The search in the reference, on entries of several sections.
import assert from "node:assert/strict";
import { test } from "node:test";
import { search } from "../../../vecmon_lab/page/web/panels/search.js";

/** @type {Record<string, import("../../../vecmon_lab/page/web/panels/search.js").Entry[]>} */
const SECTIONS = {
  Commands: [
    ["vlenb", "vlenb", "prints the bytes of a register"],
    ["load", "load NAME", "loads an image"],
    ["run", "* run U", "runs a program"],
  ],
  Instructions: [
    ["lw", "lw rd, offset(rs1)", "Loads 32 bits."],
    ["vle8.v", "vle8.v vd, (rs1)", "Loads elements."],
    ["vwmulsu.vv", "vwmulsu.vv vd, vs2, vs1", "Multiplies signed elements by unsigned ones; the products are twice as wide."],
    ["vmul.vv", "vmul.vv vd, vs2, vs1", "Multiplies elements; `vl` of them."],
  ],
  "Control registers": [["vl", "vl", "The number of elements."]],
  Terms: [["load word", "load word", "Reads 32 bits: `lw`."], ["reduce", "reduce", "Combines all elements."]],
};

const found = (/** @type {string} */ wanted) => search(SECTIONS, wanted).map(([, [name]]) => name);

test("exactly this name comes first, then names that begin so, then entries with the words", () => {
  assert.deepEqual(found("vl"), ["vl", "vlenb", "vle8.v", "vmul.vv"]);
  assert.deepEqual(found("load"), ["load", "load word", "lw", "vle8.v"]);
  assert.deepEqual(found("run"), ["run"]); // an operator's line, without its star
});

test("an entry is found by several words, by their beginnings and in any order", () => {
  assert.deepEqual(found("load word"), ["load word"]);
  assert.deepEqual(found("multiplying signed unsigned"), ["vwmulsu.vv"]);
  assert.deepEqual(found("unsigned multiply the signed"), ["vwmulsu.vv"]);
  assert.deepEqual(found("reducing"), ["reduce"]);
  assert.deepEqual(found("shuffle"), []);
});

test("each entry has its section", () => {
  assert.deepEqual(search(SECTIONS, "reduce").map(([section]) => section), ["Terms"]);
});
