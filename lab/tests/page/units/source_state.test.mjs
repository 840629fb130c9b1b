// The state of the text in an editor, for all combinations of facts.

import assert from "node:assert/strict";
import test from "node:test";
import {
  MOST_LETTERS,
  isApart,
  isBuiltFirst,
  isDue,
  isUnsent,
  keyOf,
  sourceState,
} from "../../../vecmon_lab/page/web/editor/source_state.js";

const OTHER = { text: "nop", language: 0 };
const TEXTS = { short: { text: "ebreak", language: 0 }, long: { text: "#".repeat(MOST_LETTERS + 1), language: 0 } };
// A row for each state; `-` is any value. told: what the server has, with + if the machine has it; apart: another window has changed the
// seat's source, and this window's last version has an other text or the same one.
const TABLE = `
  told    typed  length  apart  flight | state
  none    -      -       -      -      | absent
  same+   -      -       -      -      | loaded
  same    -      -       -      -      | saved
  other   no     -       -      -      | sample
  other+  no     -       -      -      | sample
  other   yes    long    -      -      | too-long
  other+  yes    long    -      -      | too-long
  other   yes    short   other  -      | apart
  other+  yes    short   other  -      | apart
  other   yes    short   same   -      | kept
  other+  yes    short   same   -      | kept
  other   yes    short   no     yes    | sending
  other+  yes    short   no     yes    | sending
  other   yes    short   no     no     | typed
  other+  yes    short   no     no     | typed`;
const [NAMES, ...ROWS] = TABLE.trim().split("\n").map((line) => line.split("|").map((half) => half.trim().split(/ +/)));
const VALUES = [["none", "same", "same+", "other", "other+"], ["no", "yes"], ["short", "long"], ["no", "other", "same"], ["no", "yes"]];
const COMBINATIONS = VALUES.reduce((all, values) => all.flatMap((row) => values.map((value) => [...row, value])), [[]]);

/** The state of the facts that a combination names. */
function stateOf([told, typed, length, apart, flight]) {
  const here = TEXTS[length];
  const server = { ...(told.startsWith("same") ? here : OTHER), stands: told.endsWith("+") };
  const versions = { no: null, other: { name: "w", kept: keyOf(OTHER) }, same: { name: "w", kept: keyOf(here) } };
  const sent = new Set(flight === "yes" ? [keyOf(OTHER), keyOf(here)] : [keyOf(OTHER)]);
  return sourceState({ told: told === "none" ? null : server, here, sent, isTyped: typed === "yes", apart: versions[apart] });
}

test("each combination of facts has the state of its row", () => {
  assert.deepEqual(NAMES, [["told", "typed", "length", "apart", "flight"], ["state"]]);
  assert.equal(COMBINATIONS.length, 120);
  for (const combination of COMBINATIONS) {
    const rows = ROWS.filter(([facts]) => facts.every((fact, place) => fact === "-" || fact === combination[place]));
    assert.equal(rows.length, 1, `${combination}`);
    assert.equal(stateOf(combination), rows[0][1][0], `${combination}`);
  }
});

test("the language belongs to the text", () => {
  const told = { text: "nop", language: 0, stands: true };
  const facts = { told, sent: new Set(), isTyped: true, apart: null };
  assert.equal(sourceState({ ...facts, here: { text: "nop", language: 0 } }), "loaded");
  assert.equal(sourceState({ ...facts, here: { text: "nop", language: 1 } }), "typed");
  assert.equal(sourceState({ ...facts, here: { text: "#".repeat(MOST_LETTERS), language: 0 } }), "typed");
});

test("what is done with a text depends on its state", () => {
  const states = ["absent", "loaded", "saved", "sample", "too-long", "apart", "kept", "sending", "typed"];
  assert.deepEqual([...new Set(ROWS.map(([, [state]]) => state))], states);
  assert.deepEqual(states.filter(isUnsent), ["apart", "kept", "sending", "typed"]);
  assert.deepEqual(states.filter(isDue), ["apart", "sending", "typed"]);
  assert.deepEqual(states.filter(isApart), ["apart", "kept"]);
  const built = (machine, isEdited) => states.filter((state) => isBuiltFirst(state, machine, isEdited));
  const notLoaded = states.filter((state) => state !== "loaded");
  assert.deepEqual(built("nothing", false), notLoaded);
  assert.deepEqual(built("source", false), notLoaded);
  assert.deepEqual(built("other", false), []); // an image runs as it is
  assert.deepEqual(built("other", true), notLoaded);
});
