// Merge patches, requests and their answers, lines of the monitor, entries of the transcript, and files of exported work.
import assert from "node:assert/strict";
import { test } from "node:test";
import { nameOf } from "../../../vecmon_lab/page/web/common/connection.js";
import { addressOfLabel, requestsOf, unfitLines, withAddresses } from "../../../vecmon_lab/page/web/seat/lines.js";
import { patched } from "../../../vecmon_lab/page/web/common/patches.js";
import { Pending } from "../../../vecmon_lab/page/web/common/pending.js";
import { entryParts } from "../../../vecmon_lab/page/web/panels/transcript.js";
import { isEntry, textsOf } from "../../../vecmon_lab/playground/web/kept_work.js";

const RFC_7396 = [ // appendix A: the original, the patch and the result
  [{ a: "b" }, { a: "c" }, { a: "c" }],
  [{ a: "b" }, { b: "c" }, { a: "b", b: "c" }],
  [{ a: "b" }, { a: null }, {}],
  [{ a: "b", b: "c" }, { a: null }, { b: "c" }],
  [{ a: ["b"] }, { a: "c" }, { a: "c" }],
  [{ a: "c" }, { a: ["b"] }, { a: ["b"] }],
  [{ a: { b: "c" } }, { a: { b: "d", c: null } }, { a: { b: "d" } }],
  [{ a: [{ b: "c" }] }, { a: [1] }, { a: [1] }],
  [["a", "b"], ["c", "d"], ["c", "d"]],
  [{ a: "b" }, ["c"], ["c"]],
  [{ a: "foo" }, null, null],
  [{ a: "foo" }, "bar", "bar"],
  [{ e: null }, { a: 1 }, { e: null, a: 1 }],
  [[1, 2], { a: "b", c: null }, { a: "b" }],
  [{}, { a: { bb: { ccc: null } } }, { a: { bb: {} } }],
];

test("merge patches give the results of RFC 7396, and leave the original unchanged", () => {
  for (const [original, patch, result] of RFC_7396) {
    const before = structuredClone(original);
    assert.deepEqual(patched(original, patch), result);
    assert.deepEqual(original, before);
  }
});

test("answers reach their requests by number, in any order", async () => {
  const pending = new Pending();
  const [one, two] = [{ ask: "open" }, { ask: "lines", do: ["regs"] }].map((request) => pending.add(request));
  assert.deepEqual([one.request, two.request], [{ id: 1, ask: "open" }, { id: 2, ask: "lines", do: ["regs"] }]);
  assert.equal(pending.requests[0], one.request);
  assert.equal(pending.settle({ kind: "answer", id: 2, text: "second" }), true);
  assert.equal(pending.settle({ kind: "answer", id: 2, text: "again" }), false);
  assert.equal(pending.settle({ kind: "answer", id: 1, text: "first" }), true);
  assert.deepEqual([(await one.answer).text, (await two.answer).text, pending.size], ["first", "second", 0]);
});

test("dropped requests have no answer, and the others stay", async () => {
  const pending = new Pending();
  const [one, two] = [{ ask: "check" }, { ask: "open" }].map((request) => pending.add(request));
  assert.deepEqual(pending.drop(1), [one.request]);
  assert.equal(await one.answer, null);
  assert.deepEqual(pending.requests, [two.request]);
  assert.deepEqual([pending.drop(), pending.size], [[two.request], 0]);
  assert.equal(await two.answer, null);
});

test("lost requests have names, and those that are repeated have none", () => {
  const lines = ["a", "b", "c", "d", "e"];
  assert.equal(nameOf({ ask: "lines", do: lines.slice(0, 4) }), "a, b, c, d");
  assert.equal(nameOf({ ask: "lines", do: lines }), "a and 4 lines more");
  assert.deepEqual(["check", "draft", "version"].map((ask) => nameOf({ ask })), ["the check", "", "version"]);
});

test("lines that the monitor can't read are refused before they are sent", () => {
  const tooLong = "x".repeat(1023);
  assert.equal(unfitLines(["regs", "x".repeat(1022)]), "");
  assert.equal(unfitLines(["café"]), "Character 4 of line 1, `é`, isn't printable ASCII: nothing was sent.");
  assert.match(unfitLines(["regs", tooLong]), /^1023 characters are in line 2,/);
  assert.match(unfitLines(Array(4097).fill("regs")), /^These are 4097 lines,/);
});

test("requests have 64 lines at most", () => {
  const sizes = requestsOf(Array(130).fill("step 1")).map(({ ask, do: lines }) => [ask, lines.length]);
  assert.deepEqual(sizes, [["lines", 64], ["lines", 64], ["lines", 2]]);
});

test("labels become addresses where a command starts with one, unless they are hexadecimal digits", () => {
  const labels = { 10004: ["loop", "again"], 10008: ["add"] };
  const lines = ["break loop", "  dis again 4", "peek add 1", "set x10 5", "loop", "asm loop j loop", "break other"];
  const expected = ["break 10004", "  dis 10004 4", "peek add 1", "set x10 5", "loop", "asm 10004 j loop", "break other"];
  assert.deepEqual(withAddresses(lines, labels), expected);
  assert.deepEqual(["again", "other"].map((name) => addressOfLabel(name, labels)), ["10004", undefined]);
});

test("an entry of the transcript has a text, and the words of a refusal", () => {
  assert.deepEqual(entryParts("<1 E11 bad register\nE11: the register\ndoesn't exist"), [
    "1 E11 bad register",
    "E11: the register\ndoesn't exist",
  ]);
  assert.deepEqual(entryParts(">1 regs"), ["1 regs", ""]);
});

/** A file with a text, which may say that it has another size. */
const file = (text, size) => Object.defineProperties(new File([text], "work.json"), size ? { size: { value: size } } : {});

test("a file of exported work has its texts by name, and others are refused by name", async () => {
  const texts = [{ name: "A1.source", text: "nop", time: 5 }, { name: "a/b/c", text: "", time: 1 }];
  const content = { format: "vecmon work", version: 1, texts };
  assert.deepEqual(await textsOf(file(JSON.stringify(content))), { "A1.source": ["nop", 5] });
  await assert.rejects(textsOf(file("{")), { message: "work.json isn't a file of exported work." });
  await assert.rejects(textsOf(file(JSON.stringify({ ...content, version: 2 }))), /newer playground/);
  await assert.rejects(textsOf(file(JSON.stringify({ ...content, texts: [] }))), /no work that can be read/);
  await assert.rejects(textsOf(file("{}", 1e8)), /more than 67,108,864 bytes/);
  assert.deepEqual([{ name: "a/b", text: "", time: 0 }, { name: "a/b/c", text: "", time: 0 }, null].map(isEntry), [true, false, false]);
});
