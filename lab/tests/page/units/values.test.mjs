// Vector types, numbers, places of rows and lines, edits and links: values worked out by hand from the RISC-V manuals.
import assert from "node:assert/strict";
import { test } from "node:test";
import { titleOf } from "../../../vecmon_lab/page/web/panels/edits.js";
import { isLink, languageOf, linkOf, sourceOf, suffixOf } from "../../../vecmon_lab/page/web/editor/links.js";
import { inOrder, placesOf } from "../../../vecmon_lab/page/web/panels/rows.js";
import { placeName } from "../../../vecmon_lab/page/web/panels/scalars.js";
import { lineBegins, startOf, stoppedLines } from "../../../vecmon_lab/page/web/panels/source_lines.js";
import { cutRows } from "../../../vecmon_lab/page/web/panels/memory.js";
import { littleEndian } from "../../../vecmon_lab/page/web/common/numbers.js";
import { numberText } from "../../../vecmon_lab/page/web/panels/variables.js";
import { saysMore, signedText, typeText, typeWords, vectorType, withNames } from "../../../vecmon_lab/page/web/common/words.js";

test("vtype has vlmul in bits 2 to 0, vsew in bits 5 to 3, vta, vma, and vill in bit 63", () => {
  const types = { d0: ["e32, m1, ta, ma", 8], c3: ["e8, m8, ta, ma", 256], 7: ["e8, mf2, tu, mu", 16], 58: ["e64, m1, ta, mu", 4] };
  for (const [vtype, [text, most]] of Object.entries(types)) {
    assert.equal(typeText(vectorType(vtype)), text);
    assert.equal(vectorType(vtype).most, most); // VLMAX for VLEN = 256
  }
  assert.equal(typeText(vectorType("8000000000000000")), "vill");
  assert.match(typeWords(vectorType("7")), /^up to 16 elements of 8 bits in half of a register; tail undisturbed, masked off undisturbed$/);
});

test("numbers are signed or not by their kind, with the lowest byte first", () => {
  assert.equal(littleEndian("feff"), 0xfffen);
  assert.deepEqual(["i16", "u16", "x16"].map((kind) => numberText(kind, 0xfffen)), ["-2", "65534", "0xfffe"]);
  assert.deepEqual([signedText("ffffffffffffffff"), signedText("7fffffffffffffff")], ["-1", "9223372036854775807"]);
});

test("registers have their ABI names, and of a source line is shown what the machine's text hasn't", () => {
  assert.equal(withNames("add x10, x2, x31", true), "add a0, sp, t6");
  assert.equal(withNames("add x10, x2, x31", false), "add x10, x2, x31");
  assert.equal(saysMore("addi t0, t0, -1  # count", "addi x5, x5, -1"), "# count");
  assert.equal(saysMore("li t0, 3", "addi x5, x0, 3"), "li t0, 3");
});

test("addresses rise by their numbers, and rows have labels and gaps between them", () => {
  assert.deepEqual(inOrder(["1000", "fff", "20"]), ["20", "fff", "1000"]);
  const places = placesOf(["10000", "10010", "10004"], () => 4, { 10004: ["loop"], 20000: ["data"] });
  const texts = places.map(({ address, text }) => address ?? text);
  assert.deepEqual(texts, ["10000", "loop:", "10004", "⋯", "10010"]);
});

test("each label in memory is above the row that starts at its address", () => {
  const digits = "00112233445566778899aabbccddeeff";
  const rows = cutRows({ 11000: digits, 11010: digits, 12000: digits }, 8, ["11000", "11004", "1101e", "20000"]);
  assert.deepEqual(rows, {
    11000: "00112233", 11004: "44556677", 11008: "8899aabbccddeeff",
    11010: "0011223344556677", 11018: "8899aabbccdd", "1101e": "eeff", 12000: "0011223344556677", 12008: "8899aabbccddeeff",
  });
  const labels = { 11000: ["first"], 11004: ["words"], "1101e": ["text", "end"], 20000: ["elsewhere"] };
  const places = placesOf(Object.keys(rows), (address) => rows[address].length / 2, labels);
  const texts = places.map(({ address, text }) => address ?? text);
  const expected = "first: 11000 words: 11004 11008 11010 11018 text: end: 1101e ⋯ 12000 12008";
  assert.equal(texts.join(" "), expected);
});

test("an address has the name of its label, or of the data that it is in or right after", () => {
  const labels = { 10008: ["loop"], 11004: ["xs"], 11018: ["ys", "end"], 11020: ["other"] };
  const data = { 11004: { type: "i32", count: 5 }, 11018: { type: "u16", count: 3 } };
  const names = ["11004", "1100c", "11018", "1101a", "1101e", "11000", "1101f", "11024", "10008", "1000c", "5"];
  const expected = ["xs", "xs+8", "ys", "ys+2", "ys+6", "", "", "", "loop", "", ""];
  assert.deepEqual(names.map((value) => placeName(value, { labels, data })), expected);
});

test("an instruction belongs to the line that starts last before it", () => {
  const starts = { 10000: 3, 10008: 4, 10010: 3, 10018: 0 };
  assert.deepEqual(["fffc", "10000", "1000c", "10014"].map((pc) => startOf(starts, pc)), [undefined, "10000", "10008", "10010"]);
  const begins = lineBegins(starts, ["10000", "10004", "10008", "10010", "10018", "10000"]);
  assert.deepEqual(begins, [{ place: 0, line: 3 }, { place: 2, line: 4 }, { place: 3, line: 3 }]);
  assert.deepEqual(stoppedLines({ 3: ["10000", "10010"], 4: ["10008"] }, ["10010"]), [3]);
});

test("an edit has a title", () => {
  assert.deepEqual(["setpc", "poke 20002", "vset v1 32 3 hexadecimal"].map(titleOf), ["setpc", "poke 20002", "vset v1 element 3"]);
});

/** A list of languages, as far as it is read. */
const languages = { options: ["assembler", "C, O0", "C, O2", "assembler, stock"].map((text) => ({ text })) };

test("a source is in a link as base64url, and comes back", () => {
  const source = { text: "li t0, 3 # ÿ?>", language: 2 };
  const hash = linkOf(source, languages);
  assert.equal(hash, "#source=eyJ0ZXh0IjoibGkgdDAsIDMgIyDDvz8-IiwibGFuZ3VhZ2UiOiJDLCBPMiJ9"); // by base64 of GNU coreutils
  assert.equal(isLink(hash), true);
  assert.deepEqual(sourceOf(hash, languages), source);
  for (const damaged of ["#source=", "#source=%", "#source=W10"]) assert.equal(sourceOf(damaged, languages), null);
  assert.equal(linkOf({ text: "x".repeat(100000), language: 0 }, languages), null);
});

test("a file's language is that of its suffix", () => {
  assert.deepEqual([0, 1, 2, 3].map((language) => suffixOf(language, languages)), ["s", "O0.c", "O2.c", "stock.s"]);
  const names = { "a.s": 0, "a.stock.s": 3, "a.O0.c": 1, "a.O2.c": 2, "a.c": 1, "a.txt": 0 };
  for (const [name, language] of Object.entries(names)) assert.equal(languageOf(name, languages), language, name);
});
