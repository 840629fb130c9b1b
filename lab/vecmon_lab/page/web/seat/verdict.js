// The cases of an exercise as rows of a table, and the result of an answer: the first case that fails, with the numbers that are wrong.

import { header, link, make, prose, unseen } from "../common/dom.js";
import { textOf } from "../common/texts.js";

/** @typedef {import("../messages").ExerciseView} ExerciseView */
/** @typedef {import("../messages").NumberRow} NumberRow */

const MOST = 8; // numbers of a row of the table
const MARKS = { passes: "✓ ", fails: "✗ ", "": "" };
const RESULTS = { passes: ` ${textOf("cases.passes")}`, fails: ` ${textOf("cases.fails")}`, "": "" };
const GIVEN = textOf("cases.given");
const EXPECTED = textOf("cases.expected");
/** @type {Record<NonNullable<import("../messages").CheckResult["cause"]>, string>} */
const CAUSES = {
  "left as it was": textOf("verdict.cause.left"), "masked off": textOf("verdict.cause.masked"), tail: textOf("verdict.cause.tail"),
};

/** At most some numbers of a row, each in a box; the wrong ones are marked. After them is the number of those not shown. */
/** @type {(row: NumberRow, name?: string, most?: number) => HTMLElement} */
function strip({ where, first, numbers, wrong, more }, name = "", most = Infinity) {
  const boxes = numbers.slice(0, most).map((text, place) => {
    const marks = wrong.includes(place) ? [unseen(` ${textOf("verdict.wrong")}`)] : [];
    const box = make("span", marks.length ? "wrong" : "", text, ...marks);
    return Object.assign(box, { title: textOf("verdict.number", { number: first + place }) });
  });
  const left = more + numbers.length - boxes.length;
  const title = [name, where, first && textOf("verdict.from", { number: first })].filter(Boolean).join(", ");
  return make("div", "strip", make("small", "", title), make("p", "", ...boxes, left ? textOf("verdict.more", { number: left }) : ""));
}

/** A case's inputs or expected results: registers in one line, and at most some numbers of each row of memory. */
/** @type {(rows?: NumberRow[], most?: number) => HTMLElement[]} */
function rowsOf(rows = [], most = Infinity) {
  const registers = rows.filter(({ register }) => register).map(({ register, numbers }) => `${register} = ${numbers[0]}`);
  const strips = rows.filter(({ register }) => !register).map((row) => strip(row, "", most));
  return registers.length ? [make("p", "", registers.join(", ")), ...strips] : strips;
}

/** The rows of a table of cases; hidden ones have only a number. The button that starts a case has its place. */
export function caseRows(/** @type {ExerciseView} */ { cases, told }) {
  return cases.map(({ name, shown }, place) => {
    const passed = told.cases?.[place]?.passed;
    const kind = passed === undefined ? "" : passed ? "passes" : "fails";
    const head = header("row", MARKS[kind], shown ? name : textOf("cases.hidden", { number: place + 1 }), unseen(RESULTS[kind]));
    const cells = [shown?.given, shown?.expected].map((rows) => make("td", "", ...rowsOf(rows, MOST)));
    if (shown) cells.forEach((cell, column) => (cell.dataset.name = [GIVEN, EXPECTED][column]));
    const names = { value: `${place}`, ariaLabel: textOf("cases.try.label", { name }) };
    const start = make("td", "", shown ? Object.assign(make("button", "", textOf("cases.try")), names) : "");
    return Object.assign(make("tr", kind, head, ...cells, start), { ariaCurrent: `${told.number === place}` });
  });
}

/**
 * The result of the last check of an exercise: of a case that fails with a button to start it, whose value is the case's place; if all
 * pass, with a button to open the exercise `after` it, which has its name.
 * @type {(exercise: ExerciseView, after?: string) => HTMLElement[]}
 */
export function verdict({ told, cases, lesson }, after) {
  const say = (/** @type {string} */ text) => make("p", "", ...prose(text));
  if (told.unchecked) return [make("h3", "", told.unchecked), say(textOf("verdict.unchecked"))];
  if (told.mistakes) return [make("h3", "", textOf("verdict.mistakes")), say(textOf("verdict.no-try"))];
  if (!told.cases) return [];
  const numbers = { passed: told.cases.filter((it) => it.passed).length, all: cases.length };
  const hasPassed = numbers.passed === numbers.all;
  const sum = make("h3", "", hasPassed ? textOf("verdict.passes-all") : textOf("verdict.passes", numbers));
  const next = hasPassed && after ? [make("p", "", Object.assign(make("button", "main", textOf("verdict.next")), { name: after }))] : [];
  if (told.taken && told.good) {
    const [own, other] = [told.taken, told.good].map((it) => it.instructions.toLocaleString(textOf("language")));
    return [sum, ...next, say(textOf("verdict.cost", { own, other, work: told.taken.work, good: told.good.work }))];
  }
  if (told.number === undefined) return hasPassed ? [sum, ...next] : [sum, say(textOf("verdict.hidden"))];
  const start = Object.assign(make("button", "main", textOf("verdict.try")), { value: `${told.number}` });
  const { expected = [], found = [] } = told;
  return [
    sum,
    make("p", "said", ...prose(`${cases[told.number].name}: ${told.reason}`)),
    ...(told.cause ? [say(CAUSES[told.cause])] : []),
    ...found.flatMap((row, place) => (row.wrong.length ? [strip(expected[place], EXPECTED), strip(row, textOf("cases.found"))] : [])),
    make("p", "", start, " ", lesson && link(lesson, textOf("verdict.lesson"))),
    make("h3", "", textOf("verdict.given")),
    ...rowsOf(told.given),
    ...(told.notes ?? []).map(say),
  ];
}
