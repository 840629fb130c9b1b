// A field for lines of the monitor: Enter executes all lines in it, and arrow keys bring back earlier ones.

import { textOf } from "../common/texts.js";

const MOST_LINES = 4096; // at once
const MOST_TOGETHER = 64; // in a request
const MOST_CHARACTERS = 1022; // of a line
const WITH_ADDRESS = /^(\s*(?:asm|break|dis|map|peek|poke|setpc|unbreak)\s+)(\S+)/;
/** @type {Record<string, number>} */
const STEPS = { ArrowUp: -1, ArrowDown: 1 };

/** Why lines aren't sent, in a sentence; "" where they are. */
export function unfitLines(/** @type {string[]} */ lines) {
  if (lines.length > MOST_LINES) return textOf("lines.too-many", { lines: lines.length, most: MOST_LINES });
  for (const [place, text] of lines.entries()) {
    const odd = /[^ -~]/u.exec(text);
    if (odd) return textOf("lines.not-ascii", { line: place + 1, place: odd.index + 1, character: odd[0] });
    if (text.length > MOST_CHARACTERS) return textOf("lines.too-long", { line: place + 1, characters: text.length, most: MOST_CHARACTERS });
  }
  return "";
}

/** The address of a label, as hexadecimal digits; undefined if a name is none. */
/** @type {(name: string, labels: Record<string, string[]>) => string | undefined} */
export const addressOfLabel = (name, labels) => Object.keys(labels).find((address) => labels[address].includes(name));

/** Lines with the address of a label in place of its name, in commands that start with an address. Hexadecimal digits are an address. */
/** @type {(lines: string[], labels: Record<string, string[]>) => string[]} */
export const withAddresses = (lines, labels) => lines.map((line) => line.replace(WITH_ADDRESS, (all, head, name) =>
  (/^[0-9a-f]+$/i.test(name) ? all : `${head}${addressOfLabel(name, labels) ?? name}`)));

/** The requests that execute lines, at most a fixed number each. */
/** @type {(lines: string[]) => { ask: "lines", do: string[] }[]} */
export const requestsOf = (lines) =>
  Array.from({ length: Math.ceil(lines.length / MOST_TOGETHER) }, (_, part) =>
    ({ ask: "lines", do: lines.slice(part * MOST_TOGETHER, (part + 1) * MOST_TOGETHER) }));

/**
 * Executes the lines of a field in a form, and brings back earlier ones.
 * @param {HTMLTextAreaElement} field
 * @param {(lines: string[]) => unknown} execute is given lines that aren't empty, without those that begin with `#`
 */
export function listenToLines(field, execute) {
  /** @type {string[]} */
  let past = []; // entries of before
  let place = 0; // among them
  field.form?.addEventListener("submit", () => {
    const entry = field.value.trim();
    const own = entry.split("\n").map((line) => line.trim()).filter((line) => line && !line.startsWith("#"));
    field.value = "";
    if (!own.length) return;
    past = [...past.filter((each) => each !== entry), entry];
    place = past.length;
    execute(own);
  });
  field.addEventListener("keydown", (event) => {
    const { value, selectionStart: at } = field;
    if (event.key === "Enter" && !event.shiftKey && !event.isComposing) {
      event.preventDefault();
      field.form?.requestSubmit();
    }
    const step = STEPS[event.key];
    if (!step || (step < 0 ? value.slice(0, at) : value.slice(at)).includes("\n")) return;
    event.preventDefault();
    place = Math.min(past.length, Math.max(0, place + step));
    field.value = past[place] ?? "";
  });
}
