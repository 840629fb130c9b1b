// Commands, instructions and refusals: the server's tables, and the entry of a name.

import { byId, make, prose, put } from "../common/dom.js";
import { search } from "./search.js";
import { textOf } from "../common/texts.js";

/** @typedef {import("./search").Entry} Entry */

/** @type {Record<string, Entry[]>} */
export const SECTIONS = JSON.parse(byId("reference-data").text);
const { "Not supported": ABSENT, ...KNOWN } = SECTIONS;
const NAMED = Object.fromEntries(Object.entries(KNOWN).filter(([section]) => section !== "Terms")); // names of sources and commands

/** An entry as a line of its own, with its section if it is in a list of several. */
/** @type {(entry: Entry, section?: string) => HTMLElement} */
const entryItem = ([, form, does], section = "") =>
  make("li", "", make("code", "", form), ...(does ? [" ", ...prose(does)] : []), ...(section ? [" ", make("small", "", section)] : []));

/** Why a name that other extensions have isn't here, as an entry; none of other names. */
/** @type {(name: string) => Entry[]} */
const absentEntry = (name) =>
  ABSENT.filter(([title, form]) => new RegExp(`^(?:${form.slice(title.length + 1)})$`).test(name)).map(([, , does]) => [name, name, does]);

/** The entry of a name in some sections, with code between backquotes; "" without one. */
/** @type {(name: string, sections?: Record<string, Entry[]>) => string} */
export function entryText(name, sections = KNOWN) {
  const here = Object.values(sections).flat().filter(([each]) => [name, `* ${name}`].includes(each));
  const own = here.length ? here : absentEntry(name);
  return own.map(([, form, does]) => `\`${form}\`${does && `: ${does}`}`).join("\n");
}

/** The word around a place in a text, or ending at it. */
/** @type {(text: string, place: number) => string} */
const wordAt = (text, place) =>
  text.slice(Math.max(0, place - 99), place).split(/[^\w.]/).at(-1) + text.slice(place, place + 99).split(/[^\w.]/, 1)[0];

/** The name at a place of a text that has an entry; "" without one. */
/** @type {(caret: [text: string, place: number]) => string} */
export function nameAt([text, place]) {
  const word = wordAt(text, place);
  return entryText(word, NAMED) ? word : "";
}

/** Shows the entries that have a text's words, the closest first; or all of them by section. */
export function showReference(/** @type {HTMLElement} */ box, /** @type {string} */ text) {
  const wanted = text.trim().toLowerCase();
  const found = wanted ? search({ ...KNOWN, "Not supported": absentEntry(wanted) }, wanted) : [];
  const bySection = () => Object.entries(KNOWN).flatMap(([section, entries]) =>
    [make("h3", "", section), make("ul", "", ...entries.map((entry) => entryItem(entry)))]);
  const ranked = () => [make("ul", "", ...found.map(([section, entry]) => entryItem(entry, section)))];
  const none = [make("p", "empty", textOf("reference.none"))];
  box.replaceChildren(...(!wanted ? bySection() : found.length ? ranked() : none));
  box.scrollTop = 0;
}

/** Shows in an element the entry of the name at a place of a text. */
export function tellName(/** @type {HTMLElement} */ element, /** @type {string} */ text, /** @type {number} */ place) {
  const words = entryText(wordAt(text, place), NAMED);
  put(element, words, prose(words));
}
