// A source with its language behind the # of an address, which browsers send to nobody; and a file's language by its name.

const PREFIX = "#source=";
const MOST_LINK_LETTERS = 100000; // which all current browsers take in an address
const namesOf = (/** @type {HTMLSelectElement} */ languages) => [...languages.options].map(({ text }) => text);

/** @typedef {import("../types").SourceText} SourceText */

/** The part of an address with a source, in base64url; the language by its name in a list. Null where that is too long. */
/** @type {(source: SourceText, languages: HTMLSelectElement) => string | null} */
export function linkOf({ text, language }, languages) {
  const bytes = new TextEncoder().encode(JSON.stringify({ text, language: namesOf(languages)[language] }));
  const letters = btoa(Array.from(bytes, (byte) => String.fromCharCode(byte)).join(""));
  const hash = PREFIX + letters.replaceAll("+", "-").replaceAll("/", "_").replaceAll("=", "");
  return hash.length > MOST_LINK_LETTERS ? null : hash;
}

export const isLink = (/** @type {string} */ hash) => hash.startsWith(PREFIX);

/** The source of such a part; null where it isn't one. */
/** @type {(hash: string, languages: HTMLSelectElement) => SourceText | null} */
export function sourceOf(hash, languages) {
  try {
    const letters = atob(hash.slice(PREFIX.length).replaceAll("-", "+").replaceAll("_", "/"));
    const bytes = Uint8Array.from(letters, (letter) => letter.charCodeAt(0));
    const { text, language } = JSON.parse(new TextDecoder().decode(bytes));
    if (typeof text === "string") return { text, language: Math.max(0, namesOf(languages).indexOf(language)) };
  } catch {} // damaged
  return null;
}

/** The suffix of a file for a language: `s`, `stock.s`, or `O2.c` with C's options. */
/** @type {(language: number, languages: HTMLSelectElement) => string} */
export const suffixOf = (language, languages) =>
  namesOf(languages)[language].split(", ").reverse().join(".").replace("C", "c").replace("assembler", "s");

/** The language of a file by its name, whose suffix may be one of these; else the first C, or assembler. */
/** @type {(name: string, languages: HTMLSelectElement) => number} */
export const languageOf = (name, languages) =>
  Math.max(namesOf(languages).findLastIndex((_, number) => name.endsWith(`.${suffixOf(number, languages)}`)), Number(name.endsWith(".c")));
