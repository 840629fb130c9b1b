// The search in the reference: exactly this name first, then names that begin so, then entries that have all words.

/** @typedef {[name: string, form: string, does: string, foundBy?: string]} Entry foundBy: more words that find it */

const SHORT = ["with", "a", "an", "the", "of", "to", "in"]; // words that a search leaves out

/** A word without the ending that others of its kind have: `shifting` finds `Shifts`, and `multiplying` finds `Multiplies`. */
const stem = (/** @type {string} */ word) => word.replace(/(?<=\w{4})(ing|ed|es|s)$/, "").replace(/(?<=\w{4})[yi]$/, "");

/** The search words of a text. */
const wordsOf = (/** @type {string} */ text) => text.split(/\s+/).filter((word) => word && !SHORT.includes(word)).map(stem);

/** Whether a text has a word that starts with this one. */
/** @type {(text: string, word: string) => boolean} */
const hasBeginning = (text, word) => text.split(/[^\w.]+/).some((each) => each.startsWith(word));

/**
 * The rank of an entry in a search: 0 for exactly this name, 1 for names that begin so, 2 if its name has words that begin with
 * each of those wanted, 3 if its texts have, 4 if they have them only inside of words; undefined if they lack one.
 * @type {(entry: Entry, wanted: string, words: string[]) => number | undefined}
 */
function rankOf(entry, wanted, words) {
  const name = entry[0].replace(/^\* /, "").toLowerCase();
  const texts = entry.join(" ").toLowerCase();
  if (name === wanted) return 0;
  if (name.startsWith(wanted)) return 1;
  if (words.every((word) => hasBeginning(name, word))) return 2;
  if (words.every((word) => hasBeginning(texts, word))) return 3;
  return words.every((word) => texts.includes(word)) ? 4 : undefined;
}

/** The entries of sections that a search for a text in small letters finds, the closest first, each with its section. */
/** @type {(sections: Record<string, Entry[]>, wanted: string) => [section: string, entry: Entry][]} */
export function search(sections, wanted) {
  const words = wordsOf(wanted);
  /** @type {[section: string, entry: Entry][][]} */
  const ranks = [[], [], [], [], []];
  for (const [section, entries] of Object.entries(sections)) {
    entries.forEach((entry) => ranks[rankOf(entry, wanted, words) ?? ranks.length]?.push([section, entry]));
  }
  return ranks.flat();
}
