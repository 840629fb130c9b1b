// The console's log: lines and answers, those with a stop or a refusal, and groups that unfold.

import { make, prose } from "../common/dom.js";

const LOG_LENGTH = 500;
/** @type {Record<string, string>} */
const KINDS = { ">": "asked", "<": "answered", "*": "answered", "=": "served", "!": "unsent" };
export const STOP = "*"; // starts an entry that reports the stop of a program

/** The text of an entry, and what it means where it refuses a line, which may have several lines; "" where it doesn't. */
/** @type {(entry: string) => [text: string, words: string]} */
export function entryParts(entry) {
  const [text, ...words] = entry.slice(1).split("\n");
  return [text, words.join("\n")];
}

/**
 * A line or an answer in the transcript: lines begin with `>`, answers with `<`, or with `*` if they report a stop, those to the server's
 * own lines with `=`, and other sentences with `!`.
 * Of an only user's entries the digit is left out; `place` comes before all.
 */
export function logEntry(/** @type {string} */ entry, isOnly = false, place = "") {
  const [text, words] = entryParts(entry);
  const stopped = entry[0] === "!" || entry[0] === STOP || (entry[0] === "<" && words);
  const kind = KINDS[entry[0]];
  const shown = isOnly && entry[0] !== "!" ? text.slice(2) : text;
  return make("li", stopped ? `${kind} stopped` : kind, `${place}${entry[0] === ">" ? "> " : ""}${shown}`);
}

/** A log, whose groups are one item each: `+` and a text starts a group, and `-` ends it. */
export class Log {
  /** @type {HTMLOListElement | null} */ group = null; // that new entries belong to
  isNew = false; // whether the end has to come into sight

  /** @param {HTMLElement} box @param {boolean} isOnly whether all entries are of one user, whose digit is left out */
  constructor(box, isOnly) {
    this.box = box;
    this.isOnly = isOnly;
  }

  clear() {
    this.group = null;
    this.box.replaceChildren();
  }

  /** Adds entries. `place` comes before all. */
  add(/** @type {string[]} */ entries, place = "") {
    for (const entry of entries) this.addEntry(entry, place);
    while (this.box.childElementCount > LOG_LENGTH) this.box.firstChild?.remove();
    this.isNew ||= entries.length > 0;
  }

  /** Shows the end if it is new; that waits for a layout. */
  showEnd() {
    if (this.isNew) this.box.scrollTop = this.box.scrollHeight;
    this.isNew = false;
  }

  /** Adds an entry to its group, or to the log. A stop or a refusal unfolds its group; the meaning of a refusal is below it. */
  /** @type {(entry: string, place: string) => void} */
  addEntry(entry, place) {
    if (entry[0] === "-") this.group = null;
    else if (entry[0] === "+") {
      this.group = make("ol", "");
      this.box.append(make("li", "group", make("details", "", make("summary", "", place + entry.slice(1)), this.group)));
    } else {
      const item = logEntry(entry, this.isOnly, place);
      const [, words] = entryParts(entry);
      if (words) item.append(make("small", "", ...prose(words.replace(/^E\d\d.*?: /m, ""))));
      (this.group ?? this.box).append(item);
      const group = item.closest("details");
      if (group && item.matches(".stopped")) group.open = true;
    }
  }
}
