// The state of the text in an editor: whether the server and the machine have it. All that a page shows or does by it is derived from here.

/** @typedef {import("../types").SourceText} SourceText */
/**
 * - absent: the server hasn't sent the seat's source yet
 * - loaded: the server and the machine have the text
 * - saved: the server has it; the machine has another one, or none
 * - sample: it is the page's own text, which the reader hasn't changed
 * - too-long: the server takes no text of this length
 * - apart: another window has changed the seat's source since, so this text is sent to become a version
 * - kept: the same, and the last version has this text
 * - sending: a request with it has no answer yet
 * - typed: only the page has it; it is sent after a pause
 * @typedef {"absent" | "loaded" | "saved" | "sample" | "too-long" | "apart" | "kept" | "sending" | "typed"} SourceState
 */
/**
 * A window whose text isn't the seat's, since another window has changed that: its name, and the key of its last version.
 * @typedef {{ name: string, kept: string }} Apart
 */

export const MOST_LETTERS = 65536;

/** Equal for equal sources; "" for none. */
export const keyOf = (/** @type {SourceText | null} */ source) => (source ? `${source.language} ${source.text}` : "");

/**
 * The state of the text in the editor.
 * @param {{
 *   told: SourceText & { stands: boolean } | null,
 *   here: SourceText,
 *   sent: ReadonlySet<string>,
 *   isTyped: boolean,
 *   apart: Apart | null,
 * }} facts told: the server's source, and whether the machine has it; here: the editor's; sent: keys of sources in requests without an
 * answer; isTyped: whether the text was changed since the page was opened
 * @returns {SourceState}
 */
export function sourceState({ told, here, sent, isTyped, apart }) {
  if (!told) return "absent";
  const key = keyOf(here);
  if (key === keyOf(told)) return told.stands ? "loaded" : "saved";
  if (!isTyped) return "sample";
  if (here.text.length > MOST_LETTERS) return "too-long";
  if (apart) return apart.kept === key ? "kept" : "apart";
  return sent.has(key) ? "sending" : "typed";
}

/** Whether the seat's source lacks a text that was typed here, so that closing the page would lose it. */
export const isUnsent = (/** @type {SourceState} */ state) => ["typed", "sending", "apart", "kept"].includes(state);

/** Whether this window's text isn't the seat's, since another window has changed that. */
export const isApart = (/** @type {SourceState} */ state) => state === "apart" || state === "kept";

/** Whether a text is sent after a pause: one that waits until another request is answered, too. */
export const isDue = (/** @type {SourceState} */ state) => isUnsent(state) && state !== "kept";

/**
 * Whether the source is built before the program runs or is stepped: unless the machine has it, or has an image or lines in place of a
 * source, and the text wasn't changed since.
 * @param {SourceState} state
 * @param {"nothing" | "source" | "other"} machine what the machine has
 * @param {boolean} isEdited whether the text was changed since the machine began
 */
export function isBuiltFirst(state, machine, isEdited) {
  if (state === "loaded") return false;
  return machine === "other" ? isEdited : true;
}
