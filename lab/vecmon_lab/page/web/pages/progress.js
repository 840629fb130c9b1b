// Lessons of the tour and the course that were read to their end, which the browser keeps.

import { elementsIn } from "../common/dom.js";
import { store, stored } from "../common/preferences.js";

const KEY = "vecmon-lessons-read";

/** The lessons that were read, each with its series before its name as `tour/NAME`. */
/** @type {() => string[]} */
const lessonsRead = () => stored(KEY) ?? [];

/** Keeps that a lesson was read. */
export const keepRead = (/** @type {string} */ lesson) => store(KEY, [...new Set([...lessonsRead(), lesson])]);

/** Removes the marks of lessons that were not read. */
export function markRead() {
  const read = lessonsRead();
  for (const mark of elementsIn(document, "[data-lesson]")) if (!read.includes(mark.dataset.lesson ?? "")) mark.remove();
}
