// A text of an exercise as elements: nothing in it is HTML.

import { make, prose } from "../common/dom.js";

/** A paragraph; a list, where each line begins with `- `; or code, where each has four spaces. */
function block(/** @type {string} */ text) {
  const lines = text.split("\n");
  const all = (/** @type {string} */ begin) => lines.every((line) => line.startsWith(begin));
  if (all("    ")) return make("pre", "", lines.map((line) => line.slice(4)).join("\n"));
  if (all("- ")) return make("ul", "", ...lines.map((line) => make("li", "", ...prose(line.slice(2)))));
  return make("p", "", ...prose(lines.join(" ")));
}

/** A text whose blocks have empty lines between them. */
export const blocks = (/** @type {string} */ text) => text.replace(/^\n+|\n+$/g, "").split(/\n{2,}/).map(block);
