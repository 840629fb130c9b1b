// Bars of parts, which are shares of a whole (html_elements.py).

import { elementsIn } from "../common/dom.js";

/** Makes each element with a share in percent as wide as that. */
export function setWidths() {
  for (const part of elementsIn(document, "[data-share]")) part.style.flex = `0 0 ${part.dataset.share}%`;
}
