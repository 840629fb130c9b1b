// Curves from elements of a source to those of the result, for instructions that move or sum up elements.

/** @typedef {import("./instruction").Pair} Pair */

const SVG = "http://www.w3.org/2000/svg";
const HEIGHT = 50; // units of a curve's picture, which is as high as its style says

/**
 * Returns the curves of a strip as paths, a unit wide for each column; curves that leave the strip aren't drawn.
 * @param {Pair[]} pairs
 * @param {number} first the strip's first element
 * @param {number} columns
 * @returns {{ pair: Pair, path: string }[]}
 */
export function curvesOf(pairs, first, columns) {
  const isHere = (/** @type {number} */ element) => element >= first && element < first + columns;
  return pairs.filter(([from, to]) => isHere(from) && isHere(to)).map((pair) => {
    const [from, to] = pair.map((element) => element - first + 0.5);
    return { pair, path: `M${from} 0C${from} ${HEIGHT / 2} ${to} ${HEIGHT / 2} ${to} ${HEIGHT}` };
  });
}

/**
 * Makes the picture of a strip's curves.
 * @param {Pair[]} pairs
 * @param {number} first
 * @param {number} columns
 */
export function wiresPicture(pairs, first, columns) {
  const curves = curvesOf(pairs, first, columns).map(({ pair: [from, to], path }) =>
    drawn("path", { d: path, "data-from": from, "data-to": to }));
  const picture = drawn("svg", { viewBox: `0 0 ${columns} ${HEIGHT}`, preserveAspectRatio: "none", "aria-hidden": true });
  picture.append(...curves);
  return picture;
}

/** @type {(tag: string, attributes: Record<string, unknown>) => Element} */
function drawn(tag, attributes) {
  const element = document.createElementNS(SVG, tag);
  for (const [name, value] of Object.entries(attributes)) element.setAttribute(name, `${value}`);
  return element;
}
