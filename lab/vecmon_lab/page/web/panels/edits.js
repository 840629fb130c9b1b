// Values that can be changed, and the dialog that asks for a new one. An element has its edit in `data-edit`: the line that sets a
// breakpoint; or the start of the line that writes the program counter, a register, or bytes of memory, where the value follows; or
// `vset`, a vector register, an element's bits (1 for a bit of a mask), its index, and the form in which it is shown. In a panel,
// arrow keys go from value to value, and Enter changes one.

import { elementsIn, part, parts, put } from "../common/dom.js";
import { textOf } from "../common/texts.js";

/** @type {Record<string, [down: number, right: number]>} */
const STEPS = { ArrowUp: [-1, 0], ArrowDown: [1, 0], ArrowLeft: [0, -1], ArrowRight: [0, 1] };
/** @type {("listing" | "registers" | "bytes")[]} */
const PANELS = ["listing", "registers", "bytes"];

/** The next place in a direction: of those above or below, the nearest row's in the same column. */
/** @type {(places: HTMLElement[], place: HTMLElement, step: [down: number, right: number]) => HTMLElement} */
function beside(places, place, [down, right]) {
  if (right) return places[places.indexOf(place) + right] ?? place;
  const own = place.getBoundingClientRect();
  const others = places.map((each) => ({ each, box: each.getBoundingClientRect() })).filter(({ box }) => (box.top - own.top) * down > 1);
  const far = (/** @type {DOMRect} */ { top, left }) => Math.abs(top - own.top) * 1000 + Math.abs(left - own.left);
  return others.sort((one, other) => far(one.box) - far(other.box))[0]?.each ?? place;
}

/** Goes through the values of a box by keys. */
/** @type {(box: HTMLElement, says: HTMLElement, change: (place: HTMLElement) => unknown) => void} */
function followKeys(box, says, change) {
  /** @type {string | undefined} */
  let at; // the name of the change that keys have come to
  const id = `at-${box.id}`;
  const placesIn = () => elementsIn(box, "[data-edit]"); // whose values can be changed
  const mark = () => { // again, since the box's rows are made anew
    const place = placesIn().find(({ dataset }) => dataset.edit === at);
    if (place?.id !== id) box.querySelector(`#${id}`)?.removeAttribute("id");
    return place && Object.assign(place, { id });
  };
  new MutationObserver(mark).observe(box, { childList: true, subtree: true });
  box.addEventListener("keydown", (event) => {
    if (event.target !== box || event.ctrlKey || event.altKey || event.metaKey) return;
    const places = placesIn();
    const place = mark();
    const step = STEPS[event.key];
    if (!(step ? places.length : place && event.key === "Enter")) return;
    event.preventDefault();
    if (!step) return void change(/** @type {HTMLElement} */ (place));
    const next = place ? beside(places, place, step) : (places.find((each) => each.matches("tr.next")) ?? places[0]);
    at = next.dataset.edit;
    mark();
    put(says, next.title || `${at}: ${next.innerText}`);
    next.scrollIntoView({ block: "nearest", inline: "nearest" });
  });
}

/**
 * Goes through the values of a machine's panels by keys.
 * @type {(root: ParentNode, change: (place: HTMLElement) => unknown) => void} change is given the element that Enter is pressed at
 */
export const followCursor = (root, change) => PANELS.forEach((id) => followKeys(part(root, id), part(root, "at"), change));

/** The title of an edit's dialog. */
export function titleOf(/** @type {string} */ edit) {
  const [command, register, , index] = edit.split(" ");
  return command === "vset" ? textOf("edit.element", { register, index }) : edit;
}

/**
 * The dialog that asks for a new value: a function that opens it with the value that is shown.
 * @param {ParentNode} root @param {(edit: string, text: string) => unknown} write receives what was typed
 */
export function editDialog(root, write) {
  const { edit: dialog, "edit-name": title, value } = parts(root, "edit", "edit-name", "value");
  return (/** @type {string} */ edit, /** @type {string} */ shown) => {
    Object.assign(dialog, { returnValue: "", onclose: () => dialog.returnValue && write(edit, value.value.trim()) });
    title.textContent = titleOf(edit);
    value.value = shown;
    dialog.showModal();
    value.select();
  };
}
