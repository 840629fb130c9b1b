// Panes of a machine's page: tabs, splitters, folding, and one or two panes at a time on a small screen. The browser keeps
// sizes for each kind of page.

import { elementsIn, part, remPixels } from "../common/dom.js";
import { store, stored } from "../common/preferences.js";

/** @typedef {import("../parts").Parts} Parts */
/** @typedef {{ sizes: Record<string, number | undefined>, folded: Record<string, boolean> }} Arrangement sizes in rem, by the pane's id */

const VERSION = 1; // of the sizes that the browser stores
const STEP = 16; // px that an arrow key moves a splitter
// In a window of less px, panes fold to make room for the elements.
const LOW = 860;
const NARROW = 1440;

/** The arrangement that the browser has kept under a name; an empty one where it has none, or one of another version. */
/** @type {(key: string) => Arrangement} */
export function keptArrangement(key) {
  const { version, sizes, folded } = stored(key) ?? {};
  return version === VERSION ? { sizes, folded } : { sizes: {}, folded: {} };
}

export class Panes {
  /** @param {HTMLElement} root of a machine @param {string} kind of the page */
  constructor(root, kind) {
    this.root = root;
    this.key = `vecmon-panes-${kind}`;
    this.kept = keptArrangement(this.key);
    for (const list of elementsIn(this.root, '[role="tablist"]')) this.listenToTabs(list);
    for (const bar of elementsIn(this.root, ".split")) this.listenToSplitter(bar);
    for (const button of elementsIn(this.root, ".fold, .rail button")) button.addEventListener("click", () => this.toggle(button));
    for (const [id, size] of Object.entries(this.kept.sizes)) this.resize(id, size);
    for (const [id, isFolded] of Object.entries(this.kept.folded)) this.fold(id, isFolded);
  }

  /** The pane or the panel of a tab, a splitter or a button. */
  paneOf(/** @type {HTMLElement} */ control) {
    return part(this.root, /** @type {keyof Parts} */ (control.getAttribute("aria-controls")));
  }

  keep = () => store(this.key, { version: VERSION, ...this.kept });

  /** Brings a pane or a panel into sight: selects its tab, and unfolds its pane. */
  show(/** @type {keyof Parts} */ id) {
    const pane = part(this.root, id).closest(".pane");
    const tabs = elementsIn(this.root, `[role="tab"]:is([aria-controls="${id}"], [aria-controls="${pane?.id}"])`);
    tabs.forEach((tab) => this.select(tab));
    if (pane?.matches(".folded")) this.fold(pane.id, false);
  }

  /** Selects a tab of a list: its panel is shown in place of the others', or, of the list of panes, its pane. */
  select(/** @type {HTMLElement} */ tab) {
    const list = /** @type {HTMLElement} */ (tab.closest('[role="tablist"]'));
    for (const each of elementsIn(list, '[role="tab"]')) {
      const isShown = each === tab;
      Object.assign(each, { ariaSelected: `${isShown}`, tabIndex: isShown ? 0 : -1 });
      const panel = this.paneOf(each);
      if (list.matches(".panebar")) panel.classList.toggle("shown", isShown);
      else panel.hidden = !isShown;
    }
  }

  listenToTabs(/** @type {HTMLElement} */ list) {
    const tabs = elementsIn(list, '[role="tab"]');
    list.addEventListener("click", ({ target }) => {
      const tab = tabs.find((each) => each.contains(/** @type {Node} */ (target)));
      if (tab) this.show(/** @type {keyof Parts} */ (tab.getAttribute("aria-controls")));
    });
    list.addEventListener("keydown", (event) => {
      const step = { ArrowRight: 1, ArrowLeft: -1 }[event.key];
      const shown = tabs.filter((each) => each.checkVisibility());
      const next = step && shown[(shown.findIndex((each) => each === event.target) + step + shown.length) % shown.length];
      if (!next) return;
      event.preventDefault();
      next.focus();
      next.click();
    });
    const first = tabs.find((each) => each.ariaSelected === "true") ?? tabs.find((each) => !each.hidden);
    if (first) this.select(first);
  }

  /** A splitter: dragged, moved by arrow keys, and back at its first size with Enter or a double click. */
  listenToSplitter(/** @type {HTMLElement} */ bar) {
    const pane = this.paneOf(bar);
    const isBelow = bar.matches(".rows"); // the pane is below the splitter, otherwise to the left of it
    /** @type {Record<string, number>} */
    const steps = isBelow ? { ArrowUp: STEP, ArrowDown: -STEP } : { ArrowRight: STEP, ArrowLeft: -STEP };
    const least = Number(bar.dataset.least);
    const most = Number(bar.dataset.most);
    const pixels = () => pane.getBoundingClientRect()[isBelow ? "height" : "width"];
    const placeOf = (/** @type {PointerEvent} */ { clientX, clientY }) => (isBelow ? -clientY : clientX);
    const move = (/** @type {number} */ size) => {
      if (pane.matches(".folded")) this.fold(pane.id, false);
      this.resize(pane.id, Math.min(most, Math.max(least, size / remPixels())));
      this.keep();
    };
    const reset = () => {
      this.resize(pane.id);
      this.keep();
    };
    new ResizeObserver(() => (bar.ariaValueNow = `${Math.round(pixels())}`)).observe(pane);
    bar.addEventListener("pointerdown", (event) => {
      const start = pixels() - placeOf(event);
      bar.setPointerCapture(event.pointerId);
      bar.onpointermove = (moved) => move(start + placeOf(moved));
    });
    bar.addEventListener("lostpointercapture", () => (bar.onpointermove = null));
    bar.addEventListener("dblclick", reset);
    bar.addEventListener("keydown", (event) => {
      if (event.key === "Enter") reset();
      else if (steps[event.key]) move(pixels() + steps[event.key]);
      else return;
      event.preventDefault();
    });
  }

  /** Gives a pane a size in rem, or without one its first. */
  resize(/** @type {string} */ id, /** @type {number | undefined} */ size = undefined) {
    this.kept.sizes[id] = size; // JSON leaves out undefined
    this.root.style.setProperty(`--${id}`, size === undefined ? "" : `${size}rem`);
  }

  /** Folds a pane to its head or its rail, or unfolds it. */
  fold(/** @type {string} */ id, /** @type {boolean} */ isFolded) {
    elementsIn(this.root, `[id="${id}"]`)[0]?.classList.toggle("folded", isFolded);
    for (const button of elementsIn(this.root, `:is(.fold, .rail button)[aria-controls="${id}"]`)) button.ariaExpanded = `${!isFolded}`;
  }

  /** Folds or unfolds the pane of a button, and keeps that. */
  toggle(/** @type {HTMLElement} */ button) {
    const { id, classList } = this.paneOf(button);
    this.kept.folded[id] = !classList.contains("folded");
    this.fold(id, this.kept.folded[id]);
    this.keep();
  }

  /** Makes room for the elements when a program is stepped, once, by folding those panes that the reader hasn't arranged. */
  makeRoom() {
    const { classList } = part(this.root, "machine");
    if (classList.contains("stepped")) return;
    classList.add("stepped");
    const folding = { dock: innerHeight < LOW, exercise: innerWidth < NARROW };
    for (const [id, isFolded] of Object.entries(folding)) if (isFolded && !(id in this.kept.folded)) this.fold(id, true);
  }
}
