// Keys of the pages. Each presses a button, whose `aria-keyshortcuts` names it, as `Control+Shift+F5`.

import { elementsIn, make } from "./dom.js";
import { textOf } from "./texts.js";

/** @type {Record<string, string>} */
const EARLIER = { F8: "F11", "Control+F9": "Control+Shift+F5" }; // keys of version 1.0, and those of today
const FOCUSABLE = 'textarea, [contenteditable="true"], [tabindex="0"], input, select, button';
const FIELDS = 'input:not([type="checkbox"], [type="radio"]), textarea, select, [contenteditable="true"]';
const PANELS = '[role="tabpanel"], .menu > div, .exercise'; // that may be out of sight

/** The name of the key that an event is of, with the keys that are held. */
export function keyOf(/** @type {KeyboardEvent} */ { key, code, ctrlKey, metaKey, altKey, shiftKey }) {
  const letter = /^Key([A-Z])$/.exec(code)?.[1];
  const held = [ctrlKey || metaKey ? "Control" : "", altKey ? "Alt" : "", shiftKey ? "Shift" : ""];
  return [...held, letter ?? key].filter(Boolean).join("+");
}

/** A key as the page names it: `Ctrl Shift F5`. */
export const keyText = (/** @type {string} */ key) =>
  key.replace("Control", textOf("keys.control")).replace("Shift", textOf("keys.shift")).replaceAll("+", " ");

const keysOf = (/** @type {Element} */ button) => button.getAttribute("aria-keyshortcuts")?.split(" ") ?? [];

/** Whether the page offers a button, perhaps in a menu or on a tab that is out of sight. */
const isOffered = (/** @type {HTMLElement} */ button) =>
  getComputedStyle(button).display !== "none" && (button.closest(PANELS)?.parentElement ?? button).checkVisibility();

/** The button of a key that the page offers, the one in sight first. */
/** @type {(root: HTMLElement, key: string) => HTMLButtonElement | undefined} */
function buttonOf(root, key) {
  const own = elementsIn(root, `button[aria-keyshortcuts~="${key}"]`).filter(isOffered);
  return /** @type {HTMLButtonElement | undefined} */ (own.find((each) => each.checkVisibility()) ?? own[0]);
}

/** Closes a menu when something else is pressed, after one of its buttons, and with Escape, which leads back to its summary. */
function listenToMenu(/** @type {HTMLDetailsElement} */ menu) {
  document.addEventListener("pointerdown", ({ target }) => {
    if (!menu.contains(/** @type {Node} */ (target))) menu.open = false;
  });
  menu.addEventListener("click", ({ target }) => {
    if (target instanceof HTMLButtonElement) menu.open = false;
  });
  menu.addEventListener("keydown", (event) => {
    if (event.key !== "Escape") return;
    event.preventDefault();
    menu.open = false;
    menu.querySelector("summary")?.focus();
  });
}

/**
 * Lets keys press buttons. Returns a function that lists the keys of those that the page offers, each row with what they do.
 * @param {HTMLElement} root of the buttons
 * @param {(words: string) => void} say shows a sentence about a key, or "" after it
 * @param {() => boolean} usesLetters whether keys of one letter or digit press their buttons, outside of fields
 * @param {() => boolean} mayPress whether a key presses its button now
 */
export function listenToKeys(root, say, usesLetters, mayPress = () => true) {
  /** @type {HTMLDetailsElement[]} */ (elementsIn(root, "details.menu")).forEach(listenToMenu);
  const buttons = elementsIn(root, "button[aria-keyshortcuts]").map((button) => ({ button, does: button.title }));
  for (const { button, does } of buttons) button.title = `${does} (${keysOf(button).map(keyText).join(` ${textOf("keys.or")} `)})`;
  document.addEventListener("keydown", (event) => {
    if (event.defaultPrevented || event.isComposing || !event.key || document.querySelector("dialog[open]")) return;
    const key = keyOf(event);
    const isLetter = /^(Shift\+)?.$/.test(key);
    if (isLetter && (!usesLetters() || /** @type {Element} */ (event.target).closest(FIELDS))) return;
    const own = buttonOf(root, key);
    const later = EARLIER[key];
    const isEarlier = later && (!own || own.disabled);
    const button = isEarlier ? buttonOf(root, later) : own;
    if (!button || (key === "Escape" && button.disabled)) return;
    event.preventDefault();
    const name = /** @type {string} */ (button.textContent).trim();
    say(isEarlier ? textOf("keys.now", { name, key: keyText(later) }) : button.matches(":disabled") ? button.title : "");
    if (mayPress()) button.click();
  });
  return () => buttons.filter(({ button }) => isOffered(button)).flatMap(({ button, does }) => {
    const keys = keysOf(button).flatMap((key, place) => [place ? ` ${textOf("keys.or")} ` : "", make("kbd", "", keyText(key))]);
    return [make("dt", "", ...keys), make("dd", "", does)];
  });
}

/** Moves the focus to the next pane in sight, or with -1 to the one before. */
export function goToPane(/** @type {HTMLElement} */ root, /** @type {number} */ step) {
  const isSeen = (/** @type {HTMLElement} */ each) => each.checkVisibility() && getComputedStyle(each).visibility === "visible";
  const panes = elementsIn(root, ".pane, header").filter(isSeen);
  const place = panes.findIndex((pane) => pane.contains(document.activeElement));
  const pane = panes[(Math.max(place, step < 0 ? 0 : -1) + step + panes.length) % panes.length];
  const targets = elementsIn(pane ?? root, FOCUSABLE).filter((each) => isSeen(each) && !each.matches(":disabled"));
  (targets.find((each) => !each.matches('[role="tab"], .fold')) ?? targets[0])?.focus();
}
