// Elements of the page, found and made. Texts are put in as text, never as HTML.

/** @typedef {import("../parts").Parts} Parts */
/** @typedef {string | Node} Content */

/**
 * The part of a panel with an id, whose kind `parts.d.ts` has. A panel looks below its own root, so that a page can have several.
 * @type {<Id extends keyof Parts>(root: ParentNode, id: Id) => Parts[Id]}
 */
export const part = (root, id) => /** @type {any} a test compares the kinds with the pages */ (root.querySelector(`#${id}`));

/** A part of the page. */
/** @type {<Id extends keyof Parts>(id: Id) => Parts[Id]} */
export const byId = (id) => part(document, id);

/**
 * Several parts of a panel, by their ids.
 * @type {<Id extends keyof Parts>(root: ParentNode, ...ids: Id[]) => Pick<Parts, Id>}
 */
export const parts = (root, ...ids) => /** @type {any} */ (Object.fromEntries(ids.map((id) => [id, part(root, id)])));

/** The elements below a root that a selector finds. */
/** @type {(root: ParentNode, selector: string) => HTMLElement[]} */
export const elementsIn = (root, selector) => [.../** @type {NodeListOf<HTMLElement>} */ (root.querySelectorAll(selector))];

/**
 * An element with a class and contents.
 * @type {<Tag extends keyof HTMLElementTagNameMap>(tag: Tag, kind: string, ...contents: Content[]) => HTMLElementTagNameMap[Tag]}
 */
export function make(tag, kind, ...contents) {
  const element = document.createElement(tag);
  if (kind) element.className = kind;
  element.append(...contents);
  return element;
}

/** A button whose name says more than its text. */
/** @type {(text: string, ariaLabel: string, onclick: () => unknown) => HTMLButtonElement} */
export const button = (text, ariaLabel, onclick) => Object.assign(make("button", "", text), { ariaLabel, onclick });

/** A link to a page that opens in a new tab. */
export const link = (/** @type {string} */ href, /** @type {string} */ text) =>
  Object.assign(make("a", "", text), { href, target: "_blank", rel: "noopener" });

/** Words for readers who can't see colour and form. */
export const unseen = (/** @type {string} */ text) => make("span", "unseen", text);

/** A column's or a row's header. */
/** @type {(scope: string, ...contents: Content[]) => HTMLTableCellElement} */
export const header = (scope, ...contents) => Object.assign(make("th", "", ...contents), { scope });

/** A table with a caption that is only heard. */
/** @type {(caption: string, ...parts: Node[]) => HTMLTableElement} */
export const table = (caption, ...parts) => make("table", "", make("caption", "unseen", caption), ...parts);

/** A text of the author's, with backquotes around code, as elements. */
/** @type {(text: string) => Content[]} */
export const prose = (text) => text.split("`").map((part, place) => (place % 2 ? make("code", "", part) : part));

/** A time in seconds since 1970 as `14:05`. */
export const timeText = (/** @type {number} */ time) => new Date(time * 1000).toLocaleTimeString("en-GB", { timeStyle: "short" });

/** Lets the browser save a file. */
export function offerFile(/** @type {string} */ download, /** @type {Blob} */ blob) {
  const link = Object.assign(make("a", ""), { href: URL.createObjectURL(blob), download });
  link.click();
  setTimeout(() => URL.revokeObjectURL(link.href), 60000);
}

/** Puts a text in only where it is another one, so that it isn't read aloud again. */
/** @type {(element: Element, text: string, contents?: Content[]) => void} */
export function put(element, text, contents = [text]) {
  if (element.textContent !== text.replaceAll("`", "")) element.replaceChildren(...contents);
}

/** Gives an element these children. Equal ones that it has in their places stay, so that the browser lays out and paints less. */
/** @type {(parent: Element, children: Element[]) => void} */
export function renew(parent, children) {
  const old = [...parent.children];
  children.forEach((child, place) => {
    if (!old[place]) parent.append(child);
    else if (!old[place].isEqualNode(child)) old[place].replaceWith(child);
  });
  old.slice(children.length).forEach((child) => child.remove());
}

/** Asks in a dialog, where something would be lost, and does that if the answer is yes. */
/** @type {(question: string, yes: string, carryOut: () => unknown) => void} */
export function ask(question, yes, carryOut) {
  put(byId("question"), question);
  put(byId("yes"), yes);
  byId("yes").onclick = carryOut;
  byId("ask").showModal();
}

/** Copies a text to the clipboard. Resolves to whether the browser took it: some allow that to no page, others only after a press. */
/** @type {(text: string) => Promise<boolean>} */
export const copy = async (text) => {
  try {
    await navigator.clipboard.writeText(text);
    return true;
  } catch {
    return false;
  }
};

/** Shows a text in a dialog, selected, so that it can be copied by hand. */
/** @type {(label: string, text: string) => void} */
export function offerCopy(label, text) {
  put(byId("copied-name"), label);
  byId("copied").value = text;
  byId("copy").showModal();
  byId("copied").select();
}

/** Shows a sentence in an element, or hides it. */
export function say(/** @type {"gone" | "trouble" | "says-past"} */ id, /** @type {string} */ words) {
  put(byId(id), words);
  byId(id).hidden = words === "";
}

/** Pixels of a rem, which the reader's own font size sets. */
export const remPixels = () => parseFloat(getComputedStyle(document.documentElement).fontSize);
