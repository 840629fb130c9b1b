// Lists to choose from. Of the languages of a source, the first one is the assembler, all others take a compiler.

import { make, renew } from "../common/dom.js";
import { textOf } from "../common/texts.js";

/** Offers names below a list's title, if there are any. */
/** @type {(list: HTMLSelectElement, title: string, names: string[]) => void} */
export function offer(list, title, names) {
  renew(list, [title, ...names].map((name) => make("option", "", name)));
  Object.assign(list, { hidden: !names.length, selectedIndex: 0 });
}

/** Offers languages once; C is hidden in a class or page that takes none, and the list's title says why. */
/** @type {(select: HTMLSelectElement, view: { languages: string[], no_c: string }) => void} */
export function offerLanguages(select, { languages, no_c: why }) {
  if (select.length === languages.length) return;
  select.replaceChildren(...languages.map((name) => make("option", "", name)));
  for (const [number, option] of [...select.options].entries()) {
    const isOff = number > 0 && why !== "";
    Object.assign(option, { hidden: isOff, disabled: isOff });
  }
  select.title = why ? textOf("languages.no-c", { why }) : "";
  select.selectedIndex = Number(sessionStorage.getItem(select.id)); // as before a reload
}
