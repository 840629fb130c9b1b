// The reader's preferences, which the browser stores as JSON. If it refuses to, a choice holds only for the page.

const TEXT_SIZE = "vecmon-text-size";
const LINE_TYPES = "vecmon-line-types";

/** The stored value of a key; null without one, or if it is damaged. */
/** @type {(key: string) => any} */
export function stored(key) {
  try {
    return JSON.parse(localStorage.getItem(key) ?? "null");
  } catch {
    return null;
  }
}

/** Stores a value. */
/** @type {(key: string, value: unknown) => void} */
export function store(key, value) {
  try {
    localStorage.setItem(key, JSON.stringify(value));
  } catch {}
}

/** Offers the sizes of text that a list has, and applies the stored one. */
export function offerTextSizes(/** @type {HTMLSelectElement} */ list) {
  const apply = () => (document.documentElement.style.fontSize = list.value);
  list.value = stored(TEXT_SIZE) ?? list.value;
  list.addEventListener("change", () => {
    store(TEXT_SIZE, list.value);
    apply();
  });
  apply();
}

/** Offers vector types next to the lines of a source by a box, and applies the stored choice. */
export function offerLineTypes(/** @type {HTMLInputElement} */ box) {
  const apply = () => document.documentElement.classList.toggle("untyped", !box.checked);
  box.checked = stored(LINE_TYPES) ?? true;
  box.addEventListener("change", () => {
    store(LINE_TYPES, box.checked);
    apply();
  });
  apply();
}
