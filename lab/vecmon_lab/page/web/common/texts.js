// Texts of the page's language: in place of a key, the builder of pages puts in its text, or its plural forms.

/** @typedef {import("../text_keys").Places} Places */
/** @typedef {string | number | Node} Value */

/**
 * Returns the text of a key in pieces, with values in its places, which may be elements. The value of `count` selects a plural form.
 * @type {<Key extends keyof Places>(key: Key, ...values: import("../text_keys").Values<Key, Value>) => (string | Node)[]}
 */
export function contentOf(key, ...[values]) {
  const given = /** @type {Record<string, Value>} */ (values ?? {});
  const forms = /** @type {string | Record<string, string>} */ (key);
  const text = typeof forms === "string" ? forms : (forms[PLURALS.select(Number(given.count))] ?? forms.other);
  return text.split(/(\{\w+\})/).map((piece) => {
    const value = piece.startsWith("{") ? given[piece.slice(1, -1)] : piece;
    return typeof value === "number" ? `${value}` : value;
  });
}

/**
 * Returns the text of a key, with values in its places.
 * @type {<Key extends keyof Places>(key: Key, ...values: import("../text_keys").Values<Key, string | number>) => string}
 */
export const textOf = (key, ...values) => contentOf(key, ...values).join("");

const PLURALS = new Intl.PluralRules(textOf("language"));
