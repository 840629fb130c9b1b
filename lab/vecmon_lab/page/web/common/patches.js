// Merge patches: a message as the change of the one before.

/** @typedef {Record<string, unknown>} Fields */

/** @type {(value: unknown) => value is Fields} */
const isObject = (value) => value !== null && typeof value === "object" && !Array.isArray(value);

/** The value after a merge patch (RFC 7396); the old value stays unchanged. */
/** @type {(value: unknown, patch: unknown) => any} of the type of the messages that make it up */
export function patched(value, patch) {
  if (!isObject(patch)) return patch;
  const result = isObject(value) ? { ...value } : {};
  for (const [key, part] of Object.entries(patch)) {
    if (part === null) delete result[key];
    else result[key] = patched(result[key], part);
  }
  return result;
}

/** The values after each of several patches in turn. */
export function afterEach(/** @type {unknown[]} */ patches) {
  /** @type {any} */ let value; // none before the first one
  return patches.map((patch) => (value = patched(value, patch)));
}
