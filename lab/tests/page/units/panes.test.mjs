// The arrangement of panes that a browser keeps.
import assert from "node:assert/strict";
import { test } from "node:test";
import { keptArrangement } from "../../../vecmon_lab/page/web/panels/panes.js";

const NONE = { sizes: {}, folded: {} };

/** The arrangement that a page takes up from a text in the browser's storage. */
function kept(text) {
  globalThis.localStorage = { getItem: () => text };
  return keptArrangement("panes");
}

test("sizes and folds of this version are taken", () => {
  const text = '{"version": 1, "sizes": {"middle": 30.5}, "folded": {"dock": true}}';
  assert.deepEqual(kept(text), { sizes: { middle: 30.5 }, folded: { dock: true } });
});

test("another version, damaged text and refused storage give an empty arrangement", () => {
  for (const text of [null, '{"version": 2, "sizes": {"middle": 30}}', "{", "null", "7"]) assert.deepEqual(kept(text), NONE);
  globalThis.localStorage = { getItem: () => { throw new Error("refused"); } };
  assert.deepEqual(keptArrangement("panes"), NONE);
});
