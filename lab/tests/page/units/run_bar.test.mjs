// The names of keys, worked out by hand.

import assert from "node:assert/strict";
import test from "node:test";
import { keyOf, keyText } from "../../../vecmon_lab/page/web/common/keys.js";

/** A key that is pressed with others held: C for Ctrl, A for Alt, S for Shift, M for Meta. */
const press = (key, code = key, held = "") =>
  ({ key, code, ctrlKey: held.includes("C"), altKey: held.includes("A"), shiftKey: held.includes("S"), metaKey: held.includes("M") });

test("keys have the names of aria-keyshortcuts", () => {
  assert.equal(keyOf(press("F5")), "F5");
  assert.equal(keyOf(press("F5", "F5", "CS")), "Control+Shift+F5");
  assert.equal(keyOf(press("B", "KeyB", "CS")), "Control+Shift+B");
  assert.equal(keyOf(press("j", "KeyJ", "M")), "Control+J"); // Command on a Mac
  assert.equal(keyOf(press("Ó", "KeyH", "AS")), "Alt+Shift+H"); // Option makes another letter there
  assert.equal(keyText("Control+Shift+F5"), "Ctrl Shift F5");
});
