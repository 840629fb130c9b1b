// The sentence on a script's room, by hand.

import assert from "node:assert/strict";
import test from "node:test";
import { roomText } from "../../../vecmon_lab/page/web/editor/room.js";

test("the room of a script is shown below a tenth of the share", () => {
  assert.equal(roomText({ of: 1500000, used: 2403 }), "");
  assert.equal(roomText({ of: 1500000, used: 1350000 }), "");
  assert.equal(roomText({ of: 1500000, used: 1350001 }), "149,999 bytes of the script's room are left.");
  assert.equal(roomText({ of: 1500000, used: 1500300 }), "0 bytes of the script's room are left.");
});
