// The start page of the site: a loop that is stepped through stored frames, and the text about the machine.

import { byId, make, prose, put } from "../../page/web/common/dom.js";
import { Lanes } from "../../page/web/elements/lanes.js";
import { afterEach } from "../../page/web/common/patches.js";
import { inOrder } from "../../page/web/panels/rows.js";
import { textOf } from "../../page/web/common/texts.js";
import { withNames } from "../../page/web/common/words.js";

/** @typedef {import("../../page/web/types").MachineState} MachineState */

/**
 * states: each a merge patch of the one before; first: the place of the one that is shown first
 * @type {{ about: string, notes: string[], states: object[], used: number[], first: number }}
 */
const { about, notes, ...data } = JSON.parse(byId("data").text);
/** @type {MachineState[]} */
const states = afterEach(data.states);
const lanes = new Lanes(byId("vectors"));
const addresses = inOrder(Object.keys(states[0].code));
const lines = addresses.map((address) => make("li", "", withNames(states[0].code[address].slice(9), true)));
let place = 0;

/** Shows a frame: its instruction, its elements and the last comment. */
function show(/** @type {number} */ wanted) {
  place = Math.max(0, Math.min(states.length - 1, wanted));
  const state = states[place];
  const note = notes.slice(0, place + 1).findLast(Boolean) ?? "";
  lanes.show({ state, before: states[place - 1] ?? state, used: new Set(data.used), hasAbiNames: true });
  put(byId("sentence"), note, prose(note));
  put(byId("count"), textOf("site.place", { number: place + 1, all: states.length }));
  lines.forEach((line, number) => (line.ariaCurrent = addresses[number] === state.instruction ? "step" : null));
  Object.assign(byId("back"), { disabled: place === 0 });
  Object.assign(byId("next"), { disabled: place === states.length - 1 });
}

byId("listing").append(make("ol", "", ...lines));
byId("about").textContent = about;
byId("back").addEventListener("click", () => show(place - 1));
byId("next").addEventListener("click", () => show(place + 1));
show(data.first);
