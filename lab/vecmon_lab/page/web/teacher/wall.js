// A page for a projector: the vectors and the program of the seat that the teacher has put there.

import { LiveMachine } from "../seat/live_machine.js";
import { elementsIn, part, put } from "../common/dom.js";
import { Panes } from "../panels/panes.js";
import { textOf } from "../common/texts.js";

export class Wall {
  seat = "";

  constructor(/** @type {HTMLElement} */ root) {
    this.root = root;
    this.live = new LiveMachine(root, async () => null);
    new Panes(root, "wall").show("listing");
    for (const each of elementsIn(root, ".missing")) put(each, each.closest(".vectors") ? textOf("wall.no-machine") : "");
    document.title = textOf("page.named", { name: textOf("wall.name") });
  }

  /** @type {import("../types").RolePage["show"]} */
  show({ seat, state }, logs, isAnew) {
    const seatText = state?.run === "running" ? textOf("wall.running", { seat }) : textOf("wall.seat", { seat });
    put(part(this.root, "who"), seat ? seatText : textOf("wall.none"));
    part(this.root, "desk").hidden = !seat;
    if (seat) this.live.show(seat, state, { number: 0 }, [], isAnew || seat !== this.seat);
    this.seat = seat;
  }
}
