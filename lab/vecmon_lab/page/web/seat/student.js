// A student's page: the bench, and what a class adds: the seat, a name, messages of the teacher, exercises, and work to take home.

import { Bench } from "./bench.js";
import { button, byId, make, put, timeText } from "../common/dom.js";
import { Exercises } from "./exercises.js";
import { listenToKeys } from "../common/keys.js";
import { placePast } from "./past.js";
import { StartPage } from "./start_page.js";
import { textOf } from "../common/texts.js";

/** @typedef {import("../messages").Notice} Notice */

const MOST_WAITING = 5; // requests: keys that repeat faster are left out

export class Student {
  seat = "";
  /** @type {{ [number: string]: Notice }} */ messages = {};
  /** @type {StartPage | undefined} */ start; // of an author

  /** @param {HTMLElement} root of all its parts @param {import("../types").Connection} connection */
  constructor(root, connection) {
    this.connection = connection;
    this.bench = new Bench(root, connection);
    this.exercises = new Exercises(this.bench);
    this.root = root;
    placePast(root);
    byId("vectors").append(byId("welcome"));
    byId("step-once").onclick = async () => (await this.bench.step("into"))?.mistakes?.length || this.bench.panes.show("vectors");
    byId("open-first").onclick = () => this.exercises.open();
    byId("show-welcome").onclick = () => this.welcome(true);
    byId("all-messages").onclick = () => {
      byId("all-messages").ariaPressed = `${byId("all-messages").ariaPressed !== "true"}`;
      this.showMessages();
    };
    byId("name").onchange = () => this.bench.request({ ask: "name", name: byId("name").value });
    byId("home").onclick = () => this.takeHome();
    byId("hand").onclick = () => this.bench.request({ ask: "hand", up: byId("hand").ariaPressed !== "true" });
    const mayPress = () => connection.pending.size < MOST_WAITING;
    const keys = listenToKeys(root, (words) => put(byId("key-says"), words), () => true, mayPress);
    byId("show-reference").onclick = () => byId("keys").replaceChildren(...keys());
    const name = sessionStorage.getItem("name"); // that was typed with the code
    sessionStorage.removeItem("name");
    if (name) this.bench.request({ ask: "name", name });
  }

  /** Saves what there is to take home, which takes a while to be made. */
  async takeHome() {
    byId("home").disabled = true;
    const isThere = await this.connection.download(`${this.seat}/home`, `${this.seat}.zip`);
    byId("home").disabled = false;
    this.bench.refuse(isThere ? "" : textOf("student.nothing-to-take"));
  }

  /** @type {import("../types").RolePage["show"]} */
  show(view, logs, isAnew) {
    const isFirst = !this.seat && view.state.run === "absent" && !view.source.text;
    this.seat = view.seat;
    const title = view.title || textOf("student.seat", { seat: view.seat });
    document.title = textOf("page.named", { name: title });
    put(byId("who"), title);
    if (view.title) byId("home").title = textOf("student.take-home.title");
    if (view.messages !== this.messages) this.showMessages(view.messages);
    byId("welcome").hidden = Boolean(view.title);
    if (isFirst && !view.title) this.welcome(true);
    if (logs[view.seat]) this.welcome(false);
    byId("hand").ariaPressed = `${Boolean(view.hand)}`;
    put(byId("hand"), view.hand ? textOf("hand.raised") : textOf("hand.raise"));
    if (document.activeElement !== byId("name")) byId("name").value = view.name;
    if (view.examples) {
      this.start ??= new StartPage(this.root, this.bench, view);
      this.start.show(view);
    }
    this.bench.show(view, logs[view.seat] ?? [], isAnew);
    this.exercises.show(view.exercises, view.source);
    const wanted = this.connection.takeWanted?.() ?? "";
    if (Object.hasOwn(view.exercises, wanted)) this.exercises.open(wanted);
    else if (wanted) this.bench.refuse(textOf("exercises.unknown", { name: wanted }));
    byId("log").ariaLive = "polite";
  }

  /** Shows whether there is a connection; once there is one again, the reason why a key did nothing goes. */
  showConnection() {
    if (this.connection.isReady) put(byId("key-says"), "");
    this.bench.bar.paint();
  }

  /** Shows what to do first in place of the elements, or the elements again. */
  welcome(/** @type {boolean} */ isShown) {
    byId("machine").classList.toggle("welcoming", isShown);
    if (isShown) this.bench.panes.show("vectors");
  }

  /** Shows messages of the teacher's that aren't read, each until it is closed or its source is opened; or all of them. */
  showMessages(messages = this.messages) {
    this.messages = messages;
    byId("all-messages").hidden = !Object.keys(messages).length;
    const shown = Object.entries(messages).filter(([, { read }]) => !read || byId("all-messages").ariaPressed === "true");
    byId("notices").replaceChildren(...shown.map(([number, notice]) => this.item(Number(number), notice)));
  }

  /** A message with its buttons. */
  item(/** @type {number} */ number, /** @type {Notice} */ { time, text, offer, read }) {
    const offered = offer?.title ? textOf("messages.offer-title", { title: offer.title }) : textOf("messages.offer");
    const said = text ? textOf("messages.text", { text }) : offered;
    const closeLabel = textOf("messages.close.label", { said });
    const openLabel = textOf("messages.open.label", { said });
    const close = button(textOf("dialog.close"), closeLabel, () => this.connection.ask({ ask: "read", number }));
    const open = button(textOf("messages.open"), openLabel, () => this.connection.ask({ ask: "open", number }));
    const buttons = [...(offer ? [open] : []), ...(read ? [] : [close])];
    return make("li", read ? "read" : "", make("small", "", timeText(time)), make("span", "", said), ...buttons);
  }
}
