// The teacher's page: the list of seats, the seat that is looked at, what is sent, and the dialogs of the class.

import { byId, put, say } from "../common/dom.js";
import { JoinDialog } from "./join_dialog.js";
import { listenToKeys } from "../common/keys.js";
import { store, stored } from "../common/preferences.js";
import { Roster } from "./roster.js";
import { Send } from "./send.js";
import { Settings } from "./settings.js";
import { Shoulder } from "./shoulder.js";
import { textOf } from "../common/texts.js";

/** @typedef {import("../messages").TeacherView} TeacherView */

const LETTERS = "vecmon-letters"; // under this name the browser keeps whether keys of one letter are off

export class Teacher {
  view = /** @type {TeacherView} */ ({});

  /** @param {HTMLElement} root of all its parts @param {import("../types").Connection} connection */
  constructor(root, connection) {
    this.connection = connection;
    this.shoulder = new Shoulder(root, this);
    this.roster = new Roster(this);
    this.send = new Send(this);
    this.join = new JoinDialog(this);
    this.settings = new Settings(this);
    document.title = textOf("page.named", { name: textOf("teacher.page") });
    byId("teacher").hidden = false;
    byId("read").onclick = () => {
      sessionStorage.setItem("unencrypted", "read");
      byId("unencrypted").hidden = true;
    };
    byId("letters").checked = stored(LETTERS) !== "off";
    byId("letters").onchange = () => store(LETTERS, byId("letters").checked ? "on" : "off");
    const keys = listenToKeys(root, () => {}, () => byId("letters").checked);
    byId("show-keys").onclick = () => byId("teacher-keys").replaceChildren(...keys());
    root.addEventListener("click", ({ target }) => this.clicked(/** @type {Element} */ (target)));
  }

  /** Opens or closes a dialog, or saves a table, if a button does that. */
  clicked(/** @type {Element} */ target) {
    const { dialog, save } = target.closest("button")?.dataset ?? {};
    if (dialog) byId(/** @type {"settings"} or another dialog */ (dialog)).showModal();
    if (save) this.connection.download(`${save}.csv`, `${save}.csv`);
    if (target.matches(".done")) target.closest("dialog")?.close();
  }

  /** @type {import("../types").RolePage["show"]} */
  show(view, logs, isAnew) {
    const before = this.view;
    if (isAnew && before.shoulder) this.request({ ask: "shoulder", seat: before.shoulder }); // as before the connection broke
    if (isAnew && before.wall && !view.wall) this.request({ ask: "wall", seat: before.wall });
    this.view = view;
    put(byId("who"), view.class_title);
    byId("unencrypted").hidden = !view.unencrypted || sessionStorage.getItem("unencrypted") === "read";
    this.roster.show(view);
    this.shoulder.show(view, isAnew ? {} : before, logs[view.shoulder] ?? []);
    this.send.show(view);
    this.join.show(view);
    this.settings.show(view, logs, isAnew);
    this.showSummary(view);
  }

  /** Shows the number of used seats; while it is 0, first steps are there in place of the list. */
  showSummary(/** @type {TeacherView} */ { machines, wall, shoulder }) {
    const { rows, waiting } = this.roster;
    const used = rows.filter(({ row }) => !row.matches(".free")).length;
    const isRunning = Object.values(machines).some(({ clock }) => clock.on);
    const words = [textOf("teacher.used", { used, all: rows.length }), isRunning ? textOf("teacher.running") : textOf("teacher.clock-off")];
    if (wall) words.push(textOf("teacher.on-wall", { seat: this.withName(wall) }));
    put(byId("summary-says"), words.join(" · "));
    put(byId("help-count"), waiting.length ? `${waiting.length}` : "");
    const isStart = !used && !shoulder;
    if (isStart === byId("opening").hidden) this.send.choose(isStart ? "all" : "one");
    byId("opening").hidden = !isStart;
    byId("roster").hidden = isStart;
    byId("shoulder").hidden = isStart;
  }

  /** Looks at a seat, which comes into sight. */
  async lookAt(/** @type {string} */ seat) {
    if (seat !== this.view.shoulder) await this.request({ ask: "shoulder", seat });
    byId("shoulder").scrollIntoView({ block: "nearest" });
  }

  /** The server's time in seconds since 1970. */
  now = () => Date.now() / 1000 + this.connection.ahead;

  seatOf = (/** @type {string} */ seat) => this.view.machines[seat[0]].seats[seat[1]];

  /** A student's name with the seat, as `Nora (B6)`. */
  withName(/** @type {string} */ seat) {
    const { name } = this.seatOf(seat);
    return name ? `${name} (${seat})` : textOf("teacher.seat-name", { seat });
  }

  async request(/** @type {import("../types").Request} */ request) {
    const answer = await this.connection.ask(request);
    const isQuiet = ["shoulder", "wall"].includes(request.ask); // which are asked again of a new server
    if (answer?.error || (answer && !isQuiet)) say("gone", answer.error ?? "");
    if (answer?.codes) this.join.showCodes(answer.codes);
    return answer;
  }
}
