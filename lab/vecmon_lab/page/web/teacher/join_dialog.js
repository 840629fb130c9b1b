// How students join: the address, names and codes of seats, which are there only while they are shown, and the sheet to print.

import { ask, button, byId, elementsIn, header, link, make, put } from "../common/dom.js";
import { textOf } from "../common/texts.js";

export class JoinDialog {
  address = "";
  /** @type {Record<string, { name: HTMLInputElement, code: HTMLElement, turn: HTMLButtonElement }>} */ rows = {}; // of seats and the wall

  constructor(/** @type {import("./teacher").Teacher} */ teacher) {
    this.teacher = teacher;
    byId("show-codes").onclick = () => this.showAll();
    byId("open-sheet").onclick = () => this.openSheet();
    byId("print").onclick = () => print();
    byId("close-sheet").onclick = () => this.showSheet();
  }

  /** Adds a row for a seat, or for the wall: its student's name, and its code, a link where it is shown. */
  addRow(/** @type {string} */ seat) {
    const isWall = seat === "wall";
    const whose = isWall ? textOf("codes.wall") : textOf("teacher.seat-name", { seat });
    const field = { maxLength: 40, ariaLabel: textOf("codes.name.label", { whose }), autocomplete: "off", hidden: isWall };
    const name = Object.assign(make("input", ""), field);
    name.onchange = () => this.teacher.request({ ask: "name", seat, name: name.value }).then(() => this.showNames());
    const code = make("td", "");
    const change = () => (code.textContent ? this.showCodes({ [seat]: "" }) : this.teacher.request({ ask: "codes", seat }));
    const turn = button(textOf("codes.show"), textOf("codes.show.label", { whose }), change);
    const renew = () => ask(textOf("codes.loss", { whose }), textOf("codes.new"), () => this.teacher.request({ ask: "renew", seat }));
    const buttons = [turn, button(textOf("codes.new"), textOf("codes.new.label", { whose }), renew)].map((each) => make("td", "", each));
    const row = make("tr", "", header("row", isWall ? textOf("wall.name") : seat), make("td", "", name), code, ...buttons);
    row.dataset.code = seat;
    byId("codes").append(row);
    return { name, code, turn };
  }

  /** Shows the names of seats, and the address that students open, with its QR code. */
  async show(/** @type {import("../messages").TeacherView} */ { address }) {
    for (const name of [...this.teacher.roster.rows.map(({ seat }) => seat), "wall"].sort()) this.rows[name] ??= this.addRow(name);
    this.showNames();
    if (!address || address === this.address) return;
    this.address = address;
    const answer = await this.teacher.connection.ask({ ask: "codes", seat: "wall", pictures: true });
    const picture = { src: answer?.pictures?.[""] ?? "", alt: textOf("codes.address.label", { address }) };
    for (const box of elementsIn(document, ".address"))
      box.replaceChildren(link(address, address), Object.assign(make("img", ""), picture));
  }

  showNames() {
    for (const { seat, told } of this.teacher.roster.rows)
      if (document.activeElement !== this.rows[seat].name) this.rows[seat].name.value = told.name;
  }

  /** Shows codes by seat, with the address that they belong to; in place of an empty one nothing. */
  showCodes(/** @type {Record<string, string>} */ codes) {
    for (const [seat, code] of Object.entries(codes)) {
      put(this.rows[seat].code, code, code ? [link(`${this.address}#${code}`, code)] : []);
      put(this.rows[seat].turn, code ? textOf("codes.hide") : textOf("codes.show"));
    }
  }

  /** Shows all codes, or none where some are shown. */
  showAll() {
    const shown = Object.keys(this.rows).filter((seat) => this.rows[seat].code.textContent);
    if (!shown.length) this.teacher.request({ ask: "codes", seat: "" });
    this.showCodes(Object.fromEntries(shown.map((seat) => [seat, ""])));
  }

  async openSheet() {
    const answer = await this.teacher.connection.ask({ ask: "codes", seat: "", pictures: true });
    if (answer?.codes) this.showSheet(answer.codes, answer.pictures);
  }

  /** Shows a sheet with a slip for each seat, in place of the rest of the page; without any it is closed, and nothing is left of it. */
  /** @type {(codes?: Record<string, string>, pictures?: Record<string, string>) => void} */
  showSheet(codes = {}, pictures = {}) {
    const slips = Object.entries(codes).filter(([seat]) => seat !== "wall").map(([seat, code]) => {
      const picture = { src: pictures[seat], alt: textOf("codes.picture.label", { seat }) };
      const head = [textOf("student.seat", { seat }), this.teacher.seatOf(seat).name].filter(Boolean).join(", ");
      const text = make("div", "", make("h2", "", head), make("p", "", this.address), make("code", "", code));
      return make("li", "", pictures[seat] ? Object.assign(make("img", ""), picture) : "", text);
    });
    byId("slips").replaceChildren(...slips);
    byId("sheet-says").hidden = this.address !== "";
    byId("join-class").close();
    document.body.classList.toggle("printing", slips.length > 0);
  }
}
