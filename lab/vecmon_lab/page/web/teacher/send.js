// The teacher's form to send a message, or a source that is offered or replaces others; to one seat, some, or all.

import { Editor } from "../editor/editor.js";
import { byId, elementsIn, make, put, renew, timeText } from "../common/dom.js";
import { offerLanguages } from "../editor/languages.js";
import { MOST_LETTERS } from "../editor/source_state.js";
import { textOf } from "../common/texts.js";

/** @typedef {import("../messages").TeacherView} TeacherView */

const SHOWN = 3; // names in a sentence, and messages in the list of those sent
/** The button and the preview of a message, for its receivers. */
/** @type {Record<"message" | "offer" | "replace", [button: (to: string) => string, preview: (to: string) => string]>} */
const KINDS = {
  message: [(to) => textOf("send.message", { to }), (to) => textOf("send.message.preview", { to })],
  offer: [(to) => textOf("send.offer", { to }), (to) => textOf("send.offer.preview", { to })],
  replace: [(to) => textOf("send.replace", { to }), (to) => textOf("send.replace.preview", { to })],
};

/** The radio buttons of a group, whose value is that of the chosen one. */
const group = (/** @type {"to" | "how"} */ name) => /** @type {RadioNodeList} */ (byId("sending").elements.namedItem(name));

/** A button that takes back a message, by its number, or without one the source that was given. */
/** @type {(what: string, value: string) => HTMLElement} */
const backButton = (what, value) =>
  Object.assign(make("button", "", textOf("teacher.take-back")), { ariaLabel: textOf("send.take-back.label", { what }), value });

export class Send {
  constructor(/** @type {import("./teacher").Teacher} */ teacher) {
    this.teacher = teacher;
    byId("given").value = sessionStorage.getItem("given") ?? ""; // as before a reload
    /** @type {Editor} */
    this.given = new Editor(byId("given"), () => this.typed(), byId("given-language"));
    byId("show-message").onclick = () => this.opened(byId("words"));
    byId("show-gift").onclick = () => this.opened(this.given.code);
    byId("take").onclick = () => {
      this.given.put(teacher.shoulder.source.editor.source);
      teacher.shoulder.panes.show("gift");
    };
    byId("seats").onchange = () => this.choose(this.choices.chosen.length ? "chosen" : "one");
    byId("sending").oninput = () => this.paint();
    byId("sending").onsubmit = () => this.submit();
    byId("sent").onclick = ({ target }) => target instanceof HTMLButtonElement && this.takeBack(Number(target.value));
  }

  /** Keeps the source to give, until the tab is closed. */
  typed() {
    const { text, language } = this.given.source;
    sessionStorage.setItem("given", text.slice(0, MOST_LETTERS));
    sessionStorage.setItem("given-language", `${language}`);
    this.paint();
  }

  /** Goes on from a key of a tab to its field; a tab that was clicked keeps the focus. */
  opened(/** @type {{ focus(): void }} */ field) {
    if (!document.activeElement?.matches('[role="tab"]')) field.focus();
    this.paint();
  }

  choose(/** @type {string} */ to) {
    group("to").value = to;
    this.paint();
  }

  /** The seats of each choice. */
  /** @returns {Record<string, string[]>} */
  get choices() {
    const { roster, shoulder } = this.teacher;
    const [all, waiting] = [roster.rows, roster.waiting].map((rows) => rows.map(({ seat }) => seat));
    const chosen = roster.rows.filter(({ box }) => box.checked).map(({ seat }) => seat);
    return { one: shoulder.seat ? [shoulder.seat] : [], chosen, waiting, all };
  }

  /** Names of seats in a sentence; an empty list means all. */
  names(/** @type {string[]} */ seats) {
    if ([0, this.teacher.roster.rows.length].includes(seats.length)) return textOf("teacher.all-seats");
    const more = seats.length - SHOWN;
    const names = seats.slice(0, SHOWN).map((seat) => this.teacher.withName(seat)).join(", ");
    return more > 0 ? textOf("send.more", { names, more }) : names;
  }

  /** The kind of message: a text, or a source that is offered or replaces others. */
  get kind() { return byId("gift").hidden ? "message" : /** @type {"offer" | "replace"} */ (group("how").value); }

  /** Shows the receivers, the effect on them, and on the button their number. */
  paint() {
    const { choices, kind } = this;
    const seats = choices[group("to").value];
    const { one, chosen, waiting, all } = choices;
    const looked = one.length ? this.names(one) : textOf("teacher.no-seat");
    const some = textOf("send.chosen", { number: chosen.length });
    const needy = textOf("send.waiting", { number: waiting.length });
    const labels = [looked, some, needy, textOf("send.all", { number: all.length })];
    elementsIn(byId("receivers"), "span").forEach((label, place) => put(label, labels[place]));
    const [button, preview] = KINDS[kind];
    const changed = seats.filter((seat) => this.teacher.seatOf(seat).changed).length;
    const loss = kind === "replace" && changed ? ` ${textOf("send.changed", { count: changed })}` : "";
    put(byId("preview"), seats.length ? `${preview(this.names(seats))}${loss}` : textOf("send.nobody"));
    put(byId("send-it"), button(seats.length === 1 ? this.names(seats) : textOf("send.students", { count: seats.length })));
    byId("send-it").disabled = !seats.length || !(kind === "message" ? byId("words").value : this.given.source.text).trim();
  }

  async submit() {
    const how = this.kind;
    const receivers = { seats: this.choices[group("to").value] };
    const title = byId("gift-title").value;
    /** @type {import("../types").Request} */
    const what = how === "message" ? { ask: "write", text: byId("words").value } : { ask: "give", ...this.given.source, how, title };
    const answer = await this.teacher.request({ ...what, ...receivers });
    if (!answer || answer.error) return;
    if (how === "message") Object.assign(byId("words"), { value: "" }).focus(); // the button is off without a text
    put(byId("sent-says"), "");
    this.paint();
    byId("sent").firstElementChild?.scrollIntoView({ block: "nearest" }); // with the button that takes it back
  }

  /** Shows the messages that were sent last, with those who have read them, and the source that was given last. */
  show(/** @type {TeacherView} */ view) {
    const { sent, given } = view;
    offerLanguages(byId("given-language"), view);
    this.paint();
    const items = Object.keys(sent).slice(-SHOWN).reverse().map((number) => this.item(number, sent[number]));
    const words = given ? textOf("send.replaced", { ...this.countsOf(given.replaced, given.seats), names: this.names(given.seats) }) : "";
    renew(byId("sent"), given ? [make("li", "given", words, backButton(words, "")), ...items] : items);
  }

  /** The numbers of a sentence: of editors that had another text, and of all that got the source. */
  /** @type {(count: number, seats: string[]) => { count: number, all: number }} */
  countsOf = (count, seats) => ({ count, all: seats.length || this.teacher.roster.rows.length });

  /** @type {(number: string, notice: import("../messages").SentNotice) => HTMLElement} */
  item(number, { time, text, offer, to, read, opened }) {
    const offered = offer?.title ? textOf("send.offered-title", { title: offer.title }) : textOf("send.offered");
    const what = text ? `“${text}”` : offered;
    const numbers = { read: read.length, all: to.length };
    const seen = offer ? textOf("send.opened", { ...numbers, opened: opened.length }) : textOf("send.read", numbers);
    const words = Object.assign(make("span", "", `${timeText(time)} ${this.names(to)}: ${what}, ${seen}`), { title: read.join(", ") });
    return make("li", "", words, read.length < to.length ? backButton(what, number) : "");
  }

  /** Takes back a message; or without a number the source that was given last, if no student has changed it since. */
  async takeBack(/** @type {number} */ number) {
    const seats = this.teacher.view.given?.seats ?? [];
    const receivers = seats.length ? { seats } : { seat: "" };
    const answer = await this.teacher.request(number ? { ask: "unsend", number } : { ask: "take-back", ...receivers });
    if (!answer || answer.error) return;
    const { replaced: count, read = [] } = answer;
    const words = read.length ? textOf("send.read-before", { names: this.names(read) }) : textOf("send.taken-back");
    put(byId("sent-says"), count === undefined ? words : textOf("send.restored", this.countsOf(count, seats)));
    this.opened(this.kind === "message" ? byId("words") : this.given.code); // the button with the focus goes
  }
}
