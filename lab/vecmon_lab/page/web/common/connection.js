// The way to the class: one WebSocket, one request after the other, growing pauses where it is gone. Requests wait meanwhile.

import { offerFile } from "./dom.js";
import { Pending } from "./pending.js";
import { textOf } from "./texts.js";

/** @typedef {import("../types").Message} Message */
/** @typedef {import("../types").Connection} Channel */
/** @typedef {import("../types").Listener} Listener */
/** @typedef {import("../types").Request} Request */

const FIRST_PAUSE = 500; // ms
const LONGEST_PAUSE = 15000; // ms
const BEAT = 1500; // ms between questions whether the connection works
const MOST_UNANSWERED = 2; // beats until a connection counts as broken
const MOST_OPENING = 7; // beats until one that opens counts as broken
const CODE = /^[a-z0-9]{1,64}$/; // all codes that the name of a protocol takes
/** @type {Record<string, string>} */
const NAMES = {
  again: textOf("request.source"), answer: textOf("request.answer"), check: textOf("request.check"), lines: textOf("request.slices"),
  name: textOf("request.name"), open: textOf("request.exercise"), run: textOf("request.run"), source: textOf("request.source"),
  step: textOf("request.step"), draft: "", "last-instruction": "", read: "", shoulder: "", wall: "",
};
/** @type {Record<number, string>} */
const ENDINGS = { 4403: textOf("connection.invalid-code"), 4429: textOf("connection.too-many-tabs") }; // by the code of a closed socket

/** The name of a lost request in a message; "" if its sender repeats it. */
export function nameOf(/** @type {Request} */ request) {
  if (request.ask === "edit") return `${request.edit} ${request.text}`;
  const lines = request.ask === "lines" ? (request.do ?? []) : [];
  const some = lines.length > 4 ? textOf("request.lines", { line: lines[0], more: lines.length - 1 }) : lines.join(", ");
  return some || (NAMES[request.ask] ?? request.ask);
}

/** A name for a page that no other page has: 32 hexadecimal digits. */
const newName = () => [...crypto.getRandomValues(new Uint8Array(16))].map((byte) => byte.toString(16).padStart(2, "0")).join("");

/** @implements {Channel} */
export class Connection {
  isReady = false;
  ahead = 0;
  pause = FIRST_PAUSE;
  lost = ""; // what is said of a request that may not have been executed
  unanswered = 0; // beats since the last message
  page = newName();
  pending = new Pending(); // whose first request is under way
  isUnderWay = false; // whether it was sent
  /** @type {WebSocket | null} */ socket = null;

  constructor(/** @type {string} */ code, /** @type {Listener} */ listener) {
    this.code = code;
    this.listener = listener;
    this.open();
    setInterval(() => this.beat(), BEAT);
  }

  open() {
    const shown = CODE.test(this.code) ? ["vecmon", `vecmon-code.${this.code}`] : []; // a flooded server serves it first
    const socket = new WebSocket(`${location.protocol.replace("http", "ws")}//${location.host}/socket`, shown);
    Object.assign(this, { socket, unanswered: 0 });
    socket.addEventListener("open", () => this.send({ code: this.code, page: this.page }));
    socket.addEventListener("message", ({ data }) => this.socket === socket && this.hear(JSON.parse(data)));
    socket.addEventListener("close", ({ code }) => this.socket === socket && this.closed(code));
  }

  /** Asks whether the connection works; one that doesn't answer is closed, since a browser may not see for minutes that it broke. */
  beat() {
    if (!this.socket) return;
    if (this.unanswered >= (this.isReady ? MOST_UNANSWERED : MOST_OPENING)) return this.closed();
    this.unanswered++;
    if (this.isReady) this.send({ ask: "beat" });
  }

  /** Sends a request; a socket that is closing takes none, and the connection after it gets those that aren't answered. */
  send(/** @type {object} */ request) {
    if (this.socket?.readyState === WebSocket.OPEN) this.socket.send(JSON.stringify(request));
  }

  hear(/** @type {Message} */ message) {
    this.unanswered = 0;
    if (message.kind === "beat") return;
    if (message.kind === "hello") this.resume(message);
    this.listener.told(message);
    if (message.kind === "answer" && this.pending.settle(message)) this.isUnderWay = false;
    this.next();
  }

  /** Takes the connection up: a server that knows the page executes a request once, also if it is sent again. */
  resume(/** @type {Message} */ { time = 0, resumed = false }) {
    const words = this.isUnderWay && !resumed && nameOf(this.pending.drop(1)[0]);
    this.lost = words ? textOf("connection.lost", { request: words }) : "";
    Object.assign(this, { isReady: true, isUnderWay: false, pause: FIRST_PAUSE });
    this.ahead = time - Date.now() / 1000; // seconds that the server's clock is ahead of this one
    this.listener.gone(this.lost && textOf("connection.back", { lost: this.lost }));
  }

  /** @type {Channel["ask"]} */
  ask(request) {
    const { answer } = this.pending.add(request);
    if (!this.isReady) this.tell();
    else if (this.lost && nameOf(request)) {
      this.lost = "";
      this.listener.gone("");
    }
    this.next();
    return answer;
  }

  /** @type {Channel["download"]} */
  async download(place, name) {
    const headers = { Authorization: `Bearer ${this.code}` };
    const answer = await fetch(place, { headers }).catch(() => null);
    if (!answer?.ok) return false;
    offerFile(name, await answer.blob());
    return true;
  }

  /** Sends the first request that waits, unless one is under way. */
  next() {
    if (!this.isReady || this.isUnderWay || !this.pending.size) return;
    this.isUnderWay = true;
    this.send(this.pending.requests[0]);
  }

  closed(reason = 0) {
    this.socket?.close();
    Object.assign(this, { socket: null, isReady: false });
    if (ENDINGS[reason]) return this.listener.ended(ENDINGS[reason]);
    setTimeout(() => this.open(), this.pause * (0.75 + Math.random() / 2));
    this.pause = Math.min(LONGEST_PAUSE, this.pause * 2);
    return this.tell();
  }

  /** Says that the server is gone, and what waits for it. */
  tell() {
    const names = this.pending.requests.map(nameOf).filter(Boolean);
    const requests = names.length > 4 ? [...names.slice(0, 4), "…"] : names;
    this.listener.gone(names.length ? textOf("connection.waiting", { requests: requests.join(", ") }) : textOf("connection.gone"));
  }
}
