// The connection of a page: beats, requests that wait, and what is sent again.
import assert from "node:assert/strict";
import { test } from "node:test";
import { Connection } from "../../../vecmon_lab/page/web/common/connection.js";

const HELLO = { kind: "hello", who: "A1", time: 0 };

/** A connection whose sockets, timers and listener are kept in lists. */
function begin(code = "code") {
  const sockets = [];
  const timers = [];
  const banners = [];
  globalThis.location = { protocol: "http:", host: "here" };
  globalThis.WebSocket = class WebSocket extends EventTarget {
    static OPEN = 1;
    readyState = WebSocket.OPEN;
    sent = [];
    constructor(_, protocols) {
      super();
      this.protocols = protocols;
      sockets.push(this);
    }
    send(text) {
      this.sent.push(JSON.parse(text));
    }
    close() {}
    hear(message) {
      this.dispatchEvent(Object.assign(new Event("message"), { data: JSON.stringify(message) }));
    }
  };
  globalThis.setTimeout = (again) => timers.push(again);
  globalThis.setInterval = (beat, ms) => timers.push({ beat, ms });
  const connection = new Connection(code, { told: () => {}, gone: (words) => banners.push(words), ended: () => {} });
  return { connection, sockets, timers, banners };
}

test("the request of a socket shows the code, unless that isn't the name of a protocol", () => {
  const { sockets: [shown] } = begin("wj4kq8ht2mznd3");
  assert.deepEqual(shown.protocols, ["vecmon", "vecmon-code.wj4kq8ht2mznd3"]);
  for (const code of ["", "a b", "é", "a".repeat(65)]) assert.deepEqual(begin(code).sockets[0].protocols, []);
});

const isRequest = ({ ask }) => ask && ask !== "beat";

test("a silent connection is reported within five seconds, and a request is sent again with its number", () => {
  const { connection, sockets: [first], sockets, timers, banners } = begin();
  first.hear(HELLO);
  connection.ask({ ask: "name", name: "Ada" });
  const [{ beat, ms }] = timers.splice(0, 1);
  beat();
  first.hear({ kind: "beat" });
  let passed = 0; // ms since the last answer
  for (; banners.at(-1) === ""; passed += ms) beat();
  assert.ok(passed <= 5000, `${passed} ms`);
  assert.equal(banners.at(-1), "The server is gone. This page tries again by itself. Waiting: the name.");
  connection.ask({ ask: "lines", do: ["regs"] });
  assert.match(banners.at(-1), /Waiting: the name, regs\.$/);
  timers.splice(0, 1)[0]();
  const [, second] = sockets;
  second.hear({ ...HELLO, resumed: true });
  assert.deepEqual(second.sent.filter(isRequest), [{ id: 1, ask: "name", name: "Ada" }]);
  second.hear({ kind: "answer", id: 1 });
  assert.deepEqual(second.sent.filter(isRequest).at(-1), { id: 2, ask: "lines", do: ["regs"] });
  assert.equal(banners.at(-1), "");
});

test("a server that was restarted gets no request that was under way, but those that wait", async () => {
  const { connection, sockets: [first], sockets, timers, banners } = begin();
  first.hear(HELLO);
  const step = connection.ask({ ask: "step" });
  connection.ask({ ask: "lines", do: ["regs"] });
  first.dispatchEvent(Object.assign(new Event("close"), { code: 1006 }));
  timers.at(-1)();
  sockets[1].hear(HELLO);
  assert.equal(await step, null);
  assert.deepEqual(sockets[1].sent.filter(isRequest), [{ id: 2, ask: "lines", do: ["regs"] }]);
  assert.equal(banners.at(-1), "The server is there again. a step was under way: the console shows whether it was executed.");
});

test("a socket that is closing takes no request, and the next one gets it", () => {
  const { connection, sockets: [first], sockets, timers } = begin();
  first.hear(HELLO);
  first.readyState = 2; // closing
  connection.ask({ ask: "name", name: "Ada" });
  timers[0].beat();
  assert.deepEqual(first.sent.filter(({ ask }) => ask), []);
  connection.closed();
  timers.pop()();
  sockets[1].hear({ ...HELLO, resumed: true });
  assert.deepEqual(sockets[1].sent.filter(isRequest).map(({ name }) => name), ["Ada"]);
});
