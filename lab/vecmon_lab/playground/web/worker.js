// The worker of a page without a server: Python with the lab in it, and the machines that it asks.

import { Machine } from "./machine.js";
import { Python } from "./python.js";

/** @typedef {import("./playground").FromWorker} FromWorker */
/** @typedef {import("./playground").Part} Part */
/** @typedef {import("./playground").Texts} Texts */
/** @typedef {import("./playground").ToWorker} ToWorker */

const KEEP_PAUSE = 300; // ms after which what was done is saved
const { port1: bell, port2: rung } = new MessageChannel(); // between turns, so that requests come in
/** @type {Python} */
let python;
/** @type {WebAssembly.Module} */
let module;
/** @type {import("./playground").PageParts} */
let parts;
let isRinging = false;
let timer = 0; // until what was done is saved
/** @type {Map<number, Machine>} */
const machines = new Map();
/** @type {Record<string, Uint8Array>} */
const files = {}; // of machines, by path
/** @type {Record<string, Uint8Array>} */
const pythonFiles = {};

/** @type {import("./playground").Host} */
const host = {
  start: (number, words) => machines.set(number, new Machine(module, words, files)),
  machine: (number, lines) => machines.get(number)?.ask(lines) ?? null,
  end: (number) => machines.delete(number),
  file(path, content) {
    files[path] = content;
    pythonFiles[path.slice(1)] = content;
  },
  keep: (entry) => send({ kind: "keep", entry: JSON.parse(entry) }),
  complain: (text) => console.error(text),
  now: () => Date.now(),
  ticks: () => performance.now(),
  random: (bytes) => crypto.getRandomValues(bytes),
};

/** Send a message to the page. */
const send = (/** @type {FromWorker} */ message) => postMessage(message);

/** Send a message to Python, and its answer to the page. */
function give(/** @type {ToWorker} */ message) {
  const [answer, isBusy] = python.answer(message);
  if (answer.kind) send(answer);
  if (!isBusy || isRinging) return;
  isRinging = true;
  bell.postMessage(true);
}

/** A part of the page, from an address or in base64; both are compressed by gzip. */
async function load(/** @type {Part} */ { url, base64 = "" }, type = "") {
  const compressed = url ? await fetch(url) : new Response(Uint8Array.from(atob(base64), (letter) => letter.charCodeAt(0)));
  if (!compressed.ok) throw new Error(`${url}: ${compressed.status}`);
  return new Response(compressed.body?.pipeThrough(new DecompressionStream("gzip")), { headers: { "Content-Type": type } });
}

const bytesOf = async (/** @type {Part} */ part) => new Uint8Array(await (await load(part)).arrayBuffer());

/** Load pyelftools, which only images need. */
const loadLater = async () => (pythonFiles["later.zip"] ??= await bytesOf(parts.later));

async function begin(/** @type {Texts} */ texts) {
  const compiled = (/** @type {Part} */ part) => WebAssembly.compileStreaming(load(part, "application/wasm"));
  const modules = Promise.all([compiled(parts.python), compiled(parts.machine)]);
  const contents = Promise.all([bytesOf(parts.memory), bytesOf(parts.lessons)]);
  const [[code, machine], [memory, lessons]] = await Promise.all([modules, contents]);
  module = machine;
  for (const [path, text] of Object.entries(JSON.parse(new TextDecoder().decode(lessons))))
    pythonFiles[path] = new TextEncoder().encode(text);
  if (texts["A1.image"]) await loadLater();
  python = new Python(code, host, pythonFiles, memory);
  give({ begin: texts });
  send({ kind: "memory", bytes: python.memory.buffer.byteLength });
}

/** Takes a message of the page. */
async function take(/** @type {ToWorker} */ message) {
  if (message.parts) parts = message.parts;
  if (message.begin) return begin(message.begin);
  const { content, ...request } = message;
  if (content) {
    await loadLater();
    pythonFiles.dropped = new Uint8Array(content);
  }
  give(request);
  clearTimeout(timer);
  timer = setTimeout(() => attempt(() => give({ keep: true })), KEEP_PAUSE);
  return undefined;
}

/** Do something; report its failure to the page. */
async function attempt(/** @type {() => unknown} */ something) {
  try {
    await something();
  } catch (error) {
    send({ kind: "failed", text: `${/** @type {Error} */ (error).message ?? error}` });
  }
}

rung.onmessage = () => attempt(() => {
  isRinging = false;
  give({ turn: true });
});
onmessage = ({ data }) => attempt(() => take(data));
