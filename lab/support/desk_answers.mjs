// The messages of the playground's desk under node: node desk_answers.mjs WEB PARTS < REQUESTS
//
// WEB is the folder of the page's modules, PARTS has the parts of the page (support/site.py). REQUESTS is a list in JSON: requests of a
// page, or {"image": NAME, "path": FILE}. The output is a list: the greeting, and for each request its answer and the news after it.
import fs from "node:fs";
import path from "node:path";

const [, , web, parts] = process.argv;
const { Machine } = await import(path.resolve(web, "machine.js"));
const { Python } = await import(path.resolve(web, "python.js"));
const part = (name) => fs.readFileSync(path.join(parts, name));
const module = new WebAssembly.Module(part("machine"));
const machines = new Map();
const files = {};
const pythonFiles = { "later.zip": part("later") };
const kept = {};
const host = {
  start: (number, words) => machines.set(number, new Machine(module, words, files)),
  machine: (number, lines) => machines.get(number)?.ask(lines) ?? null,
  end: (number) => machines.delete(number),
  file(name, content) {
    files[name] = content;
    pythonFiles[name.slice(1)] = content;
  },
  keep(entry) {
    const [name, text, when] = JSON.parse(entry);
    if (text === null) delete kept[name];
    else kept[name] = [text, when];
  },
  complain: (text) => process.stderr.write(text),
  now: () => Date.now(),
  ticks: () => performance.now(),
  random: (bytes) => crypto.getRandomValues(bytes),
};
for (const [name, text] of Object.entries(JSON.parse(part("lessons")))) pythonFiles[name] = Buffer.from(text);
const start = () => new Python(new WebAssembly.Module(part("python")), host, pythonFiles, part("memory"));
let python = start();
const sent = [[python.answer({ begin: {} })[0]]];
for (const [place, request] of JSON.parse(fs.readFileSync(0)).entries()) {
  if (request.reload) {
    python.answer({ turn: true, keep: true });
    python = start();
    sent.push([python.answer({ begin: kept })[0]]);
    continue;
  }
  if (request.path) pythonFiles.dropped = fs.readFileSync(request.path);
  const message = request.path ? { image: request.image, path: "/dropped" } : { request: JSON.stringify({ id: place + 1, ...request }) };
  let [answer, isBusy] = python.answer(message);
  const messages = [answer];
  while (isBusy) {
    [answer, isBusy] = python.answer({ turn: true });
    messages.push(answer);
  }
  sent.push(messages);
}
process.stdout.write(JSON.stringify(sent));
