// Starts Python, has it import the lab and do what a page does once, and writes its memory:
// node snapshot.mjs PYTHON.wasm VECMON.wasm PACKED LESSONS EXERCISES.pickle OUT
//
// PACKED is what pack.py wrote. OUT begins with the SHA-256 of PYTHON.wasm, to which the memory belongs. No time and no random number
// goes into it, so that the same files give the same bytes.
import crypto from "node:crypto";
import fs from "node:fs";
import path from "node:path";
import { Machine } from "./machine.js";
import { Python } from "./python.js";

const TIME = 1.7e12; // ms since 1970
const PROGRAM = `
import functools, logging, sys, types
logging.disable(logging.CRITICAL)  # of hashes that this Python doesn't have
UNUSED = {  # large modules that others import, and the lab in a page doesn't use; with the names that these take
    "datetime": dict.fromkeys(["date", "datetime", "time", "timedelta", "timezone", "tzinfo"], object),  # tomllib
    "decimal": {"Decimal": type("Decimal", (), {})},  # fractions
    "html.entities": {"html5": {}},  # html
    "inspect": {"signature": lambda it: ""},  # dataclasses
    "ntpath": {},  # pathlib
    "shutil": {},  # modules of the lab that look for programs
    "urllib.parse": {"quote_from_bytes": None},  # pathlib
}
for name, values in UNUSED.items():
    sys.modules[name] = types.ModuleType(name)
    vars(sys.modules[name]).update(values)
import dataclasses
dataclasses.dataclass = functools.partial(dataclasses.dataclass, repr=False)  # texts of objects are for developers
sys.path.append("/lab")
from vecmon_lab.playground.main import answer, prepare
prepare()
`;
const SOURCE = `# A loop.
start:  li t0, 3
loop:   vsetivli zero, 8, e32, m1, ta, ma
        vid.v v1
        vadd.vv v2, v1, v1
        addi t0, t0, -1
        bnez t0, loop
        ebreak
`;

/** The files below a folder, by path, in order. */
function filesIn(folder, start = "") {
  const entries = fs.readdirSync(path.join(folder, start), { withFileTypes: true }).sort((one, other) => (one.name < other.name ? -1 : 1));
  return entries.flatMap((entry) => {
    const name = path.join(start, entry.name);
    return entry.isDirectory() ? filesIn(folder, name) : [[name, fs.readFileSync(path.join(folder, name))]];
  });
}

const [, , python, vecmon, packed, lessons, exercises, out] = process.argv;
const module = new WebAssembly.Module(fs.readFileSync(vecmon));
const machines = new Map();
const host = {
  start: (number, words) => machines.set(number, new Machine(module, words, {})),
  machine: (number, lines) => machines.get(number)?.ask(lines) ?? null,
  end: (number) => machines.delete(number),
  file: () => {},
  keep: () => {},
  complain: (text) => process.stderr.write(text),
  now: () => TIME,
  ticks: () => 0,
  random: (bytes) => bytes.fill(0), // of a generator that nobody uses; codes come from the browser's own later
};
const files = {
  "lib.zip": fs.readFileSync(path.join(packed, "lib.zip")),
  "exercises.pickle": fs.readFileSync(exercises),
  ...Object.fromEntries(filesIn(path.join(packed, "lab")).map(([name, content]) => [`lab/${name}`, content])),
  ...Object.fromEntries(filesIn(lessons).map(([name, content]) => [`lessons/${name}`, content])),
};
const code = fs.readFileSync(python);
const lab = new Python(new WebAssembly.Module(code), host, files);
lab.begin(PROGRAM);

let id = 0;
const ask = (request) => lab.answer({ request: JSON.stringify({ id: ++id, ...request }) })[0];
const turns = () => { while (lab.answer({ turn: true })[1]); };
const [hello] = lab.answer({ begin: {} });
ask({ ask: "source", text: SOURCE });
for (const line of ["step 1", "step 1", "break 10008", "unbreak 10008", "unknown", "go"]) ask({ ask: "lines", do: [line], look: ["regs"] });
turns();
ask({ ask: "source", text: "bad x1\nvadd.vv v1, v2\n" });
for (const exercise of Object.keys(hello.patch.exercises).slice(0, 2)) {
  ask({ ask: "check", exercise, text: "  ret\n" });
  turns();
  lab.answer({ lesson: exercise });
}
lab.answer({ turn: true, keep: true });
lab.answer({ forget: true });
lab.program.settle();
const memory = new Uint8Array(lab.memory.buffer);
let size = memory.length;
while (size && !memory[size - 1]) size--;
fs.writeFileSync(out, Buffer.concat([crypto.createHash("sha256").update(code).digest(), memory.subarray(0, size)]));
