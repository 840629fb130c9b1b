// Runs vecmon.wasm on a script whose lines arrive one at a time: node suspended.mjs MODULE.wasm SCRIPT
//
// The program is suspended in each read for which there is no line yet, as in a page (docs/WEBASSEMBLY.md); its output is printed.
import fs from "node:fs";

const STACK_BYTES = 65536; // for the frames that are unwound
const NORMAL = 0;
const UNWINDING = 1;
const REWINDING = 2;
const [, , file, script] = process.argv;

const lines = fs.readFileSync(script, "latin1").split(/(?<=\n)/);
let input = null; // the bytes of a line; null while the program has to wait
let suspensions = 0;

const host = {
  argument: () => -1,
  read(descriptor, address, size) {
    if (program.asyncify_get_state() === REWINDING) program.asyncify_stop_rewind();
    if (!input) {
      program.asyncify_start_unwind(stack);
      return 0;
    }
    const part = input.subarray(0, size);
    new Uint8Array(program.memory.buffer, address, part.length).set(part);
    input = part.length < input.length ? input.subarray(part.length) : null;
    return part.length;
  },
  write: (descriptor, address, size) => fs.writeSync(descriptor, new Uint8Array(program.memory.buffer, address >>> 0, size)),
  open: () => -2,
  close: () => 0,
  seek: () => -29n,
  stat: () => -2,
};

/** Runs the program until it waits for a line or ends. Returns whether it waits. */
function run() {
  const status = program.run();
  if (program.asyncify_get_state() !== UNWINDING) {
    process.exitCode = status;
    return false;
  }
  program.asyncify_stop_unwind();
  suspensions++;
  return true;
}

const program = new WebAssembly.Instance(new WebAssembly.Module(fs.readFileSync(file)), { host }).exports;
const stack = program.memory.grow(1) * 65536;
new Uint32Array(program.memory.buffer, stack, 2).set([stack + 8, stack + STACK_BYTES]);
let isWaiting = run();
for (const line of [...lines, ""]) {
  if (!isWaiting) break;
  input = Buffer.from(line, "latin1");
  program.asyncify_start_rewind(stack);
  isWaiting = run();
}
if (isWaiting || program.asyncify_get_state() !== NORMAL || suspensions <= lines.length) {
  console.error(`the program isn't suspended once a line: ${suspensions} times for ${lines.length} lines`);
  process.exitCode = 1;
}
