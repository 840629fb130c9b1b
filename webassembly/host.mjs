// Runs a WebAssembly module of vecmon as a process of node, 18 or later: node host.mjs MODULE.wasm [ARGUMENT]...
//
// The module reads arguments and files and writes output by the functions of `host` (runtime.c). Each returns a negative error number of
// Linux for a failure. The exit status is that of the program. Other hosts, such as a page, implement these functions themselves; where
// `read` has to wait for input, they can suspend the program by the module's functions asyncify_* (docs/WEBASSEMBLY.md).
import fs from "node:fs";
import path from "node:path";

const NO_SEEK = -29; // ESPIPE
const OTHER_FAULT = -5; // EIO

const [, , file, ...userArguments] = process.argv;
if (!file) {
  console.error("usage: node host.mjs MODULE.wasm [ARGUMENT]...");
  process.exit(2);
}
const programArguments = [path.basename(file, ".wasm"), ...userArguments].map((argument) => Buffer.from(argument));
let memory;

/** The module's bytes from an address on. The memory can grow at each call, which detaches earlier views. */
const bytes = (address, size) => new Uint8Array(memory.buffer, address >>> 0, size >>> 0);

/** The path at an address, which ends with a zero byte. */
function pathAt(address) {
  const start = address >>> 0;
  const all = new Uint8Array(memory.buffer);
  return Buffer.from(all.slice(start, all.indexOf(0, start)));
}

/** The result of a system call, or its negative error number. */
function attempt(call) {
  try {
    return call();
  } catch (error) {
    if (typeof error.code !== "string") throw error;
    return error.errno < 0 ? error.errno : OTHER_FAULT;
  }
}

const host = {
  argument(index, address, size) {
    const argument = programArguments[index];
    if (!argument) return -1;
    if (argument.length <= size) bytes(address, argument.length).set(argument);
    return argument.length;
  },
  open: (address, flags, mode) => attempt(() => fs.openSync(pathAt(address), flags, mode)),
  read: (descriptor, address, size) => attempt(() => fs.readSync(descriptor, bytes(address, size))),
  write: (descriptor, address, size) => attempt(() => fs.writeSync(descriptor, bytes(address, size))),
  close: (descriptor) => attempt(() => fs.closeSync(descriptor) ?? 0),
  seek: () => BigInt(NO_SEEK), // node has no lseek
  truncate: (descriptor, size) => attempt(() => fs.ftruncateSync(descriptor, Number(size)) ?? 0),
  stat: (address, numbers) =>
    attempt(() => {
      const found = fs.statSync(pathAt(address), { bigint: true });
      new BigUint64Array(memory.buffer, numbers, 4).set([found.dev, found.ino, found.mode, found.size]);
      return 0;
    }),
  link: (address, target, size) =>
    attempt(() => {
      const found = fs.readlinkSync(pathAt(address), { encoding: "buffer" }).subarray(0, size);
      bytes(target, found.length).set(found);
      return found.length;
    }),
};

const module = new WebAssembly.Module(fs.readFileSync(file));
const program = new WebAssembly.Instance(module, { host }).exports;
memory = program.memory;
process.exitCode = program.run();
