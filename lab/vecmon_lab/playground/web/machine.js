// vecmon.wasm as a process that is asked synchronously: when it would wait for input, its stack is unwound into its memory
// (binaryen's Asyncify), and wound up again with the next lines (docs/WEBASSEMBLY.md).

/** @typedef {Record<string, Uint8Array>} Files contents by path */
/** @typedef {{ content: Uint8Array, place: number }} OpenFile */

const STACK_BYTES = 65536; // of the unwound stack
const PAGE_BYTES = 65536;
// States of Asyncify
const UNWINDING = 1;
const REWINDING = 2;
const NO_FILE = -2; // ENOENT of Linux
const NO_SEEK = -29; // ESPIPE of Linux
// File descriptors
const INPUT = 0;
const FIRST_FILE = 3;
const INPUT_PATH = "/dev/stdin";

/** A process of the program; its status is null until it has ended. */
export class Machine {
  /** @type {Map<number, OpenFile>} */ opened = new Map();
  /** @type {OpenFile} */ input = { content: new Uint8Array(), place: 0 };
  /** @type {Uint8Array[]} */ output = [];
  /** @type {number | null} */ status = null;
  place = 0; // of the stack; 0 while there is none

  /** @param {WebAssembly.Module} module @param {string[]} words its arguments @param {Files} files */
  constructor(module, words, files) {
    this.files = files;
    this.words = ["vecmon", ...words].map((word) => new TextEncoder().encode(word));
    const { exports } = new WebAssembly.Instance(module, { host: /** @type {any} its functions, by name */ (this) });
    this.program = /** @type {import("./playground").MachineExports} */ (/** @type {unknown} */ (exports));
    this.run(); // to its first read
  }

  /** The answers to lines, in bytes; null if the process has ended. */
  ask(/** @type {Uint8Array} */ lines) {
    if (this.status !== null) return null;
    this.input = { content: lines, place: 0 };
    this.output = [];
    this.program.asyncify_start_rewind(this.stack);
    this.run();
    const all = new Uint8Array(this.output.reduce((size, part) => size + part.length, 0));
    let place = 0;
    for (const part of this.output) {
      all.set(part, place);
      place += part.length;
    }
    return all;
  }

  /** Runs the program until it waits for lines, or ends. */
  run() {
    const status = this.program.run();
    if (this.program.asyncify_get_state() === UNWINDING) this.program.asyncify_stop_unwind();
    else this.status = status;
  }

  bytes = (/** @type {number} */ address, /** @type {number} */ size) =>
    new Uint8Array(this.program.memory.buffer, address >>> 0, size >>> 0);

  /** The place of the unwound stack, in pages of its own. */
  get stack() {
    if (!this.place) {
      this.place = this.program.memory.grow(1 + STACK_BYTES / PAGE_BYTES) * PAGE_BYTES;
      new Uint32Array(this.program.memory.buffer, this.place, 2).set([this.place + 8, this.place + 8 + STACK_BYTES]);
    }
    return this.place;
  }

  argument = (/** @type {number} */ index, /** @type {number} */ address, /** @type {number} */ size) => {
    const word = this.words[index];
    if (!word) return -1;
    if (word.length <= size) this.bytes(address, word.length).set(word);
    return word.length;
  };

  open = (/** @type {number} */ address) => {
    const memory = new Uint8Array(this.program.memory.buffer, address >>> 0);
    const path = new TextDecoder().decode(memory.slice(0, memory.indexOf(0)));
    if (path === INPUT_PATH) return INPUT;
    if (!this.files[path]) return NO_FILE;
    const descriptor = FIRST_FILE + this.opened.size;
    this.opened.set(descriptor, { content: this.files[path], place: 0 });
    return descriptor;
  };

  read = (/** @type {number} */ descriptor, /** @type {number} */ address, /** @type {number} */ size) => {
    const file = this.opened.get(descriptor) ?? this.input;
    if (file === this.input && this.program.asyncify_get_state() === REWINDING) this.program.asyncify_stop_rewind();
    const part = file.content.subarray(file.place, file.place + size);
    if (file === this.input && !part.length) this.program.asyncify_start_unwind(this.stack);
    this.bytes(address, part.length).set(part);
    file.place += part.length;
    return part.length;
  };

  write = (/** @type {number} */ descriptor, /** @type {number} */ address, /** @type {number} */ size) =>
    this.output.push(this.bytes(address, size).slice()) && size;

  close = () => 0;

  seek = (/** @type {number} */ descriptor, /** @type {bigint} */ offset, /** @type {0 | 1 | 2} */ whence) => {
    const file = this.opened.get(descriptor);
    if (!file) return BigInt(NO_SEEK);
    file.place = Number(offset) + [0, file.place, file.content.length][whence];
    return BigInt(file.place);
  };
}
