// CPython as a library (webassembly/python.c), from its start, or from a snapshot of its memory.

import { Wasi } from "./wasi.js";

const PAGE_BYTES = 65536;

/** Python with the lab in it, which answers messages and asks machines meanwhile. */
export class Python {
  /**
   * @param {WebAssembly.Module} module
   * @param {import("./playground").Host} host
   * @param {Record<string, Uint8Array>} files contents by path, without a slash before it
   * @param {Uint8Array | null} snapshot of the memory
   */
  constructor(module, host, files, snapshot = null) {
    const wasi = new Wasi(files, host);
    /** @type {Uint8Array | null} */
    let answers = null;
    /** @type {Record<string, (...values: number[]) => unknown>} */
    const own = {
      start: (number, address, size) => host.start(number, size ? wasi.text(address, size).split("\n") : []),
      machine(number, address, size) {
        answers = host.machine(number, wasi.bytes(address, size).slice());
        return answers ? answers.length : -1;
      },
      take: (address) => answers && wasi.bytes(address, answers.length).set(answers),
      end: (number) => host.end(number),
      file: (path, pathSize, content, size) => host.file(wasi.text(path, pathSize), wasi.bytes(content, size).slice()),
      keep: (address, size) => host.keep(wasi.text(address, size)),
    };
    const { exports } = new WebAssembly.Instance(module, { wasi_snapshot_preview1: wasi.imports(module), host: own });
    this.program = /** @type {import("./playground").PythonExports} */ (/** @type {unknown} */ (exports));
    this.memory = this.program.memory;
    wasi.memory = this.memory;
    if (!snapshot) this.program._initialize();
    const missing = Math.ceil(((snapshot?.length ?? 0) - this.memory.buffer.byteLength) / PAGE_BYTES);
    this.memory.grow(Math.max(0, missing));
    new Uint8Array(this.memory.buffer).set(snapshot ?? []);
  }

  /** Starts Python with a program; raises an error if it fails. Not for one from a snapshot. */
  begin(/** @type {string} */ program) {
    const status = this.program.begin(this.place(`${program}\0`)[0]);
    if (status) throw new Error(`Python can't be started: ${status}`);
  }

  /** The answer to a message, both in JSON, and whether there is more to do. */
  /** @type {(message: import("./playground").ToWorker) => [answer: any, isBusy: boolean]} the answer is of the class, or of no kind */
  answer(message) {
    const size = this.program.answer(...this.place(JSON.stringify(message)));
    if (size < 0) throw new Error("the lab has failed");
    return JSON.parse(new TextDecoder().decode(new Uint8Array(this.memory.buffer, this.program.answered(), size).slice()));
  }

  /** Puts a text into Python's memory; its address and size. */
  /** @type {(text: string) => [address: number, size: number]} */
  place(text) {
    const bytes = new TextEncoder().encode(text);
    const address = this.program.room(bytes.length + 1);
    new Uint8Array(this.memory.buffer, address, bytes.length).set(bytes);
    return [address, bytes.length];
  }
}
