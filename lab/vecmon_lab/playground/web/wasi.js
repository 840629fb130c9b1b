// The part of WASI (preview 1) that CPython uses: read-only files in memory, clocks, and standard error.

// Values of errno
const OK = 0;
const BAD_FILE = 8;
const NO_FILE = 44;
const NOT_SUPPORTED = 52;
const NO_SEEK = 70;
// Types of files
const DEVICE = 2;
const FOLDER = 3;
const FILE = 4;
const ROOT = 3; // the only folder that is open at the start
const ALL_RIGHTS = 0xffffffffffffffffn;

/** The functions of WASI for a program. `memory` is set once there is one. */
export class Wasi {
  memory = /** @type {WebAssembly.Memory} */ (/** @type {unknown} */ (null)); // which its module has
  /** @type {Map<number, { path: string, place: number }>} */ opened = new Map([[ROOT, { path: "", place: 0 }]]);
  next = ROOT + 1;

  /**
   * @param {Record<string, Uint8Array>} files contents by path, without a slash before it
   * @param {Pick<import("./playground").Host, "now" | "ticks" | "random" | "complain">} host
   */
  constructor(files, host) {
    this.files = files;
    this.host = host;
  }

  /** The imports of a module; those that this class doesn't have return ENOTSUP. */
  imports(/** @type {WebAssembly.Module} */ module) {
    const own = /** @type {Record<string, any>} by name, since the module says which it calls */ (/** @type {unknown} */ (this));
    const names = WebAssembly.Module.imports(module).filter((each) => each.module === "wasi_snapshot_preview1");
    return Object.fromEntries(names.map(({ name }) => [name, own[name] ?? (() => NOT_SUPPORTED)]));
  }

  /** @type {(address: number, size: number) => Uint8Array} */
  bytes = (address, size) => new Uint8Array(this.memory.buffer, address, size);

  get data() { return new DataView(this.memory.buffer); }

  /** The result of something that is done. */
  done = (/** @type {unknown} */ _) => OK;

  /** @type {(address: number, value: number) => number} */
  number = (address, value) => this.done(this.data.setUint32(address, value, true));

  /** @type {(address: number, value: number | bigint) => number} */
  large = (address, value) => this.done(this.data.setBigUint64(address, BigInt(value), true));

  /** @type {(address: number, size: number) => string} */
  text = (address, size) => new TextDecoder().decode(this.bytes(address, size).slice());

  /** The path that a program names from the only open folder on. */
  /** @type {(address: number, size: number) => string} */
  path = (address, size) => this.text(address, size).split("/").filter((part) => part && part !== ".").join("/");

  /** The path of an open file or folder. */
  pathOf = (/** @type {number} */ descriptor) => this.opened.get(descriptor)?.path ?? "";

  /** The names in a folder; null if it is none. */
  /** @type {(path: string) => string[] | null} */
  names(path) {
    const start = path && `${path}/`;
    const inside = Object.keys(this.files).filter((file) => file.startsWith(start));
    return inside.length || !path ? [...new Set(inside.map((file) => file.slice(start.length).split("/")[0]))] : null;
  }

  /** @type {(path: string) => number | null} */
  kind = (path) => (this.files[path] ? FILE : this.names(path) && FOLDER);

  /** The kind of the open file or folder; undefined if the descriptor isn't open. */
  openKind = (/** @type {number} */ descriptor) =>
    descriptor < ROOT ? DEVICE : this.opened.has(descriptor) && this.kind(this.pathOf(descriptor));

  /** @type {(kind: number | false | null, path: string, address: number) => number} */
  status(kind, path, address) {
    if (!kind) return NO_FILE;
    this.bytes(address, 64).fill(0);
    this.data.setUint8(address + 16, kind);
    return this.large(address + 24, 1) || this.large(address + 32, this.files[path]?.length ?? 0);
  }

  /** Parts of memory that a list names: an address and a size each. */
  /** @type {(address: number, count: number) => Uint8Array[]} */
  parts(address, count) {
    const place = (/** @type {number} */ number) => this.data.getUint32(address + 4 * number, true);
    return Array.from({ length: count }, (_, part) => this.bytes(place(2 * part), place(2 * part + 1)));
  }

  /** @type {(count: number, size: number) => number} */
  environ_sizes_get = (count, size) => this.number(count, 0) || this.number(size, 0);

  /** @type {(descriptor: number, address: number) => number} */
  fd_prestat_get = (descriptor, address) =>
    descriptor === ROOT ? this.number(address, 0) || this.number(address + 4, 1) : BAD_FILE;

  /** @type {(descriptor: number, address: number) => number} */
  fd_prestat_dir_name = (descriptor, address) => this.done(this.bytes(address, 1).set([47]));

  /** @type {(descriptor: number, address: number) => number} */
  fd_fdstat_get = (descriptor, address) => {
    const kind = this.openKind(descriptor);
    if (!kind) return BAD_FILE;
    this.bytes(address, 24).fill(0);
    this.data.setUint8(address, kind);
    return this.large(address + 8, ALL_RIGHTS) || this.large(address + 16, ALL_RIGHTS);
  };

  /** @type {(descriptor: number, address: number) => number} */
  fd_filestat_get = (descriptor, address) =>
    this.openKind(descriptor) ? this.status(this.openKind(descriptor), this.pathOf(descriptor), address) : BAD_FILE;

  /** @type {(folder: number, flags: number, address: number, size: number, to: number) => number} */
  path_filestat_get = (folder, flags, address, size, to) => {
    const path = this.path(address, size);
    return this.status(this.kind(path), path, to);
  };

  /** @param {number[]} values the folder, how to look up, address and size of the path, three kinds of rights and flags, and a place */
  path_open = (...values) => {
    const [, , address, size, , , , , to] = values;
    const path = this.path(address, size);
    if (!this.kind(path)) return NO_FILE;
    this.opened.set(this.next, { path, place: 0 });
    return this.number(to, this.next++);
  };

  /** @type {(descriptor: number, address: number, count: number, to: number) => number} */
  fd_read = (descriptor, address, count, to) => {
    const file = this.opened.get(descriptor);
    if (!file) return this.number(to, 0);
    const start = file.place;
    for (const part of this.parts(address, count)) {
      const given = this.files[file.path].subarray(file.place, file.place + part.length);
      part.set(given);
      file.place += given.length;
    }
    return this.number(to, file.place - start);
  };

  /** @type {(descriptor: number, address: number, count: number, to: number) => number} */
  fd_write = (descriptor, address, count, to) => {
    const parts = this.parts(address, count);
    for (const part of parts) this.host.complain(new TextDecoder().decode(part.slice()));
    return this.number(to, parts.reduce((size, part) => size + part.length, 0));
  };

  /** @type {(descriptor: number, offset: bigint, whence: number, to: number) => number} */
  fd_seek = (descriptor, offset, whence, to) => {
    const file = this.opened.get(descriptor);
    if (!file || descriptor < ROOT) return NO_SEEK;
    file.place = Number(offset) + [0, file.place, this.files[file.path]?.length ?? 0][whence];
    return this.large(to, file.place);
  };

  /** @type {(descriptor: number, to: number) => number} */
  fd_tell = (descriptor, to) => this.fd_seek(descriptor, 0n, 1, to);

  /** @type {(descriptor: number) => number} */
  fd_close = (descriptor) => this.done(this.opened.delete(descriptor));

  /** The bytes of an entry of a folder; its cookie is that of the next one. */
  /** @type {(name: string, place: number, kind: number) => number[]} */
  entry(name, place, kind) {
    const head = new DataView(new ArrayBuffer(24));
    const letters = new TextEncoder().encode(name);
    head.setBigUint64(0, BigInt(place + 1), true);
    head.setUint32(16, letters.length, true);
    head.setUint8(20, kind);
    return [...new Uint8Array(head.buffer), ...letters];
  }

  /** @type {(descriptor: number, address: number, size: number, cookie: bigint, to: number) => number} */
  fd_readdir = (descriptor, address, size, cookie, to) => {
    const path = this.pathOf(descriptor);
    const names = this.names(path) ?? [];
    const entries = names.map((name, place) => this.entry(name, place, this.kind(path ? `${path}/${name}` : name) ?? 0));
    const read = Uint8Array.from(entries.slice(Number(cookie)).flat()).subarray(0, size);
    this.bytes(address, read.length).set(read);
    return this.number(to, read.length);
  };

  /** @type {(clock: number, precision: bigint, to: number) => number} */
  clock_time_get = (clock, precision, to) =>
    this.large(to, BigInt(Math.round((clock === 0 ? this.host.now() : this.host.ticks()) * 1000)) * 1000n);

  /** @type {(address: number, size: number) => number} */
  random_get = (address, size) => this.done(this.host.random(this.bytes(address, size)));

  /** @type {(status: number) => never} */
  proc_exit = (status) => {
    throw new Error(`Python ended with ${status}`);
  };
}
