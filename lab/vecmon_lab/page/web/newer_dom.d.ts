// Parts of JavaScript and of the DOM that the pages use, and that the declarations of TypeScript 4.8 don't have.

interface Array<T> {
  findLast(predicate: (value: T, index: number, all: T[]) => unknown): T | undefined;
  findLastIndex(predicate: (value: T, index: number, all: T[]) => unknown): number;
}

interface Element {
  checkVisibility(): boolean;
}

interface Uint8ArrayConstructor {
  fromHex?(digits: string): Uint8Array;
}

declare class DecompressionStream {
  constructor(format: "gzip");
  readonly readable: ReadableStream<Uint8Array>;
  readonly writable: WritableStream<BufferSource>;
}

declare namespace WebAssembly {
  function compileStreaming(source: Response | PromiseLike<Response>): Promise<Module>;
}

interface ObjectConstructor {
  groupBy<Key extends PropertyKey, T>(items: Iterable<T>, keyOf: (item: T) => Key): Partial<Record<Key, T[]>>;
}
