// Types of the playground: texts that the browser stores, parts of the page, and messages between it and its worker.

import type { ExampleSource, Message } from "../../page/web/messages";

/** Texts by name, each with its time in seconds since 1970. */
export type Texts = Record<string, [text: string, time: number]>;

/** Texts that were changed, by name; null for a removed one. */
export type TextChanges = Record<string, Texts[string] | null>;

/** A text as the database has it. */
export interface Entry {
  name: string;
  text: string;
  time: number;
}

/** A compressed file of the page: at an address, or in base64 in the element of an id. */
export interface Part {
  url?: string;
  id?: string;
  base64?: string;
}

export type PartName = "python" | "memory" | "machine" | "lessons" | "later";
export type PageParts = Record<PartName, Part>;

/** What the page has in itself, next to its scripts. */
export interface PageData {
  files: PageParts;
  about: string;
  examples: ExampleSource[];
}

/** A message of the page to the worker. */
export interface ToWorker {
  parts?: PageParts;
  begin?: Texts;
  request?: string;
  keep?: boolean;
  turn?: boolean;
  image?: string;
  content?: ArrayBuffer;
  path?: string;
  lesson?: string;
  join?: TextChanges;
  forget?: boolean;
}

/** A message of the worker to the page: one of the class, or one of these kinds. */
export type FromWorker =
  | { kind: "keep"; entry: [name: string, text: string | null, time: number] }
  | { kind: "memory"; bytes: number }
  | { kind: "failed"; text: string }
  | { kind: "lesson"; page?: string; error?: string }
  | (Message & { kind: "hello"; lost: string[] })
  | (Message & { kind: "news"; joined?: true })
  | (Message & { kind: "answer" });

/** What Python asks of the page that it is in. */
export interface Host {
  start(number: number, words: string[]): unknown;
  machine(number: number, lines: Uint8Array): Uint8Array | null;
  end(number: number): unknown;
  file(path: string, content: Uint8Array): unknown;
  keep(entry: string): unknown;
  complain(text: string): unknown;
  now(): number;
  ticks(): number;
  random(bytes: Uint8Array): unknown;
}

/** What the module of the machine exports (docs/WEBASSEMBLY.md). */
export interface MachineExports {
  memory: WebAssembly.Memory;
  run(): number;
  asyncify_get_state(): number;
  asyncify_start_unwind(stack: number): void;
  asyncify_stop_unwind(): void;
  asyncify_start_rewind(stack: number): void;
  asyncify_stop_rewind(): void;
}

/** What the module of Python exports (webassembly/python.c). */
export interface PythonExports {
  memory: WebAssembly.Memory;
  _initialize(): void;
  begin(program: number): number;
  answer(message: number, size: number): number;
  answered(): number;
  room(size: number): number;
  settle(): void;
}
