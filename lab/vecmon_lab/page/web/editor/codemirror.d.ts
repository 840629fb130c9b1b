// The parts of CodeMirror 5 that the pages use: https://codemirror.net/5/doc/manual.html

export interface Position {
  line: number; // from 0 on
  ch: number;
}

export interface Stream {
  string: string;
  pos: number;
  sol(): boolean;
  eatSpace(): boolean;
  indentation(): number;
  skipToEnd(): void;
  next(): string | void;
  current(): string;
  match(pattern: RegExp, consume?: boolean): string[] | null;
}

export interface Mode<State> {
  startState(): State;
  token(stream: Stream, state: State): string | null;
  blankLine?(state: State): void;
  indent?(state: State, textAfter: string): number;
  electricInput?: RegExp;
  lineComment?: string;
  closeBrackets?: string;
}

export interface Change {
  from: Position;
  to: Position;
  text: string[];
  origin?: string;
}

export interface Hint {
  text: string;
  displayText?: string;
  render?(element: HTMLElement, data: HintList, own: Hint): void;
}

export interface HintList {
  list: Hint[];
  from: Position;
  to: Position;
  selectedHint?: number;
}

export interface HintHandle {
  data: HintList;
  setFocus(place: number): void;
  pick(): void;
}

export interface LineHandle {
  text: string;
}

export interface Clearable {
  clear(): void;
}

export interface Mark extends Clearable {
  find(): { from: Position; to: Position } | undefined; // undefined: the text is gone, or the mark is cleared
}

export interface Editor {
  lineAtHeight(height: number, mode: "window" | "page" | "local"): number;
  addLineClass(line: number, where: "text" | "background" | "wrap" | "gutter", kind: string): LineHandle;
  addLineWidget(line: number, node: HTMLElement, options?: object): Clearable;
  defaultCharWidth(): number; // px
  changeGeneration(ends?: boolean): number; // ends: whether the next change is undone apart
  clearHistory(): void;
  closeHint(): void;
  execCommand(name: string): void;
  focus(): void;
  hasFocus(): boolean;
  getCursor(): Position;
  getGutterElement(): HTMLElement;
  getInputField(): HTMLElement;
  getLine(line: number): string;
  getLineHandle(line: number): LineHandle | null;
  getLineNumber(line: LineHandle): number | null; // null: the line isn't in the text anymore
  getOption(name: string): unknown;
  getScrollInfo(): { clientWidth: number };
  getRange(from: Position, to: Position): string;
  getValue(): string;
  getWrapperElement(): HTMLElement;
  historySize(): { undo: number; redo: number };
  indentSelection(how: "add" | "subtract"): void;
  lastLine(): number;
  lineCount(): number;
  markText(from: Position, to: Position, options: object): Mark;
  on(event: "beforeChange", heard: (editor: Editor, change: Change) => unknown): void;
  on(event: "change", heard: (editor: Editor, change: Change) => unknown): void;
  on(event: "changes", heard: (editor: Editor, changes: Change[]) => unknown): void;
  on(event: "gutterClick", heard: (editor: Editor, line: number) => unknown): void;
  on(event: "keydown" | "keypress", heard: (editor: Editor, event: KeyboardEvent & { codemirrorIgnore?: boolean }) => unknown): void;
  on(event: "cursorActivity" | "focus" | "blur" | "mousedown", heard: (editor: Editor) => unknown): void;
  operation<Result>(perform: () => Result): Result;
  posFromIndex(index: number): Position;
  refresh(): void;
  removeLineClass(line: LineHandle, where: "text" | "background" | "wrap" | "gutter", kind?: string): void;
  replaceRange(text: string, from: Position, to: Position, origin?: string): void;
  scrollIntoView(position: Position, margin?: number): void;
  scrollTo(x: number | null, y: number | null): void;
  setCursor(position: Position): void;
  setGutterMarker(line: number | LineHandle, gutter: string, marker: HTMLElement | null): LineHandle;
  setOption(name: string, value: unknown): void;
  setSelection(anchor: Position, head: Position, options?: object): void;
  setValue(text: string): void;
  showHint(options: object): void;
  somethingSelected(): boolean;
  state: { completionActive?: { widget: { selectedHint: number } } | null }; // selectedHint: -1 without a selected one
}

export const CodeMirror: {
  fromTextArea(field: HTMLTextAreaElement, options: object): Editor;
  defineMode<State>(name: string, make: (options: { indentUnit: number }) => Mode<State>): void;
  Pass: object; // returned by a key's function that leaves the key to others
};
