// The types of messages. `.venv/bin/python -m support.message_types` writes this file from the lab's Python types.

/**
 * Consecutive bytes of memory that an instruction read or wrote.
 *
 * address: the address of the first byte, in hexadecimal digits; length: the number of bytes
 */
export interface Access {
  address: string;
  length: number;
  kind: "read" | "write";
}

/** Write the loaded source into a new machine, with the breakpoints, and with the case that is tried. */
export interface AgainRequest {
  id: number;
  ask: "again";
}

export interface AnswerCost {
  instructions: number;
  work: number;
}

/** The response to `{"ask":"beat"}`. */
export interface Beat {
  kind: "beat";
}

/** Set all breakpoints of a line of the loaded source, or remove those that are there. None is set if not all can be. */
export interface BreakpointRequest {
  id: number;
  ask: "breakpoint";
  /** Its number. A line without instructions has the breakpoints of the next line with one. */
  line: number;
  /** Whether breakpoints that are there stay. */
  set?: boolean;
}

/** Write a source into a new machine with the inputs of a case that isn't hidden. */
export interface CaseRequest {
  id: number;
  ask: "case";
  /** Its place in `cases`, from 0 on; by default the first failed one. */
  case?: number;
  exercise: string;
  text: string;
  language?: number;
  /** As in `source`. */
  breaks?: number[];
}

/** The result of a case of an exercise. name: the name of the case; passed: whether the answer passes it */
export interface CaseResult {
  name: string;
  passed: boolean;
}

/** Rows of a case's inputs and expected results, and notes on the state before it. */
export interface CaseRows {
  given: NumberRow[];
  expected: NumberRow[];
  notes: string[];
}

/**
 * A case of an exercise.
 *
 * name: the name of the case; hidden: whether the case is hidden; shown: its inputs and expected results; missing if it is hidden
 */
export interface CaseView {
  name: string;
  hidden: boolean;
  shown?: CaseRows;
}

export interface CheckFailure {
  seat: string;
  exercise: string;
  time: number;
  cause: string;
}

/** Check an answer to an exercise. Each seat has one check at a time. */
export interface CheckRequest {
  id: number;
  ask: "check";
  exercise: string;
  text: string;
  language?: number;
}

/**
 * The result of a check.
 *
 * mistakes: the mistakes of the source; then there are no cases; warnings: a compiler's warnings
 * cases: the result of each case; number, reason: the index of the first visible case that fails, and the reason why it fails
 * cause: the cause of the first wrong number in this case, if it is known
 * given, expected, found: rows of the inputs, the expected results and the results of this case; notes: sentences about the state before it
 * taken: the cost of an answer that passes; good: the cost of a good answer, if it is known
 * failure: the reason why the check itself failed, which doesn't depend on the source; then there are no cases
 * unchecked: a sentence for the student that the source wasn't checked, without the reason
 */
export interface CheckResult {
  failure?: string;
  unchecked?: string;
  mistakes?: Mistake[];
  warnings?: Mistake[];
  cases?: CaseResult[];
  number?: number;
  reason?: string;
  cause?: "left as it was" | "masked off" | "tail";
  notes?: string[];
  given?: NumberRow[];
  expected?: NumberRow[];
  found?: NumberRow[];
  taken?: AnswerCost;
  good?: AnswerCost;
}

/**
 * Set a machine's clock. Settings that are missing stay.
 *
 * It grants 1 to 1,000 `slices` at once, and waits 10 to 10,000 `ms` before. The server stops a program after about `limit` ticks
 * without a stop, 100,000 to 10^12.
 */
export interface ClockRequest {
  id: number;
  ask: "clock";
  machine: string;
  on?: boolean;
  slices?: number;
  ms?: number;
  limit?: number;
}

/** The settings of a machine's clock, as in `Settings`. */
export interface ClockView {
  on: boolean;
  slices: number;
  ms: number;
  limit: number;
}

/** Return the code of a seat or of `wall`. */
export interface CodesRequest {
  id: number;
  ask: "codes";
  /** The seat; "" for all but the teacher's. */
  seat: string;
  /** Whether to add pictures to print. */
  pictures?: boolean;
}

/** The response to `codes` and `renew`. */
export interface CodesResponse {
  patch?: { [name: string]: unknown };
  logs?: { [name: string]: string[] };
  kind: "answer";
  id: number;
  codes: { [name: string]: string };
  pictures?: { [name: string]: string };
}

/** Store the source that a student types: as the seat's source if number and exercise are still the seat's, else as a version. */
export interface DraftRequest {
  id: number;
  ask: "draft";
  text: string;
  language?: number;
  /** The number of the seat's source when this one was typed. */
  number: number;
  /** The exercise for which it was typed, by default the open one. */
  exercise?: string;
  /** Whether it becomes a version as well. */
  keep?: boolean;
  /** The number of the caret's line, for the teacher. */
  line?: number;
  /**
   * A name of the window, if another window has changed the source. With a number that the source doesn't have, the text becomes one
   * version, which later drafts by this name replace. With the source's number it becomes the source, and the one there a version.
   */
  window?: string;
}

/** Write a typed value to a place in the machine. */
export interface EditRequest {
  id: number;
  ask: "edit";
  /** `setpc`, `poke 20000`, `set x5`, or `vset v1 32 3 signed`: register, bits of an element (1 in a mask), index, and the shown form. */
  edit: string;
  /** The value as it was typed. */
  text: string;
  /** Whether the page shows scalar registers in decimal. */
  decimal?: boolean;
}

/** The response to a request that returns nothing. */
export interface EmptyResponse {
  patch?: { [name: string]: unknown };
  logs?: { [name: string]: string[] };
  kind: "answer";
  id: number;
}

/**
 * A source that the start page offers.
 *
 * group: the heading above it; name: the name of its file; about: a sentence about it, with backquotes around code
 * language: the number of its language
 */
export interface ExampleSource {
  group: string;
  name: string;
  title: string;
  about: string;
  text: string;
  language: number;
}

export interface ExerciseTable {
  title: string;
  of: number;
  seats: { [name: string]: SeatResult };
}

/**
 * An exercise on a student's page.
 *
 * number: its place among the exercises, from 1
 * starts: the sources to start with, the preferred one first: one in assembler, one in C, or both
 * unsigned: whether all numbers in the memory of its cases are unsigned, so that the page shows numbers in memory as unsigned
 * hints: the hints that the student may see; hint_count: the number of all hints; best: the most cases that passed in one try
 * told: the result of the last check; checking: whether an answer is being checked
 * before: the path of the lesson that comes before the exercise; "" if there is none
 * lesson: the path of a lesson on the case that failed first; "" if there is none
 */
export interface ExerciseView {
  number: number;
  title: string;
  before: string;
  text: string;
  starts: Start[];
  unsigned: boolean;
  cases: CaseView[];
  hints: string[];
  hint_count: number;
  tries: number;
  best: number;
  passed: boolean;
  checking: boolean;
  told: CheckResult;
  lesson: string;
}

/** Choose the exercises that students have from now on, out of those in `course`. */
export interface ExercisesRequest {
  id: number;
  ask: "exercises";
  /** Their names, in order. Others are off. */
  on: string[];
}

/** A frame of a lesson, with the fields of `Frame`. states: a merge patch of the states of the frame before, by user */
export interface FrameData {
  user: string;
  line: string;
  more: number;
  note: string;
  log: string[];
  states: { [name: string]: unknown };
}

/** Give a source, which isn't blank, to seats: `seat` is one, or "" for all, and `seats` a list of one or more in place of it. */
export interface GiveRequest {
  id: number;
  ask: "give";
  seat?: string;
  seats?: string[];
  text: string;
  language?: number;
  /** Whether it replaces the sources of the seats, the default, or is offered in a message. */
  how?: "replace" | "offer";
  /** The title of an offer, of at most 400 characters. */
  title?: string;
}

/**
 * The last source that was given to seats, while it can be taken back.
 *
 * seats: the names of the seats, none for all seats; replaced: the number of seats where it replaced another text
 */
export interface Given {
  seats: string[];
  replaced: number;
}

/** A raised hand: since when it is up, in seconds since 1970, and the student's text, which may be empty. */
export interface Hand {
  since: number;
  text: string;
}

/** Raise or lower the student's hand. */
export interface HandRequest {
  id: number;
  ask: "hand";
  /** A question for the teacher, of at most 400 characters. */
  text?: string;
  up: boolean;
}

/**
 * The first message to a tab. who: the seat, `teacher` or `wall`; time: in seconds since 1970
 *
 * resumed: whether the server knows the page, so that requests that are sent again are executed once; missing if it doesn't
 */
export interface Hello {
  patch?: { [name: string]: unknown };
  logs?: { [name: string]: string[] };
  kind: "hello";
  who: string;
  time: number;
  resumed?: boolean;
}

/**
 * The history of a seat's program.
 *
 * number: the number of the history; another program has a history with another number
 * end: the number of instructions that the program has executed; missing until they are counted
 */
export interface HistoryView {
  number: number;
  end?: number;
}

/** Complete `read` and `accessed` of the state after a run. */
export interface LastInstructionRequest {
  id: number;
  ask: "last-instruction";
}

/**
 * The data of a lesson's page: the names of its source, and its frames.
 *
 * text: the text of the source, as it was written
 * name: the name of a series and of the lesson in it; the browser stores under this name that the lesson was read
 * used: the registers that the lesson uses, by user
 * types: the vector types at the lines of an assembler source
 */
export interface LessonData {
  labels: { [name: string]: string[] };
  lines: { [name: string]: string };
  line_numbers?: { [name: string]: number };
  aliases?: { [name: string]: string };
  starts?: { [name: string]: number };
  stops?: { [name: string]: string[] };
  variables?: ShownVariable[];
  data?: { [name: string]: ShownData };
  frames: FrameData[];
  used?: { [name: string]: UsedRegisters };
  text?: string;
  types?: LineType[];
  name?: string;
}

/**
 * The vector types that may be in force from a line of a source on, up to the next line that has an entry.
 *
 * line: the number of the line, which sets the types itself, or whose first instruction is reached with them
 * types: the values of vtype, in hexadecimal digits; empty if vtype may have any value
 * vl: the value of vl; missing if it is unknown
 */
export interface LineType {
  line: number;
  types: string[];
  vl?: number;
}

/** Execute lines, grant slices to the student's own program, then execute read-only lines. */
export interface LinesRequest {
  id: number;
  ask: "lines";
  /** Lines without digits. */
  do?: string[];
  /** Lines that only look. */
  look?: string[];
  /** A number from 0 to 100. */
  slices?: number;
}

/** The response to lines. */
export interface LinesResponse {
  patch?: { [name: string]: unknown };
  logs?: { [name: string]: string[] };
  kind: "answer";
  id: number;
  do: string[][];
  look: string[][];
  words?: string[];
}

/** Compare the listing of a C source with that of another compiler. */
export interface ListingsRequest {
  id: number;
  ask: "listings";
  text: string;
  language?: number;
  /** The other compiler by its number in `against`. */
  other: number;
}

/** The response to `listings`. */
export interface ListingsResponse {
  patch?: { [name: string]: unknown };
  logs?: { [name: string]: string[] };
  kind: "answer";
  id: number;
  listings: string;
}

/** Lower a seat's hand. */
export interface LowerHandRequest {
  id: number;
  ask: "hand";
  seat: string;
}

/** Execute the teacher's lines at a machine. */
export interface MachineLinesRequest {
  id: number;
  ask: "lines";
  /** Lines without digits. */
  do?: string[];
  /** Lines that only look. */
  look?: string[];
  /** A number from 0 to 100. */
  slices?: number;
  machine: string;
}

/**
 * The teacher's view of a machine.
 *
 * seats: the seats by digit; script, lines: the numbers of bytes and of lines of the last script; of: the most bytes of a script
 * scripts: the number of scripts; digest: the SHA-256 of all answers
 * restarts: the number of restarts of the machine's process; loss: the reason of the last restart, or ""
 */
export interface MachineView {
  seats: { [name: string]: SeatView };
  clock: ClockView;
  own_slices: boolean;
  script: number;
  scripts: number;
  of: number;
  lines: number;
  digest: string;
  restarts: number;
  loss: string;
  trouble: string;
}

/**
 * A mistake or a warning at a place in a source.
 *
 * line, column: the place, from 1 on; line 0 for a message without a place, such as a linker's
 * length: the number of characters of the word at this place; 0 at the end of a line, or without a place
 * code: the compiler's option for a warning, as `-Wunused-variable`, or the code of the machine's refusal, as `E15`
 * fix: texts that may replace the word, the nearest one first
 */
export interface Mistake {
  line: number;
  column: number;
  length: number;
  severity: "error" | "warning";
  message: string;
  code?: string;
  fix?: string[];
}

/**
 * An earlier state of a program.
 *
 * at: the number of instructions before this state; end: the number of instructions before the present state
 * state, before: this state, and the state before its last instruction, both without the names of the source and without breakpoints
 * condition: the condition of the machine in this state
 */
export interface Moment {
  at: number;
  end: number;
  state: State;
  before: State;
  condition: "Not begun" | "Ready" | "Running" | "Paused" | "Ended" | "Fault";
}

/** Set the name of the student at a seat. */
export interface NameRequest {
  id: number;
  ask: "name";
  /** The seat. A student's own seat without it. */
  seat?: string;
  /** The name; "" for none. */
  name: string;
}

/** Changes without a request. */
export interface News {
  patch?: { [name: string]: unknown };
  logs?: { [name: string]: string[] };
  kind: "news";
}

/** A message of the teacher's to a seat: a text or an offer. time: in seconds since 1970; read: whether the student has read it */
export interface Notice {
  time: number;
  text?: string;
  offer?: Offer;
  read: boolean;
}

/**
 * Numbers of a place in a row.
 *
 * where: a description of the place; register: the name of a scalar register, which has one number
 * first: the index of the first number that is shown; more: the number of further numbers after those that are shown
 * wrong: the indices of wrong numbers among those that are shown
 */
export interface NumberRow {
  where: string;
  register?: string;
  first: number;
  numbers: string[];
  more: number;
  wrong: number[];
}

/** A source that the teacher offers: a title, which may be empty, its text, and the number of its language. */
export interface Offer {
  title: string;
  text: string;
  language: number;
}

/**
 * An exercise that the teacher may turn on.
 *
 * minutes: the approximate time that it takes; 0 if that is unknown
 * on: whether students have it
 */
export interface OfferedExercise {
  name: string;
  title: string;
  minutes: number;
  on: boolean;
}

/** Replace the source by one that the teacher offers, as `give` does, and mark the message as opened and read. */
export interface OpenOfferRequest {
  id: number;
  ask: "open";
  /** The number of the message. */
  number: number;
}

/** Open an exercise in all tabs of the seat. */
export interface OpenRequest {
  id: number;
  ask: "open";
  /** Its name. In the playground, "" opens the program outside the exercises. */
  exercise: string;
}

/**
 * The work of a seat at its open exercise.
 *
 * tries: the number of tries; checking: whether an answer is being checked; told: the result of the last check
 */
export interface Outcome {
  exercise: string;
  tries: number;
  checking: boolean;
  told: CheckResult;
}

/** The outcome of consecutive elements, and the number of these elements. */
export interface OutcomeRun {
  outcome: "active" | "masked" | "tail" | "prestart" | "fault" | "pending" | "kept" | "idle";
  count: number;
}

/** The first message to a page. lost: sentences on what couldn't be read of the saved texts */
export interface PageHello {
  patch?: { [name: string]: unknown };
  logs?: { [name: string]: string[] };
  kind: "hello";
  who: string;
  time: number;
  resumed?: boolean;
  lost: string[];
}

/**
 * Pairs of an element of the source and an element of the result, whose source elements are consecutive.
 *
 * source, result: the indices of the elements in the first pair; count: the number of pairs
 * step: the distance from the result's element in one pair to that in the next: 1, or 0 if it is the same element
 */
export interface PairRun {
  source: number;
  result: number;
  count: number;
  step: number;
}

/** Find an earlier state of the program. */
export interface PastRequest {
  id: number;
  ask: "past";
  /** The number of instructions since the machine began. A negative number counts from the present. */
  at: number;
  /** Whether to find the next state after that one at a breakpoint. */
  to_break?: boolean;
}

/** The response to `past`. */
export interface PastResponse {
  patch?: { [name: string]: unknown };
  logs?: { [name: string]: string[] };
  kind: "answer";
  id: number;
  number: number;
  moment?: Moment;
  percent?: number;
  text?: string;
  language?: number;
}

/** Find the problems of a source. Nothing changes. */
export interface ProblemsRequest {
  id: number;
  ask: "problems";
  text: string;
  language?: number;
}

/** The response to `problems`. */
export interface ProblemsResponse {
  patch?: { [name: string]: unknown };
  logs?: { [name: string]: string[] };
  kind: "answer";
  id: number;
  mistakes: Mistake[];
  warnings: Mistake[];
  types: LineType[];
}

/**
 * The values of registers before an instruction, in hexadecimal digits. Registers whose values are unknown are left out.
 *
 * x: the scalar registers that the instruction read, except x0, by number
 * v: the vector registers of all its operands, including the destination, by number
 * v0, vl, vtype, vstart: the values of these registers, even if the instruction doesn't read them
 */
export interface ReadRegisters {
  x: { [name: string]: string };
  v: { [name: string]: string };
  v0?: string;
  vl?: number;
  vtype?: string;
  vstart?: number;
}

/** Mark a message of the teacher as read. */
export interface ReadRequest {
  id: number;
  ask: "read";
  number: number;
}

/** The response to a request that was refused. */
export interface RefusedResponse {
  patch?: { [name: string]: unknown };
  logs?: { [name: string]: string[] };
  kind: "answer";
  id: number;
  error: string;
  done: string[][];
  words?: string[];
}

/** Replace the code of a seat, or of `wall`. */
export interface RenewRequest {
  id: number;
  ask: "renew";
  seat: string;
}

/** The response to `give` and `take-back`. */
export interface ReplacedResponse {
  patch?: { [name: string]: unknown };
  logs?: { [name: string]: string[] };
  kind: "answer";
  id: number;
  replaced: number;
}

/** End a seat's machine, by `leave`. */
export interface ResetRequest {
  id: number;
  ask: "reset";
  seat: string;
}

/** Set whether a machine's students may grant slices to their own programs. */
export interface RightsRequest {
  id: number;
  ask: "rights";
  machine: string;
  own_slices: boolean;
}

/** Run a program: that of the source, which is built unless it is loaded, or the loaded one. One that has ended starts again. */
export interface RunRequest {
  id: number;
  ask: "run";
  /** As in `source`. */
  number?: number;
  text?: string;
  language?: number;
  /** As in `source`. */
  breaks?: number[];
}

/** A range of code addresses. first: the first address; end: the address after the last one */
export interface Scope {
  first: number;
  end: number;
}

export interface SeatResult {
  tries: number;
  passed: number;
  best: number;
  time: number;
}

/**
 * The status of a seat's program.
 *
 * kind: `none` without a program; `problems` if the last source has mistakes and isn't in the machine; `paused` before an instruction;
 *     `breakpoint`, `ebreak`, `ended` or `fault` after a stop; `output` while the output buffer is full; `limit` if the server has
 *     stopped the program, since it ran too long, or since nobody looked at it
 * text: the same in a few words
 * count: the number of mistakes; exit: the exit status of the program
 * instruction: the mnemonic of the instruction at the program counter, if it is known
 * element: the index of the element at which a vector access faults
 */
export interface SeatStatus {
  kind: "none" | "problems" | "running" | "paused" | "breakpoint" | "ebreak" | "ended" | "output" | "fault" | "limit";
  text: string;
  count?: number;
  exit?: number;
  instruction?: string;
  element?: number;
}

/**
 * The teacher's view of a seat. Times are in seconds since 1970.
 *
 * tabs: the number of open tabs; active: the time when a tab of the seat made its last request; 0 if none has made one
 * status: the status of the seat's program; since: the time when the status began
 * line, answer: the last command, and the last line of an answer
 * exercise: the name of the open exercise, or ""; exercise_since: the time when the student opened it; 0 if that is unknown
 * stuck: whether the student may need help, for one of these reasons: the program has mistakes, has faulted or ran too long; the exercise has
 *     been open for 10 minutes and 3 tries have failed; the student has made no progress for 10 minutes
 * stuck_since: the time at which this began; missing if `stuck` is false
 * changed: whether the seat's source differs from its newest version
 * used: the number of bytes of the script that the seat has used; hand: the student's raised hand; missing if no hand is up
 */
export interface SeatView {
  name: string;
  tabs: number;
  active: number;
  run: "absent" | "stopped" | "running";
  status: SeatStatus;
  since: number;
  exercise: string;
  exercise_since: number;
  changed: boolean;
  stuck: boolean;
  stuck_since?: number;
  line: string;
  answer: string;
  used: number;
  hand?: Hand;
}

/**
 * A message of the teacher's: a text or an offer. time: in seconds since 1970
 *
 * to, read, opened: the seats that have it, those that have read it, and those that have opened its source
 */
export interface SentNotice {
  time: number;
  text?: string;
  offer?: Offer;
  to: string[];
  read: string[];
  opened: string[];
}

/** A seat's share of the script. used: the number of bytes that the seat has used; of: the number of bytes that it may use */
export interface Share {
  used: number;
  of: number;
}

/** Look over the shoulder of a seat. */
export interface ShoulderRequest {
  id: number;
  ask: "shoulder";
  /** The seat; "" ends it. */
  seat: string;
}

/**
 * A memory access: `Access` in meanings/instruction.py.
 *
 * store: whether it is a store; bytes: the distance from one field of a segment to the next, in bytes
 * start, step: the address of element 0 in hexadecimal digits, and the number of bytes from each element, or byte of a mask, to the next
 * addresses: the address of each element in hexadecimal digits, in place of `start` and `step` if the distances differ
 */
export interface ShownAccess {
  base: number;
  store: boolean;
  fields: number;
  bytes: number;
  start?: string;
  step?: number;
  addresses?: string[];
}

/** A condition that selected an equation, and whether it holds. */
export interface ShownCondition {
  parts: (string | ShownTerm)[];
  holds: boolean;
}

/** Consecutive numbers of one type, or a text. count: how many numbers there are, or the number of bytes of the text */
export interface ShownData {
  type: "i8" | "u8" | "i16" | "u16" | "i32" | "u32" | "i64" | "u64" | "text";
  count: number;
}

/**
 * The calculation of elements whose calculations have the same form.
 *
 * elements: runs of the elements, each as the index of its first element and the number of elements
 * parts: the right side of the equation, for the first of the elements
 * causes: the conditions that selected this equation
 * sign: whether the elements' bits, which are the results, are signed or unsigned numbers; if it is missing, the reader's form of
 *     numbers decides
 * others: the exact results of elements whose bits represent another number, by the element's index: with terms of undefined sign
 *     as signed numbers, and as unsigned numbers
 * target: the scalar register that is written, if the result isn't elements
 */
export interface ShownEquation {
  elements: number[][];
  parts: (string | ShownTerm)[];
  causes?: ShownCondition[];
  sign?: "signed" | "unsigned";
  others?: { [name: string]: string[] };
  target?: ShownTerm;
}

/**
 * The vector instruction that was executed last, or that faulted: `ExecutedInstruction` in meanings/instruction.py.
 *
 * does: a sentence about the instruction's effect, with names in backquotes; the terms are its scalar registers
 * results: the outcomes of the destination's elements; missing if they are the same as `outcomes`
 * shortened: true if the instruction reduced vl because an element can't be read; otherwise missing
 * known: whether the values of the source registers before the instruction are known
 * old: whether the values of the destination's registers before the instruction are known
 * follows: whether the state right before the instruction was read, so that all registers before it are known
 */
export interface ShownExecuted {
  does: (string | ShownTerm)[];
  formula: (string | ShownTerm)[];
  layout: string;
  mask: "" | "mask" | "bits";
  end: "ran" | "fault" | "illegal";
  groups: ShownGroup[];
  access?: ShownAccess;
  elements: number;
  vl: number;
  vstart: number;
  outcomes: OutcomeRun[];
  results?: OutcomeRun[];
  pairs: PairRun[];
  scalars: number[];
  equations: ShownEquation[];
  shortened?: boolean;
  known: boolean;
  old: boolean;
  follows: boolean;
}

/** A vector register operand: `Group` in meanings/instruction.py. */
export interface ShownGroup {
  role: "destination" | "data" | "element" | "single" | "moved" | "index";
  register: number;
  size: number;
  groups: number;
  width: number;
}

/**
 * The location of a variable while the program counter is in a scope.
 *
 * kind: where the variable is. `register`: in a scalar register. `vector`: in a vector register. `memory`: in memory, at the sum of a
 *     scalar register and the offset. `value`: the variable isn't stored, and its value is this sum. `untold`: unknown
 * register: the number of the register
 * offset: the offset as 64 bits in hexadecimal digits
 */
export interface ShownLocation {
  first: number;
  end: number;
  kind: string;
  register: number;
  offset: string;
}

/**
 * A vector register operand of an instruction.
 *
 * register: the number of the first register
 * bits: whether the operand is a mask, with a bit for each element
 * written: whether the operand is the destination
 * masked: whether elements of the operand are masked off if their bit in v0 is 0, and v0 still has the mask after the instruction
 */
export interface ShownOperand {
  register: number;
  bits: boolean;
  written: boolean;
  masked: boolean;
}

/** A vector register group. width: of its elements in bits, 1 in a mask; size: the number of its registers */
export interface ShownRegisterGroup {
  width: number;
  size: number;
}

/**
 * A number in a formula or an equation, and its name. Keys that don't apply are missing.
 *
 * value: the number in decimal digits, for a scalar register or a number with a name
 * name: the name, such as `sew`; missing for registers, and for the index of the element
 * scalar: the number of the scalar register
 * register: the number of the first vector register of the group that has the element
 * width: the width of the number in bits, 1 for a bit of a mask
 * sign: whether the bits are a signed or an unsigned number; if it is missing, the reader's form of numbers decides
 * function: the function around the name, such as `signed`
 * index: the index of the element; if `by` is `element`, the distance from the index of the result's element. Missing if it is 0
 * by: `element` if each element of the result uses another element, at the distance `index`; `pair` if it uses the source in its pair;
 *     missing if all elements of the result use the same number
 */
export interface ShownTerm {
  value?: string;
  name?: string;
  scalar?: number;
  register?: number;
  width?: number;
  sign?: "signed" | "unsigned";
  function?: string;
  index?: number;
  by?: "element" | "pair";
}

/**
 * A variable of the source.
 *
 * declaration: in C's syntax, as `int32_t x[37]`
 * element: the type of its numbers with their width, as `i32`; "" if it has no numbers
 * counts: the dimensions of an array
 * function: the name of the function, which may be inlined, that declares the variable; "" for a variable outside of functions
 * scopes: the ranges of code in which the variable is visible; empty if it is visible everywhere
 * locations: where the variable is in each range of code. If no range contains the program counter, the compiler optimized it out
 */
export interface ShownVariable {
  name: string;
  declaration: string;
  element: string;
  counts: number[];
  function: string;
  scopes: Scope[];
  locations: ShownLocation[];
}

/** Write a source into a new machine. */
export interface SourceRequest {
  id: number;
  ask: "source";
  text: string;
  language?: number;
  /** The number of the seat's source when this one was typed. If it is missing or has changed, the seat's becomes a version first. */
  number?: number;
  /** The numbers of lines that get breakpoints once the program is loaded. */
  breaks?: number[];
}

/** The response to `source`, `again`, `case`, `run` and `step`. */
export interface SourceResponse {
  patch?: { [name: string]: unknown };
  logs?: { [name: string]: string[] };
  kind: "answer";
  id: number;
  mistakes: Mistake[];
  warnings: Mistake[];
}

/** The mistakes of a source that goes into a new machine, and a compiler's warnings. */
export interface SourceResult {
  mistakes: Mistake[];
  warnings: Mistake[];
}

/**
 * The source of a seat.
 *
 * language: the number of its language; number: of changes since the server started
 * exercise: the open one, or ""; `stands`: whether the machine has this source; versions: the last 50, in order
 * own_program: in the playground, whether there is a program that belongs to no exercise
 * given: whether the teacher has put the text there
 */
export interface SourceView {
  text: string;
  language: number;
  number: number;
  exercise: string;
  stands: boolean;
  versions: VersionView[];
  own_program?: boolean;
  given?: boolean;
}

export interface Start {
  text: string;
  language: number;
}

/**
 * A user's state. Addresses and values are in hexadecimal digits without leading zeros, and bytes have two digits each.
 *
 * run: whether the program runs. If the user is absent, there are no other keys
 * pc, and all keys up to `memory`: present once the program has been stopped. While it runs, only pc is updated
 * x: the values of the 32 scalar registers, by number; v: the 32 bytes of each vector register, by number
 * policy: the policy for agnostic elements, `keep` or `ones`
 * code: the words of the program with their texts, by address; operands: the vector operands of each word, by address
 * groups: the vector register groups to show, by their first registers. A register is in the group of the last instruction that wrote it
 * targets: the address to which a branch or `jal` may go, by the instruction's address
 * memory: rows of 16 bytes, by the address of the first byte
 * instruction: the address of the last instruction that was executed in the last lines, or that faulted
 * executed: the elements of this instruction, if it has vector operands
 * read, accessed: in a class, the registers before this instruction, and the memory that it accessed, as far as they are known
 * faulted, illegal: whether this instruction faulted, and whether it is illegal
 * stop: sentences that explain why the program stopped in the last lines
 * calls: a sentence about each call that the machine doesn't support, by the address of the ECALL. The calls are those that the code
 *     shows, and those that the program has reached. If there are none, the key is missing
 * output: the bytes that answers to `out` have shown
 * outputs: in a class, in place of `output`: the last 64 KB of these bytes, in blocks by number
 * began: in a class, how often the user's machine was started anew; image: in a class, whether it started with an image
 * prepared: whether the last lines set the program counter and executed nothing after that, as before a case of an exercise
 * labels, lines, line_numbers, aliases, starts, stops, variables, data: in a class, the keys of `SourceNames`
 */
export interface State {
  run: "absent" | "stopped" | "running";
  pc?: string;
  x?: { [name: string]: string };
  vtype?: string;
  vl?: number;
  vstart?: number;
  vxrm?: number;
  vxsat?: number;
  breaks?: string[];
  policy?: string;
  v?: { [name: string]: string };
  code?: { [name: string]: string };
  operands?: { [name: string]: ShownOperand[] };
  groups?: { [name: string]: ShownRegisterGroup };
  targets?: { [name: string]: string };
  memory?: { [name: string]: string };
  instruction?: string;
  executed?: ShownExecuted;
  faulted?: boolean;
  illegal?: boolean;
  read?: ReadRegisters;
  accessed?: Access[];
  stop?: string;
  calls?: { [name: string]: string };
  output?: string;
  outputs?: { [name: string]: string };
  began?: number;
  image?: boolean;
  prepared?: boolean;
  labels?: { [name: string]: string[] };
  lines?: { [name: string]: string };
  line_numbers?: { [name: string]: number };
  aliases?: { [name: string]: string };
  starts?: { [name: string]: number };
  stops?: { [name: string]: string[] };
  variables?: ShownVariable[];
  data?: { [name: string]: ShownData };
}

/** Step a program: that of the source, which is built unless it is loaded, or the loaded one. */
export interface StepRequest {
  id: number;
  ask: "step";
  /** Into calls, the default, over them, or out of a function. */
  kind?: "into" | "over" | "out";
  /** By instructions, the default, or by lines of the source. */
  by?: "instruction" | "line";
  /** The number of steps: 1 to 256, 1 by default. */
  count?: number;
  /** As in `source`. */
  number?: number;
  text?: string;
  language?: number;
  /** As in `source`. */
  breaks?: number[];
  /** The number of a line: the program is stepped by lines, into calls, until that line is next, through 1,000 lines at most. */
  until?: number;
}

/** A student's view. */
export interface StudentView {
  seat: string;
  state: State;
  condition: "Not begun" | "Ready" | "Running" | "Paused" | "Ended" | "Fault";
  stop: string;
  quantum: number;
  share: Share;
  languages: string[];
  source: SourceView;
  exercises: { [name: string]: ExerciseView };
  again: boolean;
  history: HistoryView;
  title: string;
  class_title: string;
  name: string;
  messages: { [name: string]: Notice };
  hand?: Hand;
  images: string[];
  clock: boolean;
  own_slices: boolean;
  windows?: number;
  no_c: string;
  against: string[];
  ready: boolean;
  trouble: string;
  examples?: ExampleSource[];
}

/** Restore the sources that seats had before the last one given, unless they were changed since. Seats are named as in `give`. */
export interface TakeBackRequest {
  id: number;
  ask: "take-back";
  seat?: string;
  seats?: string[];
}

/**
 * The teacher's view.
 *
 * class_title: the title of the class; machines: the machines by letter; share: the bytes of the script that a seat may use
 * shoulder: the name of the observed seat, or ""; state, history, source: those of the observed seat
 * caret: the number of the line in which the observed student typed last, or 0; problems: the problems of the last source that was built
 * outcome: the work at the observed seat's open exercise
 * wall: the name of the seat on the wall, or ""; address: the address of the class for students, or ""
 * course: the exercises that may be turned on; exercises: the results by the exercise's name
 * sent: the last messages by number, the oldest first; given: the last given source; missing if it can't be taken back
 * unencrypted: whether codes travel unencrypted to other computers
 */
export interface TeacherView {
  class_title: string;
  machines: { [name: string]: MachineView };
  share: number;
  shoulder: string;
  wall: string;
  address: string;
  course: OfferedExercise[];
  exercises: { [name: string]: ExerciseTable };
  failures: CheckFailure[];
  state?: State;
  history?: HistoryView;
  source?: SourceView;
  caret?: number;
  problems?: SourceResult;
  outcome?: Outcome;
  images: string[];
  quantum: number;
  languages: string[];
  no_c: string;
  unencrypted: boolean;
  sent: { [name: string]: SentNotice };
  given?: Given;
  trouble: string;
}

/** The response to `version`. */
export interface TextResponse {
  patch?: { [name: string]: unknown };
  logs?: { [name: string]: string[] };
  kind: "answer";
  id: number;
  text: string;
  language: number;
}

/** Return a try of a seat at an exercise. */
export interface TryRequest {
  id: number;
  ask: "answer";
  /** The seat. A student's own seat without it. */
  seat?: string;
  exercise: string;
  /** The number of the try, from 1 on. */
  number: number;
}

/** The response to `answer`. */
export interface TryResponse {
  patch?: { [name: string]: unknown };
  logs?: { [name: string]: string[] };
  kind: "answer";
  id: number;
  text: string;
  language: number;
  told: CheckResult;
}

/** Take a message back from the seats that haven't read it. */
export interface UnsendRequest {
  id: number;
  ask: "unsend";
  number: number;
}

/** The response to `unsend`. */
export interface UnsentResponse {
  patch?: { [name: string]: unknown };
  logs?: { [name: string]: string[] };
  kind: "answer";
  id: number;
  read: string[];
}

/** The registers that a user's lines and instructions use. x, v: the numbers of scalar and vector registers, in rising order, without x0 */
export interface UsedRegisters {
  x: number[];
  v: number[];
}

/** Return a version of the source of the own or the observed seat. */
export interface VersionRequest {
  id: number;
  ask: "version";
  number: number;
}

/** A version on a page. title: of its exercise, or the exercise's name where its title is unknown; "" for none */
export interface VersionView {
  number: number;
  time: number;
  why: string;
  language: number;
  exercise: string;
  title: string;
}

/** Show a seat on the wall. */
export interface WallRequest {
  id: number;
  ask: "wall";
  /** The seat; "" for none. */
  seat: string;
}

/**
 * The wall's view.
 *
 * seat: the name of the seat that the wall shows, or ""; stop: the seat's last stop line
 * trouble: a text for a banner, or ""
 */
export interface WallView {
  seat: string;
  state?: State;
  stop: string;
  trouble: string;
}

/**
 * Explain why a register or an element has its value after the last single step.
 *
 * `form` is that of numbers in the sentence, by default `signed`. With `abi` scalar registers have names such as `a0` in place of `x10`.
 */
export interface WhyRequest {
  id: number;
  ask: "why";
  /** A name such as `x5` or `v8[5]`. */
  name: string;
  form?: "signed" | "unsigned" | "hexadecimal";
  abi?: boolean;
}

/** The response to `why`. */
export interface WhyResponse {
  patch?: { [name: string]: unknown };
  logs?: { [name: string]: string[] };
  kind: "answer";
  id: number;
  why: string;
}

/** Send a message to seats, which are named as in `give`. */
export interface WriteRequest {
  id: number;
  ask: "write";
  seat?: string;
  seats?: string[];
  /** 1 to 400 characters. */
  text: string;
}

export type StudentRequest =
  | LinesRequest
  | SourceRequest
  | AgainRequest
  | ProblemsRequest
  | RunRequest
  | StepRequest
  | EditRequest
  | BreakpointRequest
  | PastRequest
  | LastInstructionRequest
  | WhyRequest
  | ListingsRequest
  | DraftRequest
  | OpenOfferRequest
  | OpenRequest
  | VersionRequest
  | CheckRequest
  | CaseRequest
  | TryRequest
  | NameRequest
  | HandRequest
  | ReadRequest;

export type TeacherRequest =
  | MachineLinesRequest
  | PastRequest
  | VersionRequest
  | TryRequest
  | NameRequest
  | LowerHandRequest
  | GiveRequest
  | TakeBackRequest
  | WriteRequest
  | UnsendRequest
  | ExercisesRequest
  | ResetRequest
  | ClockRequest
  | RightsRequest
  | RenewRequest
  | ShoulderRequest
  | WallRequest
  | CodesRequest;

export type Response =
  | EmptyResponse
  | LinesResponse
  | SourceResponse
  | ProblemsResponse
  | TextResponse
  | TryResponse
  | ListingsResponse
  | ReplacedResponse
  | UnsentResponse
  | WhyResponse
  | PastResponse
  | CodesResponse
  | RefusedResponse;

export type Message =
  | Hello
  | News
  | Beat
  | EmptyResponse
  | LinesResponse
  | SourceResponse
  | ProblemsResponse
  | TextResponse
  | TryResponse
  | ListingsResponse
  | ReplacedResponse
  | UnsentResponse
  | WhyResponse
  | PastResponse
  | CodesResponse
  | RefusedResponse;
