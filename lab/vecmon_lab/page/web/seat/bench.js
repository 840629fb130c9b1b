// One person's work at a machine: buttons, the command line, values to change, the source and the reference become requests.

import { WaitingBreakpoints, keepLines, takeKeptLines } from "../editor/breakpoints.js";
import { LiveMachine } from "./live_machine.js";
import { editDialog, followCursor } from "../panels/edits.js";
import { Editor } from "../editor/editor.js";
import { ask, copy, make, offerCopy, part, parts, put } from "../common/dom.js";
import { Inputs } from "../editor/inputs.js";
import { goToPane } from "../common/keys.js";
import { LineLinks } from "../editor/line_links.js";
import { offer, offerLanguages } from "../editor/languages.js";
import { addressOfLabel, listenToLines, requestsOf, unfitLines, withAddresses } from "./lines.js";
import { linkOf, sourceOf } from "../editor/links.js";
import { Panes } from "../panels/panes.js";
import { Problems } from "../editor/problems.js";
import { entryText, nameAt, showReference, tellName } from "../panels/reference.js";
import { RunBar } from "./runbar.js";
import { Source } from "../editor/source.js";
import { MOST_LETTERS, isBuiltFirst } from "../editor/source_state.js";
import { textOf } from "../common/texts.js";

/** @typedef {import("../types").Message} Message */
/** @typedef {import("../messages").Mistake} Mistake */
/** @typedef {import("../messages").State} State */
/** @typedef {import("../messages").StudentView} View */
/** @typedef {import("../types").Request} Request */
/** @typedef {import("../types").SourceAction | import("../types").RunAction & { number?: number }} BuildAction */

const LOOKED_AT = 64; // bytes of memory that are asked for at an address
const PAUSE = 600; // ms in which nothing is typed, and then problems are asked for
const NO_COMMAND = "E03"; // the machine's answer to a line without a command
const LEAVING = { absent: [], stopped: ["leave"], running: ["stop", "leave"] };

/** Whether a state has nothing that could be lost. */
const isBlank = (/** @type {State} */ { run, x, v, memory, code }) =>
  run !== "running" && [x, v, memory, code].flatMap((each) => Object.values(each ?? {})).every((digits) => /^0*( |$)/.test(digits));

/** The refusals of a request, in words. */
function refusals(/** @type {Request} */ request, /** @type {Message | null} */ answer) {
  const told = (answer?.words ?? []).map((why, place) => why && `\`${"do" in request && request.do?.[place]}\`: ${why}.`);
  return [...told, answer?.error];
}

/** A machine with its source, below a root that has the parts of both. */
export class Bench {
  timer = 0; // until problems are asked for
  isEdited = false; // whether the source was changed since the machine began
  hasTypes = false; // whether the vector types of the text are shown
  isListed = false; // whether the problems of the text are listed
  isImage = false; // whether the machine began with an image
  /** @type {number[]} */ due = []; // lines whose breakpoints are set once nothing is being built
  /** @type {State["read"]} */ askedRead; // that lacked registers, which were asked for
  /** @type {State | undefined} */ counted; // whose instructions were asked for
  /** @type {Editor | undefined} */ built; // has the source that is in the machine, if another one is shown in the past
  builtNote = make("p", "of-built", textOf("past.built.note"));

  /** @param {HTMLElement} root @param {import("../types").Connection} connection */
  constructor(root, connection) {
    this.root = root;
    this.connection = connection;
    this.live = new LiveMachine(root, (request) => connection.ask(request));
    this.bar = new RunBar(root, this);
    this.live.painted = (state) => this.painted(state);
    this.parts = parts(root, "images", "against", "find", "entries", "entry", "hint", "run-place", "by", "numbers");
    const { numbers } = this.parts;
    this.panes = new Panes(root, root.matches(".alone") ? "author" : "student");
    this.editor = new Editor(part(root, "source"), () => this.typed(), part(root, "language"));
    this.source = new Source(root, this.editor, connection);
    this.live.past.built = () => this.source.built;
    this.live.view.memory.look = (address) => this.isAtPresent && this.send([`peek ${address} ${LOOKED_AT}`]);
    this.waiting = new WaitingBreakpoints(this.editor.code);
    this.links = new LineLinks(root, this.editor);
    this.inputs = new Inputs(root, this.editor);
    this.problems = new Problems(root, this.editor, (panel) => this.panes.show(panel));
    this.askValue = editDialog(root, (edit, text) => this.request({ ask: "edit", edit, text, decimal: numbers.value !== "hexadecimal" }));
    addEventListener("pagehide", () => this.source.told && keepLines(this.waiting, this.source.loaded));
    this.listen();
  }

  /** Shows a state that the live machine has painted in the editor and on the run bar. */
  painted(/** @type {State} */ state) {
    this.showText();
    this.mark(state);
    this.bar.paint();
  }

  /** Takes up what was typed. */
  typed() {
    this.isEdited = true;
    this.live.past.showNow(); // the past has the text that was built
    this.source.typed();
    this.hasTypes = false;
    this.showMistakes([]);
    this.isListed = false;
    this.bar.paint();
    this.mark(this.live.past.moment?.state ?? this.live.state);
  }

  /**
   * Asks for the problems of an assembler source and its vector types, and shows them unless it has changed meanwhile, or its problems are
   * listed. Not of C: a compiler that is at work would refuse the next source.
   */
  async findProblems() {
    const { text, language } = this.editor.source;
    if (language > 0) this.editor.types.show([]);
    if (language > 0 || !text.trim() || text.length > MOST_LETTERS || !this.connection.isReady) return;
    const { timer } = this;
    const { mistakes, warnings, types } = (await this.connection.ask({ ask: "problems", text, language })) ?? {};
    if (!mistakes || this.timer !== timer) return;
    this.timer = 0;
    this.hasTypes = true;
    this.editor.types.show(types ?? []);
    if (this.isListed) return;
    this.problems.showTyped([...mistakes.filter(({ line }) => line), ...(warnings ?? [])]); // those of a linker may be of text to come
  }

  listen() {
    const { images, against, find, entry, hint } = this.parts;
    const line = /** @type {HTMLTextAreaElement} */ (part(this.root, "line"));
    /** @type {(id: keyof import("../parts").Parts, event: string, heard: () => unknown) => void} */
    const on = (id, event, heard) => part(this.root, id).addEventListener(event, heard);
    on("go", "click", () => this.run());
    on("halt", "click", () => this.send(["stop"]));
    on("one", "click", () => this.step("into"));
    on("step-over", "click", () => this.step("over"));
    on("step-out", "click", () => this.step("out"));
    on("steps", "submit", () => this.step("into", Number(part(this.root, "number").value)));
    on("until", "submit", () => this.execute({ ask: "step", until: Number(part(this.root, "until-line").value) }));
    on("break-here", "click", () => this.breakAt(this.editor.caretLine));
    on("add-output", "click", () => this.editor.append(`${part(this.root, "number-output").content.textContent}`));
    on("next-pane", "click", () => goToPane(this.root, 1));
    on("previous-pane", "click", () => goToPane(this.root, -1));
    listenToLines(line, (lines) => this.enter(lines));
    followCursor(this.root, (place) => this.edit(place));
    on("slice", "click", () => this.request({ ask: "lines", slices: 100 }));
    on("again", "click", () => this.bar.building(this.request({ ask: "again" })));
    on("new", "click", () => this.beginAnew(textOf("run.empty-machine"), ["map 10000 1 rwx", "map 20000 1 rw", "setpc 10000"]));
    on("images", "change", () => this.beginAnew(textOf("run.load"), [`load ${images.value}`]));
    on("assemble", "click", () => this.write());
    on("against", "change", () => this.write({ ask: "listings", other: against.selectedIndex - 1 }));
    on("link", "click", () => this.link());
    on("line-types", "change", () => this.editor.code.refresh());
    on("show-reference", "click", () => this.refer(this.nameAtCaret));
    on("find", "input", () => showReference(this.parts.entries, find.value));
    this.live.view.machine.addEventListener("click", ({ target }) => this.edit(/** @type {Element} */ (target)));
    this.editor.toggleBreakpoint = (line) => this.breakAt(line);
    this.editor.caretMoved = (text, place) => {
      tellName(entry, text, place);
      this.links.mark(this.editor.caretLine);
    };
    document.addEventListener("selectionchange", () => {
      if (document.activeElement === line) tellName(hint, line.value, line.selectionStart);
    });
  }

  /** @type {(view: View, entries: string[], isAnew: boolean) => void} */
  show(view, entries, isAnew) {
    const { state: { run, instruction, began, image = false }, source: { stands, text } } = view;
    const wasAbsent = (this.bar.view?.state.run ?? "absent") === "absent";
    const isNew = run !== "absent" && began !== this.live.state.began;
    if (isNew) this.isEdited = false;
    this.isImage = image;
    if (instruction) this.panes.makeRoom();
    this.live.show(view.seat, view.state, view.history, entries, isAnew);
    if (run === "stopped" && view.history.end === undefined) this.countSteps(view.state);
    this.askForRead(view.state);
    if (run === "absent" && !wasAbsent) this.panes.select(part(this.root, "show-source")); // in a pane that may be out of sight
    if (run !== "absent" && wasAbsent) this.panes.show(text && (stands || isAnew) ? "editor" : "listing");
    if (isNew && image && !isAnew) this.panes.show("listing"); // an image has no source
    offerLanguages(this.editor.language, view);
    offer(this.parts.images, textOf("run.load-image"), view.images);
    offer(this.parts.against, textOf("source.side-by-side"), view.against);
    this.showSource(view);
    this.bar.paint(view);
  }

  /** Asks once, after a run that ended with a vector instruction, for the registers before that. */
  askForRead(/** @type {State} */ { run, instruction = "", operands, read }) {
    if (run !== "stopped" || !operands?.[instruction]?.length || !read || read.vstart !== undefined || read === this.askedRead) return;
    this.askedRead = read;
    this.connection.ask({ ask: "last-instruction" });
  }

  /** Whether the machine has a source, and that isn't the editor's. */
  get hasOther() { return this.contents === "source" && !this.source.stands; }

  /**
   * What the machine began with.
   * @returns {"nothing" | "source" | "other"}
   */
  get contents() {
    if (this.bar.view?.again && !this.isImage) return "source";
    return Object.keys(this.live.state.code ?? {}).length ? "other" : "nothing";
  }

  /**
   * Whether the source has to be built before the program goes on: a machine without one is left as it is, until the source changes.
   * @returns {boolean}
   */
  get hasChanged() { return isBuiltFirst(this.source.state, this.contents, this.isEdited); }

  /** Asks once, after a run, for the number of instructions that the program has executed. */
  countSteps(/** @type {State} */ state) {
    if (state === this.counted) return;
    this.counted = state;
    this.live.past.count();
  }

  /** Runs the program. In the past it goes on to the next breakpoint or the last stop, and then on from the present. */
  async run() {
    const { past } = this.live;
    if (!past.moment) return this.execute({ ask: "run" });
    await past.forthToBreak();
    const { stop, pc = "", breaks = [] } = this.live.state;
    const isAtEnd = past.moment !== undefined || past.why !== "" || stop || breaks.includes(pc);
    return isAtEnd ? undefined : this.execute({ ask: "run" });
  }

  /** Steps the program: into calls, over them, or out of a function. In the past it goes forth by instructions. */
  step(/** @type {"into" | "over" | "out"} */ kind, count = 1) {
    if (this.live.past.moment) return this.live.past.forth(count).then(() => undefined);
    const by = /** @type {"" | "instruction" | "line"} */ (this.parts.by.value) || (this.editor.isC ? "line" : "instruction");
    return this.execute({ ask: "step", kind, by, count });
  }

  /** Runs or steps the program; a source that has changed is built first. With problems it leads to the first one. */
  async execute(/** @type {import("../types").RunAction} */ request) {
    if (!this.hasChanged) return this.request(request);
    const answer = await this.build({ ...request, number: this.source.number });
    if (answer?.mistakes?.length && this.problems.all.length) this.problems.goOn(1);
    return answer;
  }

  /** Sends a request with the source, and shows its problems, if it hasn't changed since. Returns the answer; none if it is too long. */
  async build(/** @type {BuildAction} */ action) {
    const { source } = this.editor;
    const [size, most] = [source.text.length, MOST_LETTERS].map((each) => each.toLocaleString(textOf("language")));
    if (this.source.isTooLong) return this.refuse(textOf("source.not-sent", { size, most }));
    const breaks = action.ask === "listings" ? {} : { breaks: [...this.waiting.lines, ...this.source.held.keys()] };
    const request = /** @type {Request} */ ({ ...action, ...source, ...breaks });
    const answer = await this.source.bring(source, () => this.bar.building(this.request(request)));
    if (source.text === this.editor.source.text) this.showMistakes(answer?.mistakes, answer?.warnings);
    this.mark(this.live.past.moment?.state ?? this.live.state);
    return answer;
  }

  /** Sends requests one after the other; reports refusals in words. Returns the answer to the first one. */
  async request(/** @type {Request[]} */ ...requests) {
    this.live.past.showNow();
    const answers = await Promise.all(requests.map((request) => this.connection.ask(request)));
    this.refuse(requests.flatMap((request, place) => refusals(request, answers[place])).filter(Boolean).join(" "));
    return answers[0];
  }

  /** Executes what was typed: `help` and a name, or lines. */
  enter(/** @type {string[]} */ lines) {
    const [, name] = /^help\b *(.*)$/.exec(lines[0]) ?? [];
    if (lines.length > 1) return this.send(lines);
    if (name === undefined) return this.sendLine(lines[0]);
    this.panes.show("reference");
    this.refer(name);
    return this.refuse(entryText(name) || (this.parts.entries.querySelector("li") ? "" : textOf("help.unknown", { name })));
  }

  /** Sends a line. If that is a label, which is no command, a sentence says so. */
  async sendLine(/** @type {string} */ line) {
    const answer = await this.send([line]);
    const label = line.trim();
    const address = addressOfLabel(line.trim(), this.live.state.labels ?? {});
    if (address && answer?.do?.[0]?.[0] === NO_COMMAND) this.refuse(textOf("lines.label", { label, address: `0x${address}` }));
  }

  /** Sends lines, unless one of them can't be sent. Their labels become addresses. */
  send(/** @type {string[]} */ lines) {
    const [, way, number = "1"] = /^(back|forth)(?: +([1-9][0-9]{0,8}))?$/.exec(lines.join("\n").trim()) ?? [];
    if (way) return this.go(/** @type {"back" | "forth"} */ (way), Number(number));
    const unfit = unfitLines(lines);
    if (!unfit) return this.request(...requestsOf(withAddresses(lines, this.live.state.labels ?? {})));
    this.live.past.showNow();
    return this.refuse(unfit);
  }

  /** Goes a number of instructions back or forth, as `back 3` says. */
  async go(/** @type {"back" | "forth"} */ way, /** @type {number} */ number) {
    const { past } = this.live;
    if (way === "back" && past.isStill && past.place !== 0) return void (await past.back(number));
    if (way === "forth" && past.moment) return void (await past.forth(number));
    return this.refuse(way === "back" ? textOf("past.no-back") : textOf("past.no-forth"));
  }

  /** Whether the machine is stopped, and shown as it is now. */
  get isAtPresent() { return this.live.state.run === "stopped" && !this.live.past.moment; }

  /** Leaves the machine. */
  leave = () => this.send(LEAVING[this.live.state.run]);

  /** Leaves a machine that has another source than the editor, and so values that aren't those of the editor's program. */
  leaveOther = () => this.hasOther && this.leave();

  refuse(/** @type {string} */ words) {
    Object.assign(this.live, { refusal: words, notice: "" });
    this.live.showStage();
  }

  /** Shows a sentence that isn't about the machine, in place of why the program stopped, until the next request or stop. */
  tell(/** @type {string} */ words) {
    Object.assign(this.live, { refusal: "", notice: words });
    this.live.showStage();
  }

  /** Begins a new machine with lines, and asks before where something would be lost. */
  beginAnew(/** @type {string} */ name, /** @type {string[]} */ lines) {
    const begin = () => this.send([...LEAVING[this.live.state.run], "enter", ...lines]);
    this.parts.images.selectedIndex = 0;
    if (isBlank(this.live.state)) begin();
    else ask(textOf("machine.loss"), name, begin);
  }

  /** Sets or removes a breakpoint, or asks for another value. */
  edit(/** @type {Element} */ place) {
    const shown = /** @type {HTMLElement | null} */ (place.closest("[data-edit]"));
    const { edit, value = shown?.firstChild?.nodeValue ?? "" } = shown?.dataset ?? {};
    const { run, breaks = [] } = this.live.state;
    if (!edit || run !== "stopped" || this.live.past.moment) return undefined;
    const [command, address] = edit.split(" ");
    if (command === "break") return this.send([breaks.includes(address) ? `un${edit}` : edit]);
    return this.askValue(edit, value.replace("−", "-"));
  }

  /**
   * Sets all breakpoints of a line of the source, or removes those that are there. They wait unless the machine has the source. A click
   * at one of the loaded program removes it also if the source has changed since.
   */
  breakAt(/** @type {number} */ line) {
    const loaded = this.source.stands ? line : this.source.held.get(line);
    return loaded ? this.request({ ask: "breakpoint", line: loaded }) : this.waiting.toggle(line);
  }

  /** Sets the breakpoints that wait once the machine has the source; those that came there with it stay. */
  setWaiting() {
    if (!this.source.stands) return;
    this.due.push(...this.waiting.lines);
    this.waiting.clear(); // before the machine's are marked
    if (this.bar.isBuilding) return;
    for (const line of this.due.splice(0)) this.connection.ask({ ask: "breakpoint", line, set: true });
  }

  /** The name at the caret, if the source or the command line has the focus; "" if the name has no entry. */
  get nameAtCaret() {
    const line = /** @type {HTMLTextAreaElement} */ (part(this.root, "line"));
    if (document.activeElement === line) return nameAt([line.value, line.selectionStart]);
    return this.editor.code.hasFocus() ? nameAt(this.editor.caret) : "";
  }

  /** Shows the reference, or what is found in it. */
  refer(/** @type {string} */ find) {
    this.parts.find.value = find;
    showReference(this.parts.entries, find);
    this.parts.find.focus();
    this.parts.find.select(); // what is typed replaces it
  }

  /** Shows the seat's source; one that the teacher has just given is opened. */
  showSource(/** @type {View} */ { seat, state, source, share, windows = 1 }) {
    const { told } = this.source;
    const isGiven = told && told.versions !== source.versions && source.versions.at(-1)?.why === "given";
    this.source.show(seat, source);
    this.source.showWindows(windows);
    if (!told) takeKeptLines(this.waiting, this.source.loaded); // as before a reload
    const { moment } = this.live.past;
    if (moment && !moment.source && !source.stands) this.live.past.showNow();
    this.mark(this.live.past.moment?.state ?? state);
    this.source.showLanguage(share);
    this.takeLinked();
    if (!isGiven || source.text !== this.editor.source.text) return;
    this.panes.show("editor");
    this.editor.code.scrollTo(0, 0);
  }

  /** In the past, shows the source that was built in place of one that has changed since; its problems are none. */
  showText() {
    const source = this.live.past.moment?.source;
    const box = this.editor.box;
    if (source && !this.built) {
      const field = Object.assign(make("textarea", ""), { readOnly: true, ariaLabel: textOf("past.built") });
      box.after(this.builtNote, field);
      this.built = new Editor(field);
    }
    this.builtNote.hidden = !source;
    if (source && this.built?.code.getValue() !== source.text) this.built?.code.setValue(source.text);
    const wasShown = box.hidden;
    box.hidden = Boolean(source);
    if (this.built) this.built.box.hidden = !source;
    if (source && !wasShown) this.built?.code.refresh();
  }

  /** Marks a state's lines in the source, and names them in the status line. */
  mark(/** @type {State} */ state) {
    this.setWaiting();
    const isOther = this.live.past.moment?.source !== undefined;
    const { last, next } = isOther && this.built ? this.source.markIn(this.built, state) : this.source.mark(state);
    this.links.show(this.source.stands ? state.starts : undefined);
    const done = state.faulted ? textOf("run.at-line", { line: last }) : textOf("run.after-line", { line: last });
    const texts = [last && done, next && state.run === "stopped" && textOf("run.next-line", { line: next })];
    put(this.parts["run-place"], texts.filter(Boolean).join(" · "));
  }

  /** Copies a link to this page with the source, or shows the link if the browser doesn't copy it. */
  async link() {
    const hash = linkOf(this.editor.source, this.editor.language);
    if (!hash) return this.tell(textOf("link.too-long"));
    const link = location.href.split("#")[0] + hash;
    const isCopied = await copy(link);
    return isCopied ? this.tell(textOf("link.copied")) : offerCopy(textOf("link.by-hand"), link);
  }

  /** Puts a source into the editor that a link has brought; it is compiled only where that is asked for. */
  takeLinked() {
    const hash = sessionStorage.getItem("linked");
    sessionStorage.removeItem("linked");
    if (!hash) return;
    const linked = sourceOf(hash, this.editor.language);
    if (linked) {
      this.source.openFree().then(() => this.source.replace(linked));
      this.panes.show("editor");
    }
    this.tell(linked ? textOf("link.brought") : textOf("link.damaged"));
  }

  /** Loads the source into a new machine, whose text becomes a version if it is another one; or does what another request says. */
  async write(/** @type {import("../types").SourceAction} */ request = { ask: "source", number: this.source.number }) {
    const answer = await this.build(request);
    if (answer?.listings) open(`listings/${answer.listings}`);
    const wasWriting = this.editor.code.hasFocus();
    if (answer?.mistakes) this.panes.show(answer.mistakes.length || request.ask === "case" ? "editor" : "listing");
    if (wasWriting && this.editor.box.closest("[hidden]")) part(this.root, "listing").focus(); // in place of the editor
    if (request.ask === "case") this.editor.bringIntoSight(this.editor.marks.next); // for the steps that follow
  }

  /** Lists the problems of the source, and shows them at its lines, until it changes. isAsked: whether the list comes into sight */
  showMistakes(/** @type {Mistake[]} */ mistakes = [], /** @type {Mistake[]} */ warnings = [], isAsked = true) {
    clearTimeout(this.timer);
    this.timer = this.hasTypes ? 0 : setTimeout(() => this.findProblems(), PAUSE); // also if a build was faster
    this.isListed = true;
    this.problems.show([...mistakes, ...warnings]);
    if (isAsked && mistakes.length) this.panes.show("problems");
  }
}
