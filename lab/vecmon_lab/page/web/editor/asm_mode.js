// Assembler sources in CodeMirror: kinds of words, where the next line begins, and names that may go on from a place: mnemonics,
// directives, labels and registers.

import { CodeMirror } from "./codemirror.js";
import { SECTIONS } from "../panels/reference.js";
import { ABI_NAMES } from "../common/words.js";

const MOST_HINTS = 10;
const LABELS = /^\s*([A-Za-z_.$][\w.$]*):|^\s*\.(?:equ|set|equiv|comm|lcomm)\s+([A-Za-z_.$][\w.$]*)/gm;
const MACROS = /^\s*\.macro\s+([A-Za-z_.$][\w.$]*)/gim;
const SHOWN = ["Instructions", "Pseudo-instructions", "Directives"].flatMap((section) => SECTIONS[section]);
const VTYPE = ["e8", "e16", "e32", "e64", "mf8", "mf4", "mf2", "m1", "m2", "m4", "m8", "ta", "tu", "ma", "mu"];

/** The form of each mnemonic and directive, by its name. */
const FORMS = new Map(SHOWN.map(([name, form]) => [name, form]));

const REGISTERS = new Set([...ABI_NAMES, "fp", ...Array.from({ length: 32 }, (_, at) => [`x${at}`, `v${at}`]).flat()]);

/**
 * State of a line. isFirst: up to its mnemonic; isComment: inside of a comment over lines; macros: their names, in small letters
 * @typedef {{ isFirst: boolean, indent: number, hasLabel: boolean, isComment: boolean, macros: string[] }} State
 */

const NAME = /^[A-Za-z_.$][\w.$]*/;
const LABEL = /^(?:[A-Za-z_.$][\w.$]*|\d+)(?=\s*:)/;
/** @type {Record<string, RegExp>} */
const PATTERNS = {
  def: LABEL,
  comment: /^(?:#|\/\/).*/,
  string: /^"(?:[^"\\]|\\.)*"?/,
  number: /^-?\d\w*|^'(?:\\.|[^\\])'?/,
}; // by CodeMirror's kinds

/** The kind of a name that isn't a label. isAssigned: whether an equals sign follows it */
/** @type {(name: string, state: State, isAssigned: boolean) => string | null} */
function nameKind(name, { isFirst, macros }, isAssigned) {
  if (!isFirst) return REGISTERS.has(name) ? "variable-2" : null;
  const small = name.toLowerCase();
  if (isAssigned || macros.includes(small)) return "def";
  return !FORMS.has(small) ? "error" : name[0] === "." ? "meta" : "keyword";
}

/** Reads a comment over lines up to its end, or the end of the line. */
/** @type {(stream: Parameters<import("./codemirror").Mode<State>["token"]>[0], state: State) => string} */
function comment(stream, state) {
  state.isComment = !stream.match(/^.*?\*\//);
  if (state.isComment) stream.match(/^.*/);
  return "comment";
}

/** @type {import("./codemirror").Mode<State>["token"]} */
function token(stream, state) {
  if (stream.sol()) Object.assign(state, { isFirst: true, hasLabel: false, indent: stream.indentation() });
  if (state.isComment || stream.match(/^\/\*/)) return comment(stream, state);
  if (stream.eatSpace()) return null;
  if (stream.match(/^;/)) {
    state.isFirst = true;
    return null;
  }
  const kind = Object.keys(PATTERNS).find((each) => stream.match(PATTERNS[each]));
  state.hasLabel ||= kind === "def";
  if (kind) return kind;
  if (!stream.match(NAME)) {
    stream.next();
    return null;
  }
  const name = stream.current();
  const kindOfName = nameKind(name, state, Boolean(stream.match(/^\s*=(?!=)/, false)));
  const macro = state.isFirst && name.toLowerCase() === ".macro" ? stream.match(/^\s+([A-Za-z_.$][\w.$]*)/, false) : null;
  if (macro) state.macros = [...state.macros, macro[1].toLowerCase()];
  state.isFirst = false;
  return kindOfName;
}

CodeMirror.defineMode("riscv", ({ indentUnit }) => ({
  startState: () => ({ isFirst: true, indent: 0, hasLabel: false, isComment: false, macros: [] }),
  token,
  blankLine: (/** @type {State} */ state) => void Object.assign(state, { hasLabel: false, indent: 0 }),
  indent: ({ indent, hasLabel }, after) => (LABEL.test(after) ? 0 : hasLabel && !indent ? indentUnit : indent),
  electricInput: /^\s+[\w.$]+:$/, // indents a label once it has its colon
  lineComment: "#",
  closeBrackets: '()""',
}));

export const ASSEMBLER = "riscv";

/** @typedef {{ word: string, names: [name: string, form: string][] }} Names that go on from a word, with their forms */

/**
 * Names that go on from the word before the caret: of mnemonics and directives, or of an operand.
 * before, after: the caret's line up to the caret, and from it on; text: the source; isAsked: whether all operands are wanted, also
 * registers and parts of a vector type, and those with the word alone; else only names that go on from two letters
 * @type {(before: string, after: string, text: string, isAsked: boolean) => Names}
 */
export function namesAt(before, after, text, isAsked) {
  const [word = ""] = /[\w.$]*$/.exec(before) ?? [];
  const head = before.slice(0, before.length - word.length);
  const isFirst = /(^|;)\s*([\w.$]+:\s*)*$/.test(head);
  if ((!isAsked && word.length < 2) || /#|\/\/|"/.test(head) || /^[\w.$]/.test(after)) return { word, names: [] };
  const labels = [...text.matchAll(LABELS)].map(([, label, equal]) => label ?? equal).sort(); // and names of `.equ` and `.set`
  const operands = isAsked ? [...labels, ...REGISTERS, ...(/^\s*vset/.test(head) ? VTYPE : [])] : labels;
  const macros = [...text.matchAll(MACROS)].map(([, name]) => name);
  const known = isFirst ? [...new Set([...FORMS.keys(), ...macros])].sort() : [...new Set(operands)];
  const names = known.filter((name) => name !== word && name.startsWith(word));
  return { word, names: names.slice(0, isAsked ? names.length : MOST_HINTS).map((name) => [name, FORMS.get(name) ?? ""]) };
}
