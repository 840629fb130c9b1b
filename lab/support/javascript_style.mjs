// The style of the pages' JavaScript that TypeScript doesn't check: node lab/support/javascript_style.mjs FILE...
//
// It prints a line for each place with more than one thing in a statement, and ends with status 1 if there is one. CONTRIBUTING.md has the
// rules. TypeScript's parser reads the files: that of the `tsc` on the path.
import fs from "node:fs";
import { createRequire } from "node:module";
import path from "node:path";

/** TypeScript as a module. */
function loadTypeScript() {
  const tsc = process.env.PATH.split(path.delimiter).map((folder) => path.join(folder, "tsc")).find(fs.existsSync);
  if (!tsc) throw new Error("tsc not found: install node-typescript");
  return createRequire(fs.realpathSync(tsc))("../lib/typescript.js");
}

const ts = loadTypeScript();
const { SyntaxKind } = ts;

const isComma = (node) => ts.isBinaryExpression(node) && node.operatorToken.kind === SyntaxKind.CommaToken;

const isAssignment = (node) =>
  ts.isBinaryExpression(node) &&
  node.operatorToken.kind >= SyntaxKind.FirstAssignment &&
  node.operatorToken.kind <= SyntaxKind.LastAssignment;

/** Whether an assignment's value isn't used: it is a statement, the step of a `for`, or all that an arrow function does. */
function isAlone({ parent }) {
  const outer = ts.isParenthesizedExpression(parent) ? parent.parent : parent;
  return ts.isExpressionStatement(parent) || ts.isForStatement(parent) || ts.isArrowFunction(outer);
}

/** Why the style refuses a node; "" if it doesn't. */
function faultOf(node) {
  if (isComma(node)) return "a comma between expressions: write a statement for each";
  if (isAssignment(node) && !isAlone(node)) return "an assignment within an expression: write a statement for it";
  if (ts.isVariableDeclarationList(node) && node.declarations.length > 1 && !ts.isForStatement(node.parent))
    return "several names in a declaration: write a declaration for each";
  const value = ts.isVariableDeclaration(node) && ts.isArrayBindingPattern(node.name) && node.initializer;
  if (value && ts.isArrayLiteralExpression(value))
    return "a list assigned to a list: write a declaration for each";
  if (ts.isExpressionStatement(node) && ts.isConditionalExpression(node.expression)) return "a choice as a statement: write `if`";
  return "";
}

/** The faults of a file, each with its line. */
function faultsIn(file) {
  const source = ts.createSourceFile(file, fs.readFileSync(file, "utf-8"), ts.ScriptTarget.ES2022, true, ts.ScriptKind.JS);
  const lineOf = (place) => source.getLineAndCharacterOfPosition(place).line + 1;
  const found = [];
  const visit = (node) => {
    const fault = faultOf(node);
    if (fault) found.push(`${file}:${lineOf(node.getStart())}: ${fault}`);
    const statements = node.statements ?? [];
    for (const [place, statement] of statements.entries()) {
      const isBehind = place > 0 && lineOf(statements[place - 1].end) === lineOf(statement.getStart());
      if (isBehind) found.push(`${file}:${lineOf(statement.getStart())}: two statements in a line`);
    }
    ts.forEachChild(node, visit);
  };
  visit(source);
  return found;
}

const faults = process.argv.slice(2).flatMap(faultsIn);
for (const fault of faults) console.log(fault);
process.exitCode = faults.length ? 1 : 0;
