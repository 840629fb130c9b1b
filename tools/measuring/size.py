"""Counts lines of sources, for docs/FIGURES.md. A line of a crate is

- one of code: in `src`, if it is none of the others;
- of contracts: `requires`, `ensures` and other `ghost` items, in `src`;
- of definitions: in `specs`;
- of proofs: in `proofs`, and `#[tactic(..)]` in `src`.

Blank lines, comments and `use` lines aren't counted; of Python docstrings and imports aren't either.
"""

import ast
import io
import re
import tokenize
from collections import Counter
from collections.abc import Iterator
from functools import cache
from pathlib import Path

KINDS = ("code", "contracts", "definitions", "proofs")
BEGINS = {
    "use": re.compile(r"(pub(\(\w+\))? |ghost )?use "),
    "contracts": re.compile(r"(requires|ensures\*?|ghost) "),
    "proofs": re.compile(r"#!?\[tactic"),
}
PAGE_COMMENTS = re.compile(r"/\*.*?\*/|<!--.*?-->|^\s*//.*?$", re.DOTALL | re.MULTILINE)
NO_CODE = {tokenize.COMMENT, tokenize.NL, tokenize.NEWLINE, tokenize.INDENT, tokenize.DEDENT, tokenize.ENDMARKER}


def kinds_of(source: str) -> Iterator[str]:
    """Yield the kind of each line of a source. A comment, a contract or a proof lasts until its brackets are closed."""
    kind, depth = "code", 0
    for line in map(str.strip, source.splitlines()):
        if not line or line.startswith("//"):
            continue
        if depth == 0:
            kind = next((it for it, start in BEGINS.items() if start.match(line)), "code")
        if kind != "code":
            depth += sum(map(line.count, "([{")) - sum(map(line.count, ")]}"))
        yield kind


def theory_lines(text: str) -> int:
    """Return the number of lines of a file of definitions or proofs."""
    lines = map(str.strip, text.splitlines())
    return sum(bool(it) and not it.startswith("--") and not BEGINS["use"].match(it) for it in lines)


@cache
def python_lines(text: str) -> int:
    """Return the number of lines of a Python file."""
    lines: set[int] = set()
    for token in tokenize.generate_tokens(io.StringIO(text).readline):
        if token.type not in NO_CODE:
            lines.update(range(token.start[0], token.end[0] + 1))
    for node in ast.walk(ast.parse(text)):
        match node:
            case ast.Import() | ast.ImportFrom() | ast.Expr(value=ast.Constant(value=str())):
                lines.difference_update(range(node.lineno, (node.end_lineno or node.lineno) + 1))
    return len(lines)


def page_lines(text: str) -> int:
    """Return the number of lines of a file of HTML, CSS or JavaScript."""
    return sum(map(bool, map(str.strip, PAGE_COMMENTS.sub("", text).splitlines())))


def lines_of(crate: Path) -> Counter[str]:
    """Return the number of lines of each kind that a crate has."""
    lines = Counter(kind for it in crate.glob("src/**/*.rt") for kind in kinds_of(it.read_text(encoding="utf-8")))
    for kind, folder in ("definitions", "specs"), ("proofs", "proofs"):
        lines[kind] += sum(theory_lines(it.read_text(encoding="utf-8")) for it in crate.glob(f"{folder}/**/*.antt"))
    return lines
