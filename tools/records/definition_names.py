"""Names that files of definitions use without importing or defining them, for `tools/instructions`.

The programs without proofs don't read these files, so a forgotten name of a `use` line is otherwise found by `rt check`, which takes minutes.
A variant that isn't imported would even be read as a variable, which fits every operation.
"""

import re
from collections.abc import Iterator
from pathlib import Path

FOLDER = Path("crates/rv_model/specs")
FILES = (
    *("elements/Formulas", "elements/FixedPoint", "elements/Masks", "elements/Reductions", "elements/Arithmetic"),
    *("elements/PermutationResults", "scalar/Arithmetic", "scalar/ControlTransfer", "scalar/LoadsAndStores"),
    *("vector/Groups",),
)
"""The files with formulas, and with widths that `tools/instructions` writes."""
USE = re.compile(r"^use (\S+?)(?:\.\{(.*)\}| as (\w+))?$", re.MULTILINE)
DECLARED = re.compile(r"^(?:abbrev |unfoldable |pub |record |data )*(\w+) : ", re.MULTILINE)
HEAD = re.compile(r"^(\w+)((?: [^=\n]*?)?) =(?= |$)")
WORD = re.compile(r"(?<![\w.'])([A-Za-z_]\w*)(\.)?")
BOUND = re.compile(r"λ ([\w ]+)\.|\blet (\w+)|\((\w+(?: \w+)*) : ")
CONSTRUCTORS = {*"zero suc pos negsuc true false".split()}
"""Constructors in small letters: in a pattern, other such words are variables."""
KEYWORDS = {*"if then else let in record with Type refl search".split()}
OPERATOR = re.compile(r" ([-+*/%^]|==|&&|\|\||∷|\+\+)(ℤ?) ")


def unknown_names() -> Iterator[str]:
    """A line for each name or operator that a definition uses, and that its file neither imports nor defines."""
    for name in FILES:
        path = FOLDER / f"{name}.antt"
        yield from (f"{path}:{number}: {what}" for number, what in _unknown_in(path.read_text("utf-8")))


def _unknown_in(text: str) -> Iterator[tuple[int, str]]:
    """The names that a file lacks, each with its line."""
    imported = [name for _, names, _ in USE.findall(text) for name in (names or "").split(", ")]
    aliases = {alias for _, _, alias in USE.findall(text) if alias}
    known = {*imported, *aliases, *DECLARED.findall(text), *KEYWORDS}
    for number, clause in _clauses(text):
        head = HEAD.match(clause)
        if head:
            patterns, body = head[2], clause[head.end() :]
            words = re.findall(r"(?<![\w.])[A-Za-z_]\w*", patterns)
            matched = [word for word in words if word[0].isupper() or word in CONSTRUCTORS]
            bound = {*words}.difference(matched)
            bound |= {word for found in BOUND.findall(body) for part in found for word in part.split()}
            used = [word for word in matched if word not in known]
            used += [word for word, _ in WORD.findall(body) if word not in known | bound and not _is_field(body, word)]
            operators = [f"◌{sign}{kind}◌" for sign, kind in OPERATOR.findall(body)]
            used += [it for it in dict.fromkeys(operators) if it not in known]
            yield from ((number, f"{head[1]} uses {word}, which no `use` line has") for word in dict.fromkeys(used))


def _is_field(body: str, word: str) -> bool:
    """Whether a word is the name of a field in a record, as `width = w`."""
    return bool(re.search(rf"[{{;] *{word} =", body))


def _clauses(text: str) -> Iterator[tuple[int, str]]:
    """The clauses of definitions without comments, each with the number of its first line."""
    number, clause = 0, ""
    for at, line in enumerate(text.splitlines(), 1):
        line = re.sub(r" *--.*", "", line)
        if line.startswith(" "):
            clause += line
        else:
            if clause and " = " in f"{clause} ":
                yield number, clause
            number, clause = at, line
    if clause:
        yield number, clause
