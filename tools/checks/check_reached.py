"""Finds what no proof needs: `tools/checks/check_reached`, at the top of the repository.

A declaration in `crates/NAME/proofs` is reached if the code, a contract, a definition, an edit that must fail, an answer or a declaration
that is reached names it. The tool compares names as words, without their modules; a `use` line reaches no name. It prints the place of each
declaration that isn't reached, and the exit status is 1 if there is one.
"""

import re
import sys
from collections import defaultdict
from collections.abc import Iterator
from dataclasses import dataclass, field
from pathlib import Path

FILES = "*/edits/*.edit", "*/must-fail/*.edit", "*/proofs/**/*.antt", "*/specs/**/*.antt", "*/src/**/*.rt"
ANSWERS = {"Answers.antt", "Invariants.antt", "Proof.antt"}
IMPORT = re.compile(r"^ *(?:pub )?use [^{\n]*(?:\{[^}]*\})?.*$", re.MULTILINE)
RENAMED = re.compile(r"([^\s{}.,]+) as ")
NOTE = re.compile(r"--.*|^ *infix.*|//.*", re.MULTILINE)
WORD = re.compile(r"[^\s(){}\[\].,;:◌]+")
BEGIN = re.compile(
    r"(?P<indent> *)(?:(?:pub|abbrev|unfoldable) )*"
    r"(?:(?P<section>module) _|(?:record|data|ruleset) (?P<type>\S+)|(?P<name>\S+) :(?: |$))"
)


@dataclass
class Declaration:
    place: str
    name: str
    words: set[str] = field(default_factory=set)


def words_of(text: str) -> set[str]:
    return set(WORD.findall(text))


def declarations(file: Path) -> Iterator[Declaration]:
    """The declarations of a file, in order. The words before a section's first declaration have no name."""
    text = IMPORT.sub(lambda it: "\n" * it[0].count("\n"), file.read_text(encoding="utf-8"))
    sections: list[int] = []
    last = Declaration(str(file), "")
    for number, line in enumerate(NOTE.sub("", text).splitlines(), 1):
        if start := BEGIN.match(line):
            indent = len(start["indent"])
            while sections and sections[-1] >= indent:
                sections.pop()
            if indent == (sections[-1] + 2 if sections else 0):
                yield last
                name = (start["type"] or start["name"] or "").strip("◌")
                last = Declaration(f"{file}:{number}", name)
                sections += [indent] if start["section"] else []
        last.words |= words_of(line)
    yield last


def main() -> int:
    reached: set[str] = set()
    declared: dict[str, list[Declaration]] = defaultdict(list)
    for file in (it for files in FILES for it in sorted(Path("crates").glob(files))):
        text = file.read_text(encoding="utf-8")
        reached.update(name for line in IMPORT.findall(text) for name in RENAMED.findall(line))
        if file.suffix == ".antt" and file.parts[2] == "proofs" and file.name not in ANSWERS:
            for it in declarations(file):
                declared[it.name].append(it)
        else:
            reached |= words_of(NOTE.sub("", IMPORT.sub("", text)))
    todo = {"", *reached} & declared.keys()
    reached = set()
    while todo:
        reached.add(name := todo.pop())
        todo |= {word for it in declared[name] for word in it.words & declared.keys()} - reached
    unreached = [it for name, those in declared.items() if name not in reached for it in those]
    for it in unreached:
        print(f"{it.place}: nothing reaches {it.name}")
    print(f"{sum(map(len, declared.values()))} declarations of proofs, {len(unreached)} of them not reached")
    return 1 if unreached or not declared else 0


if __name__ == "__main__":
    sys.exit(main())
