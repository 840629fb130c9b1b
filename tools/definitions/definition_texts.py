"""The texts of definitions in the order in which docs/DEFINITIONS.md has them read: `tools/definitions/definitions --print WORD`.

Each file begins with its path as a comment. Of a definition the lines are printed that the count includes, with the comment above it.
"""

import re
from collections import defaultdict
from dataclasses import dataclass
from pathlib import Path

from tools.definitions.definitions import (
    ADDITION,
    CRATES,
    HEADLINE,
    Name,
    Part,
    Text,
    closure,
    is_counted,
    lines_of,
    source_of,
    start_of,
)

PAGE = Path("docs/DEFINITIONS.md")
PATHS = {"headline": (HEADLINE, Part()), "vadd.vv": (HEADLINE, ADDITION)}
"""The start of the closure for each word that isn't a clause, and the part of it that is printed."""


def reading_order() -> list[Path]:
    """The files of `rv_model/specs` that the page names, in its order: those of the hour first, then all others."""
    found, folder = list[Path](), ""
    page = PAGE.read_text(encoding="utf-8")
    for row in re.findall(r"^\|(.*)\|$", page, re.MULTILINE):
        cells = [cell.strip() for cell in row.split("|")]
        module = re.fullmatch(r"`(\w+)`", cells[0])
        folder = f"{module[1]}/" if module else ""
        for name in re.findall(
            r"`([\w/]+)`", cells[2] if module and len(cells) > 2 else cells[1] if len(cells) > 1 else ""
        ):
            if name.startswith("rv_model/"):
                found.append(CRATES / f"{name}.rt")
                continue
            folder = f"{name.rpartition('/')[0]}/" if "/" in name else folder
            found.append(CRATES / "rv_model/specs" / f"{name if '/' in name else folder + name}.antt")
    return list(dict.fromkeys(found))


def comment_above(source: str, text: str) -> str:
    """The comment directly above a declaration in its file."""
    above, is_there, _ = source.partition(text.split("\n")[0])
    before = above.split("\n")[:-1] if is_there else []
    lines = list[str]()
    while before and re.match(r"(--|///?)", before[-1]):
        lines.insert(0, f"{before.pop()}\n")
    return "".join(lines)


@dataclass(frozen=True)
class Definition:
    """A definition with the comment above it. Of `text` the lines are counted."""

    name: Name
    text: Text
    comment: str

    @property
    def shown(self) -> str:
        """The comment and the definition."""
        return f"{self.comment}{self.text.text.strip()}\n"


def closure_of(word: str) -> dict[Name, Text]:
    """The definitions and types behind `headline`, `vadd.vv`, a clause or a definition."""
    start, part = PATHS.get(word, (word, Part()))
    return closure(start_of(start), part)


def by_file(found: dict[Name, Text]) -> dict[Path, list[Definition]]:
    """Definitions or types by their files, in reading order."""
    files = defaultdict[Path, list[Definition]](list)
    for name, text in found.items():
        source = source_of(text.path)
        files[text.path].append(Definition(name, text, comment_above(source, text.text)))
    order = {path: place for place, path in enumerate(reading_order())}
    return {
        path: sorted(files[path], key=lambda it: (source_of(path).find(it.text.text.split("\n")[0]), it.name))
        for path in sorted(files, key=lambda path: (order.get(path, len(order)), path))
    }


def counted_of(found: dict[Name, Text]) -> dict[Name, Text]:
    """The definitions whose lines are counted: no types of `src`, and nothing of the kit."""
    return {name: text for name, text in found.items() if text.text and is_counted(name)}


def texts(word: str) -> str:
    """The definitions behind `headline`, `vadd.vv` or a clause, in reading order, with the number of their lines and files."""
    found = counted_of(closure_of(word))
    files = by_file(found)
    pages = ("\n".join([f"---- {path}\n", *(it.shown for it in those)]) for path, those in files.items())
    return "\n".join([*pages, f"-- {sum(lines_of(it.text) for it in found.values()):,} lines in {len(files)} files"])
