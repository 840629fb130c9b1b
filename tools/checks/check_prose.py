"""Counts indirect forms and long sentences, and compares them with limits: `tools/checks/check_prose [--comments | --list PATH]`, at the top
of the repository.

A row for each group of pages in docs/book.toml, for messages, and for the comments of some folders has the words, the forms in a thousand
words, the share of sentences above 30 words, and the page of 500 words or more with most forms. Messages are the strings of the lab, the
tools and the crates, and the texts of exercises and lessons. Comments are those of Python with its docstrings, of scripts and styles of
pages, of Rattle, of definitions and proofs, and of the texts of edits that must fail. The status is 1 if a figure is above its limit.

With --comments, the rows of comments and the files with forms in their comments are printed instead, most forms first. With --list, each
place below PATH is printed instead: a form with its line, or a long sentence. tools/checks/prose_allowed.txt lists places where a form is
right.
"""

import re
import sys
from collections.abc import Iterable
from dataclasses import dataclass, field
from functools import cache
from pathlib import Path

from tools.checks.prose_texts import READERS, Block
from tools.documents.book_html.navigation import read_groups

LONG = 30  # words: a sentence above this counts as long
SMALL = 500  # words: below this a page has no limit of its own
ALLOWED = "tools/checks/prose_allowed.txt"

FORMS = {
    name: re.compile(form)
    for name, form in {
        "tell": r"\b(tells?|told|telling)\b",
        "stand": r"\b(stands?|stood|standing)\b",
        "carry out": r"\bcarr(y|ies|ied|ying) out\b",
        "put out": r"\bput(s|ting)? out\b",
        "what clause": r"(?:^|[.;:,(] )[Ww]hat (?!is\b|are\b|does\b|do\b)\w+",
        "who, whoever": r"(?:^|[.;] )(Who|Whoever)\b|\bwhoever\b",
        "is to be": r"\bcan't be had\b|\bcan be had\b|\bis to be\b",
        "of which": r"\bof which\b",
        "one": r"\bone's own\b|\bas one (who|does|works)\b",
        "words": r"\bwords? of (a|the|its|options?|commands?)\b",
        "beside": r"\bbeside\b",
        "so many": r"\bso many\b|\bas (often|many) as\b",
        "the begin": r"\bthe begin\b",
        "answers": r"^\s*Answers\b",
        "made of": r"\b(made|comes|came|come) of\b",
        "part": r"\bpartings?\b|\bruns part\b",
        "where, if": r"(?:^|[.;:,(] )[Ww]here (it|that|this|there|no|none|nothing|one)\b",
        "behind": r"\bbehind (it|them|which|that|this)\b",
        "alone": r"\balone\b",
        "of what": r"\bof (what|none)\b|\bwith whether\b|\bin vain\b",
    }.items()
}

MESSAGES = (
    "lab/vecmon_lab/**/*.*",
    "lab/examples/**/*.s",
    "lab/tools/*.py",
    "tools/**/*.py",
    "crates/*/src/**/*.rt",
    "crates/*/specs/**/*.antt",
    "tests/command_lines/data/*.page",
)

COMMENTS = {
    "comments of lab": ("lab/vecmon_lab/**/*.*",),
    "comments of lab tests": ("lab/tests/**/*.py", "lab/support/*.py", "lab/tools/*.py"),
    "comments of tests": ("tests/**/*.py",),
    "comments of tools": ("tools/**/*",),
    "comments of crates": (
        "crates/*/src/**/*.rt",
        "crates/*/specs/**/*.antt",
        "crates/*/proofs/**/*.antt",
        "crates/*/edits/*.edit",
        "crates/*/must-fail/*.edit",
    ),
}


@dataclass(frozen=True)
class Limits:
    """The highest figures allowed: forms in a thousand words, those of one page, and the share of long sentences in percent."""

    forms: float
    page: float
    long: float


LIMITS = {
    "users": Limits(1, 3, 2),
    "teachers": Limits(1, 3, 2),
    "engineers": Limits(1, 3, 2),
    "messages": Limits(1, 3, 0.5),
    "comments of lab": Limits(1, 3, 2.5),
    "comments of lab tests": Limits(1, 3, 1),
    "comments of tests": Limits(1, 3, 5.5),
    "comments of tools": Limits(1, 3, 4.5),
    "comments of crates": Limits(1, 3, 0.5),
}


@dataclass
class Count:
    """Words, sentences, and the places of forms and long sentences, of one file or of several."""

    words: int = 0
    sentences: int = 0
    forms: list[str] = field(default_factory=list)
    long: list[str] = field(default_factory=list)

    def add(self, other: "Count") -> None:
        """Adds the figures of another one."""
        self.words += other.words
        self.sentences += other.sentences
        self.forms += other.forms
        self.long += other.long

    @property
    def in_a_thousand(self) -> float:
        return 1000 * len(self.forms) / max(self.words, 1)

    @property
    def long_percent(self) -> float:
        return 100 * len(self.long) / max(self.sentences, 1)


class Allowed:
    """The places where a form is right: a path, two spaces, and a text of the line. An entry that allows nothing is a fault."""

    def __init__(self, text: str) -> None:
        lines = [line for line in text.split("\n") if line and not line.startswith("#")]
        self.entries = [(path, phrase) for path, _, phrase in (line.partition("  ") for line in lines)]
        self.used = set[tuple[str, str]]()

    def allows(self, path: str, line: str) -> bool:
        """Whether a form in this line of the file is allowed."""
        found = [entry for entry in self.entries if entry[0] == path and entry[1] in line]
        self.used.update(found)
        return bool(found)

    def unused(self) -> list[str]:
        """Return a message for each entry that allowed nothing."""
        return [
            f"{ALLOWED}: {path}: '{it}' not found; remove the entry"
            for path, it in self.entries
            if (path, it) not in self.used
        ]


def sentences_of(block: Block) -> list[str]:
    """Return a block's sentences: each ends at a full stop, a question mark or an exclamation mark before a space, or with the block."""
    return [it for it in re.split(r"(?<=[.?!])\s+(?=[A-Z`*\[\"(])", " ".join(block.lines).strip()) if it]


def words_in(text: str) -> int:
    """Return the number of words in a text; code counts as one word."""
    return sum(any(character.isalnum() or character == "`" for character in word) for word in text.split())


def count_block(path: str, block: Block, allowed: Allowed) -> Count:
    """Return the figures of one block of a file."""
    count = Count()
    for number, line in enumerate(block.lines, block.line):
        count.words += words_in(line)
        for name, form in FORMS.items():
            if form.search(line) and not allowed.allows(path, line):
                count.forms += [f"{path}:{number}: {name}: {line.strip()[:110]}"] * len(form.findall(line))
    for sentence in sentences_of(block):
        count.sentences += 1
        if (length := words_in(sentence)) > LONG:
            count.long.append(f"{path}:{block.line}: {length} words: {sentence[:110]}")
    return count


def counts_of(top: Path, path: str, allowed: Allowed) -> tuple[Count, Count]:
    """Return the figures of a file's texts and of its comments."""
    texts, comments = Count(), Count()
    for block in READERS[suffix_of(top / path)]((top / path).read_text("utf-8", errors="replace")):
        (comments if block.comment else texts).add(count_block(path, block, allowed))
    return texts, comments


def suffix_of(path: Path) -> str:
    """Return the suffix by which a file is read: `.py` for a program in Python without one."""
    if path.suffix or not path.is_file():
        return path.suffix
    with path.open("rb") as file:
        return ".py" if re.match(rb"#!.*python", file.readline()) else ""


def paths_of(top: Path, patterns: Iterable[str]) -> list[str]:
    """Return the files of these patterns that can be read, each once, in order."""
    found = {it for pattern in patterns for it in top.glob(pattern) if it.is_file() and suffix_of(it) in READERS}
    return sorted(str(it.relative_to(top)) for it in found)


def count_all(top: Path, allowed: Allowed) -> dict[str, dict[str, Count]]:
    """Return the figures of each file, by the names of the groups of pages, `messages`, and the groups of comments."""
    read = cache(lambda path: counts_of(top, path, allowed))
    rows = {group.name: {page: read(page)[0] for page in group.pages} for group in read_groups(top)}
    rows["messages"] = {path: read(path)[0] for path in paths_of(top, MESSAGES)}
    return rows | {name: {path: read(path)[1] for path in paths_of(top, it)} for name, it in COMMENTS.items()}


def report(name: str, files: dict[str, Count]) -> tuple[str, list[str]]:
    """Return a group's row, and a message for each of its figures that is above its limit."""
    whole = Count()
    for count in files.values():
        whole.add(count)
    pages = {path: count.in_a_thousand for path, count in files.items() if count.words >= SMALL}
    worst = max(pages, key=lambda path: pages[path], default="")
    most = pages.get(worst, 0.0)
    row = f"{name:21}  {whole.words:7} words  {whole.in_a_thousand:5.1f} in 1000  {whole.long_percent:5.1f} % long  most: {most:.1f} {worst}"
    limits, faults = LIMITS[name], list[str]()
    if whole.in_a_thousand > limits.forms:
        faults.append(f"{name}: {whole.in_a_thousand:.2f} forms in 1000 words, at most {limits.forms}")
    if most > limits.page:
        faults.append(f"{worst}: {most:.2f} forms in 1000 words, at most {limits.page} on a page; see --list {worst}")
    if whole.long_percent > limits.long:
        faults.append(
            f"{name}: {whole.long_percent:.2f} % of the sentences are above {LONG} words, at most {limits.long} %"
        )
    return row, faults


def comments_report(rows: dict[str, dict[str, Count]]) -> str:
    """Return the row of each group of comments, and below them each file with forms in its comments, most forms first."""
    files = [(count, path) for name in COMMENTS for path, count in rows[name].items() if count.forms]
    files.sort(key=lambda it: len(it[0].forms), reverse=True)
    lines = [f"{len(count.forms):5} forms  {count.in_a_thousand:5.1f} in 1000  {path}" for count, path in files]
    return "\n".join([report(name, rows[name])[0] for name in COMMENTS] + lines)


def main(arguments: list[str]) -> int:
    """Prints the figures, or the places below a path; returns the exit status."""
    top = Path()
    allowed = Allowed((top / ALLOWED).read_text("utf-8"))
    rows = count_all(top, allowed)
    if arguments[:1] == ["--list"] and len(arguments) == 2:
        counts = [count for files in rows.values() for path, count in files.items() if path.startswith(arguments[1])]
        print("\n".join(place for count in counts for place in count.forms + count.long))
        return 0
    if arguments == ["--comments"]:
        print(comments_report(rows))
        return 0
    if arguments:
        print("tools/checks/check_prose: usage: tools/checks/check_prose [--comments | --list PATH]", file=sys.stderr)
        return 2
    reports = [report(name, files) for name, files in rows.items()]
    faults = [fault for _, found in reports for fault in found] + allowed.unused()
    print("\n".join([row for row, _ in reports] + faults))
    return 1 if faults else 0


if __name__ == "__main__":
    sys.exit(main(sys.argv[1:]))
