"""The shell blocks of the documents, each with the marker above it, and runs of them.

A block is a fence of `sh`, or one of `text` or `console` with a line that begins with `$ `: a session, which also shows what each command
prints. The line above a block is its marker, an HTML comment:

    <!-- run: in a new folder -->              it runs in an empty folder
    <!-- run: in the examples; needs gdb -->   it runs in a folder that `vecmon-lab examples` makes; more programs have a comma between them
    <!-- run: goes on -->                      it runs in the shell of the block above it
    <!-- not run: REASON -->                   it is run by hand; NOT_RUN has the reasons
    <!-- tested by PATH -->                    another test runs it
"""

import pathlib
import re
import subprocess
from collections.abc import Iterator, Mapping, Sequence
from dataclasses import dataclass, field

NOT_RUN = {
    "synopsis": "it shows the forms of a command",
    "kit": "it needs the Rattle kit, and most of these prove crates",
    "package": "it needs a package, and most of these need root",
    "root": "it needs root, or a network, to install something",
    "machines": "it needs other machines",
    "server": "it serves until Ctrl-C",
    "minutes": "it takes minutes of processor, or measures time",
    "files": "it runs on the reader's own files",
    "output": "its output depends on the installation, or is long and isn't shown",
}
"""Reasons why a block is run only by hand."""

PLACES = ("in a new folder", "in the examples", "goes on")
_BLOCK = re.compile(r"(?:^[^\n]*\n)?^( *)```(sh|text|console)\n(.*?)^ *```$", re.MULTILINE | re.DOTALL)
_RUN = re.compile(rf"<!-- run: ({'|'.join(PLACES)})(?:; needs ([\w, -]+?))? -->")
_TOKEN = "\x1d"  # between what commands print
_SECONDS = re.compile(r"\b\d+\.\d+s\b")


@dataclass(frozen=True)
class Block:
    """A block of a page: the number of its fence's line, the line above it, and its own lines."""

    page: str
    number: int
    marker: str
    lines: Sequence[str]

    @property
    def is_session(self) -> bool:
        """Whether it has commands behind `$ `, and what they print."""
        return any(line.startswith("$ ") for line in self.lines)

    @property
    def place(self) -> str:
        """Where it starts, one of PLACES; empty if it isn't run."""
        found = _RUN.fullmatch(self.marker)
        return found[1] if found else ""

    @property
    def needs(self) -> list[str]:
        """The programs that it needs."""
        found = _RUN.fullmatch(self.marker)
        return found[2].split(", ") if found and found[2] else []

    def steps(self) -> list[tuple[str, str]]:
        """Its commands, each with its output. A block that is no session is one command, whose output isn't known."""
        if not self.is_session:
            return [("\n".join(self.lines), "")]
        parts = re.split(r"^\$ ", "\n".join(self.lines) + "\n", flags=re.MULTILINE)[1:]
        return [
            (found[1], found[2])
            for part in parts
            if (found := re.match(r"((?:[^\n]*\\\n)*[^\n]*\n)(.*)", part, re.DOTALL))
        ]


@dataclass
class Chain:
    """Blocks that run in one shell, in their order."""

    blocks: list[Block] = field(default_factory=list)

    def __str__(self) -> str:
        return f"{self.blocks[0].page}:{self.blocks[0].number}"

    @property
    def needs(self) -> list[str]:
        """The programs that they need."""
        return sorted({name for block in self.blocks for name in block.needs})

    def faults(self, folder: pathlib.Path, variables: Mapping[str, str]) -> Iterator[str]:
        """Run the blocks in a folder; return those that fail, and those whose output differs from the page."""
        steps = [(block, *step) for block in self.blocks for step in block.steps()]
        lines = ["set +e", "status=0", "exec 2>&1"]
        for at, (block, command, _) in enumerate(steps):
            (folder / f".step{at}").write_text(command, "utf-8")
            run = (
                f'(exit $status); . "{folder}/.step{at}"'
                if block.is_session
                else f'set -e; . "{folder}/.step{at}"; set +e'
            )
            lines += [run, "status=$?", f"printf '{_TOKEN}'"]
        completed = subprocess.run(
            ["bash", "-c", "\n".join(lines)],
            cwd=folder / "work",
            env=variables,
            stdin=subprocess.DEVNULL,
            stdout=subprocess.PIPE,
            text=True,
            timeout=600,
        )
        output = completed.stdout.split(_TOKEN)
        for at, (block, command, shown) in enumerate(steps):
            if at + 1 >= len(output):
                yield f"{block.page}:{block.number}: it fails with status {completed.returncode}: {command}{output[at] if at < len(output) else ''}"
                return
            if block.is_session and _SECONDS.sub("", output[at]) != _SECONDS.sub("", shown):
                yield f"{block.page}:{block.number}: $ {command}prints\n{output[at]}in place of\n{shown}"


def blocks_of(page: str, text: str) -> list[Block]:
    """The blocks of a page."""
    found = []
    for match in _BLOCK.finditer(text):
        lines = [line.removeprefix(match[1]) for line in match[3].split("\n")[:-1]]
        before, _, _ = match[0].partition(f"{match[1]}```")
        block = Block(page, text.count("\n", 0, match.start(1)) + 1, before.strip(), lines)
        if match[2] == "sh" or block.is_session:
            found.append(block)
    return found


def misplaced(block: Block, top: pathlib.Path) -> str:
    """What is wrong with a block's marker; nothing if it is one of those above."""
    if tested := re.fullmatch(r"<!-- tested by (\S+) -->", block.marker):
        path = top / tested[1]
        return "" if path.is_file() and block.page in path.read_text("utf-8") else f"{path} doesn't name {block.page}"
    if reason := re.fullmatch(r"<!-- not run: (\w+) -->", block.marker):
        return "" if reason[1] in NOT_RUN else f"{reason[1]} is no reason: {', '.join(NOT_RUN)} are"
    return "" if block.place else f"the line above the block is no marker, but {block.marker!r}"


def chains_of(blocks: Sequence[Block]) -> list[Chain]:
    """The blocks of a page that are run, in chains."""
    chains: list[Chain] = []
    for block in blocks:
        if not block.place:
            continue
        if block.place != "goes on":
            chains.append(Chain())
        chains[-1].blocks.append(block)
    return chains
