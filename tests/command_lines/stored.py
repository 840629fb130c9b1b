"""The expected output of pages and command lines, read from `expected/`, and the output of the program now."""

import json
import pathlib
import re
from typing import NamedTuple

from tests.command_lines.pages import ALL_TEMPLATES, DATA, page, read
from tests.program import lines_of, run

HERE = pathlib.Path(__file__).parent
EXPECTED = HERE / "expected"
LINES = lines_of(read("lines"))
END = re.compile(r'^\d+ (\[.*?\])(?: ".*")?\n', re.MULTILINE)


class Stored(NamedTuple):
    """The expected text of each page by its name, and the expected record of each command line."""

    pages: dict[str, str]
    records: dict[str, str]


def scripts_of(line: str) -> list[str]:
    """Return the arguments of a command line that are files in `data/` without `NAME=`: its script, if it has one."""
    return [it for it in json.loads(line) if (DATA / it).is_file()]


def lines_by_file() -> dict[str, list[str]]:
    """Return the command lines by the file in `expected/` that has their records, in the order of `data/lines`."""
    files = dict[str, list[str]]()
    for line in LINES:
        files.setdefault(f"lines/{next(iter(scripts_of(line)), 'usage')}", []).append(line)
    return files


def expected(name: str) -> str:
    """Return the text of a file in `expected/`, or of the files of a folder there, joined in the order of their names."""
    path = EXPECTED / name
    parts = sorted(path.iterdir()) if path.is_dir() else [path]
    return "".join(part.read_bytes().decode("latin-1") for part in parts)


def stored() -> Stored:
    """Return all expected texts. Raises ValueError if a file is missing, has other records, or belongs to nothing."""
    names = [f"pages/{name}" for name in ALL_TEMPLATES]
    records = dict[str, str]()
    for name, lines in lines_by_file().items():
        names.append(name)
        text = expected(name)
        ends = list(END.finditer(text))
        if [end[1] for end in ends] != lines or ends[-1].end() != len(text):
            raise ValueError(f"{EXPECTED / name} does not have one record for each of its command lines, in order")
        starts = [0, *(end.end() for end in ends)]
        records |= {end[1]: text[start : end.end()] for start, end in zip(starts, ends)}
    if len(records) != len(LINES) or len(set(LINES)) != len(LINES):
        raise ValueError(f"{DATA / 'lines'} has a command line twice")
    if unused := [str(path) for path in EXPECTED.rglob("*") if path.is_file() and not _belongs(path, names)]:
        raise ValueError(f"no page and no command line is stored in {', '.join(unused)}")
    return Stored({name: expected(f"pages/{name}") for name in ALL_TEMPLATES}, records)


def _belongs(path: pathlib.Path, names: list[str]) -> bool:
    """Return whether a file is one of these names in `expected/`, or directly in a folder of such a name."""
    name = path.relative_to(EXPECTED)
    return str(name) in names or str(name.parent) in names


def record(program: pathlib.Path, line: str) -> str:
    """Return the program's standard output, and a line with its exit status, the arguments and its standard error."""
    completed = run(program, json.loads(line), (HERE / "stdin").read_text("ascii"), DATA)
    return (
        f"{completed.stdout}{completed.status} {line}{' ' + json.dumps(completed.stderr) if completed.stderr else ''}\n"
    )


def printed(program: pathlib.Path) -> dict[str, str]:
    """Return the output of the program now, by the name in `expected/` of the file or folder that stores it."""
    pages = {f"pages/{name}": page(program, template) for name, template in ALL_TEMPLATES.items()}
    return pages | {name: "".join(record(program, line) for line in lines) for name, lines in lines_by_file().items()}
