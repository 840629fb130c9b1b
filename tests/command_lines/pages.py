"""Pages that show what the program answers, made from templates.

A template is Markdown. A line `## TITLE` begins a section, with a machine of its own. Some lines are replaced by
answers:

- `> LINE`: a line of a script for the section's machine; its answer follows it;
- `$ vecmon WORDS`: a run of the program; both of its outputs follow it as one, and then its status. With
  ` > /dev/full` behind the words its standard output takes nothing;
- `@steps NAME`: the script NAME of the lab's tour next to the answers, in the steps that NAME.steps has: the number
  of lines of the script that a step takes, and a sentence;
- `@file NAME`: the text of the file.
"""

import pathlib
import re
import subprocess
from collections.abc import Iterator

from tests.program import answers, lines_of

DATA = pathlib.Path(__file__).parent / "data"
TOURS = pathlib.Path(__file__).parents[2] / "lab" / "vecmon_lab" / "lessons" / "tours"
IMAGES = [f"{name}=images/{name}" for name in ("good", "short", "sum", "squares")]
FULL = " > /dev/full"
LONGEST_SHOWN = 300  # bytes of a line that is shown whole
BEGINNING_SHOWN = 40  # bytes of a longer one

TEMPLATES = {"TOUR.md": "tour.page", "REFUSALS.md": "refusals.page", "COMPILING.md": "compiling.page"}
"""The templates of the pages of docs/, by the names of the pages."""

ALL_TEMPLATES = {**TEMPLATES, "PROGRAM.md": "program.page"}
"""The same with a page of cases that no page of docs/ shows."""


def read(name: str, folder: pathlib.Path = DATA) -> str:
    """A file of `data/` or another folder, a character for each byte."""
    return (folder / name).read_bytes().decode("latin-1")


def page(program: pathlib.Path, name: str) -> str:
    """The page of a template."""
    sections = re.split(r"^(?=## )", read(name), flags=re.MULTILINE)
    return "".join(f"{line}\n" for section in sections for line in _section(program, lines_of(section)))


def _section(program: pathlib.Path, lines: list[str]) -> Iterator[str]:
    """The lines of a section of a page."""
    script = [asked for line in lines for asked in _script_lines(line)]
    reply = zip(script, answers(program, IMAGES, script, DATA) if script else [])
    for line in lines:
        if line.startswith("> "):
            asked, answer = next(reply)
            yield from (f"> {_shown(asked)}", *map(_shown, answer))
        elif line.startswith("$ vecmon"):
            yield from (line, *_program_run(program, line.removeprefix("$ vecmon")))
        elif line.startswith("@steps "):
            yield from _steps(line.removeprefix("@steps "), reply)
        elif line.startswith("@file "):
            yield from lines_of(read(line.removeprefix("@file ")))
        else:
            yield line


def _script_lines(line: str) -> list[str]:
    """The lines of a script for the section's machine that a line of a template has."""
    if line.startswith("@steps "):
        return lines_of(read(line.removeprefix("@steps "), TOURS))
    return [line.removeprefix("> ")] if line.startswith("> ") else []


def _shown(line: str) -> str:
    """A line as it is shown, a long one by how it begins."""
    return line if len(line) <= LONGEST_SHOWN else f"{line[:BEGINNING_SHOWN]} .. ({len(line)} bytes)"


def _program_run(program: pathlib.Path, arguments: str) -> Iterator[str]:
    """The output of a run of the program at a terminal, and its exit status."""
    is_full, pipe = arguments.endswith(FULL), subprocess.PIPE
    with open("/dev/full", "wb") as full:
        completed = subprocess.run(
            [str(program), *arguments.removesuffix(FULL).split()],
            cwd=DATA,
            stdin=subprocess.DEVNULL,
            stdout=full if is_full else pipe,
            stderr=pipe if is_full else subprocess.STDOUT,
            check=False,
        )
    output = completed.stderr if is_full else completed.stdout
    yield from lines_of(output.decode("latin-1"))
    yield from ("$ echo $?", str(completed.returncode))


def _steps(name: str, answers: Iterator[tuple[str, list[str]]]) -> Iterator[str]:
    """A script next to its answers, in steps. Raises ValueError if the steps don't cover all lines."""
    steps = [step.split(" ", 1) for step in lines_of(read(f"{name}.steps", TOURS))]
    if sum(int(count) for count, _ in steps) != len(_script_lines(f"@steps {name}")):
        raise ValueError(f"the steps of {name} don't take its lines")
    for count, sentence in steps:
        yield from (sentence, "", "| script | transcript |", "|---|---|")
        for _ in range(int(count)):
            asked, (first, *more) = next(answers)
            yield f"| `{asked}` | `{first}` |"
            yield from (f"| | `{part}` |" for part in more)
        yield ""
