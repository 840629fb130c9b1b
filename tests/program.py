"""The program under test: its path, its output and status, and the answers to each line of a
script."""

import os
import pathlib
import resource
import subprocess
from collections.abc import Sequence
from dataclasses import dataclass

TOP = pathlib.Path(__file__).resolve().parent.parent
CONTEXT = 3  # lines before a difference
SHOWN = 12  # lines from it on
STACK = int(os.environ.get("VECMON_STACK", 1 << 20))
"""The bytes of stack that the programs need at most (docs/GUARANTEES.md, "Trusted"): those of Rattle's own compiler need more."""


@dataclass(frozen=True)
class Run:
    """The output of a run of the program. Texts have a character for each byte."""

    stdout: str
    stderr: str
    status: int


def built() -> pathlib.Path:
    """The program that the variable VECMON names; without it the one that is built in this checkout."""
    return pathlib.Path(os.environ.get("VECMON") or TOP / "crates/vecmon/out/vecmon").absolute()


def limit_stack() -> None:
    """Limits this process's stack, and that of the program that it then executes, to `STACK`."""
    resource.setrlimit(resource.RLIMIT_STACK, (STACK, resource.getrlimit(resource.RLIMIT_STACK)[1]))


def is_native(program: pathlib.Path) -> bool:
    """Whether a file is an ELF program, and not a script, such as one that runs a program under node."""
    with program.open("rb") as file:
        return file.read(4) == b"\x7fELF"


def run(program: pathlib.Path, arguments: Sequence[str], script: str, folder: pathlib.Path) -> Run:
    """Runs the program on words in a folder, with a script on standard input, and a stack of `STACK` bytes if it is native."""
    completed = subprocess.run(
        [program, *arguments],
        input=script.encode("latin-1"),
        cwd=folder,
        capture_output=True,
        check=False,
        preexec_fn=limit_stack if is_native(program) else None,
    )
    return Run(completed.stdout.decode("latin-1"), completed.stderr.decode("latin-1"), completed.returncode)


def lines_of(text: str) -> list[str]:
    """Return the lines of a text; only a newline ends one."""
    return text.removesuffix("\n").split("\n") if text else []


def sync_line(line: str) -> tuple[str, str]:
    """A line that changes nothing, to be written behind a line of a script, and its answer, which that line never has.

    A user's line is answered by a user's lines, nobody's by `* E01` or `* E02`, the operator's never by `* E01`.
    """
    return ("9", "* E01") if line.startswith("* ") else ("* dance", "* E03")


def answers(
    program: pathlib.Path, arguments: Sequence[str], lines: Sequence[str], folder: pathlib.Path
) -> list[list[str]]:
    """What is answered to each line of a script. Raises ValueError where a plain run answers otherwise."""
    script = "".join(f"{line}\n{sync_line(line)[0]}\n" for line in lines)
    output = iter(lines_of(run(program, ["/dev/stdin", *arguments], script, folder).stdout))
    divided = []
    for line in lines:
        end = sync_line(line)[1]
        divided.append(list(iter(lambda: next(output), end)))
    plain = run(program, ["/dev/stdin", *arguments], "".join(f"{line}\n" for line in lines), folder)
    if "".join(f"{part}\n" for answer in divided for part in answer) != plain.stdout:
        raise ValueError("marks between the lines of a script change what is answered")
    return divided


def difference(printed: str, stored: str) -> str:
    """The first lines that differ from the stored text; empty if there are none."""
    if printed == stored:
        return ""
    now, expected = printed.split("\n"), stored.split("\n")
    same = 0
    while same < min(len(now), len(expected)) and now[same] == expected[same]:
        same += 1
    shown = [f"line {same + 1} differs:", *(f"  {line}" for line in now[max(0, same - CONTEXT) : same])]
    shown += [f"- {line}" for line in expected[same : same + SHOWN]] + [
        f"+ {line}" for line in now[same : same + SHOWN]
    ]
    return "\n".join(shown)
