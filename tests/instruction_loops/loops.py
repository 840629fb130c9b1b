"""The scripts of the loops, and the checksums of their final states."""

import pathlib
from collections.abc import Iterator

from tests.program import run

HERE = pathlib.Path(__file__).parent
DATA = HERE / "data"
CODE = 0x10000  # where the code begins, a page
QUANTUM = "1000"
TURNS = 100  # that a loop goes round at least in a thousand slices of a thousand ticks: a turn takes 6,300 at most

LOOPS = dict(text.split("\n", 1) for text in (DATA / "loops").read_text("ascii").split("\n\n"))
"""The code of each loop by its name."""


def script(name: str, count: int) -> str:
    """The script of a loop with this number of iterations, from new registers and memory to `leave`."""
    user = [*_commands("before"), f"set x9 {count:x}", *_code(LOOPS[name]), f"setpc {CODE:x}", "go"]
    lines = [f"1 {command}" for command in user]
    lines += ["* slices 1000"] * (1 + count // TURNS)
    lines += [f"1 {command}" for command in (*_commands("after"), "leave")]
    return "".join(f"{line}\n" for line in lines)


def checksums(program: pathlib.Path, count: int) -> str:
    """Return a line for each loop: its name, and the checksum of its final state on one machine.

    Raises ValueError if one doesn't end.
    """
    output = run(program, ["--quantum", QUANTUM], "".join(script(name, count) for name in LOOPS), DATA).stdout
    visits = output.split("1 left\n")
    return "".join(f"{name} {_checksum(_left(visit)):016x}\n" for name, visit in zip(LOOPS, visits[:-1], strict=True))


def _commands(name: str) -> list[str]:
    """The commands that a file has."""
    return (DATA / name).read_text("ascii").splitlines()


def _code(code: str) -> Iterator[str]:
    """The commands that write a loop's code."""
    return (f"asm {CODE + 4 * place:x} {text}" for place, text in enumerate(code.splitlines()))


def _left(visit: str) -> str:
    """The answers of a visit after its slices; in the last slice the loop reaches its EBREAK."""
    before, _, left = visit.rpartition("* granted ")
    if "\n1 ebreak pc=" not in before:
        raise ValueError(f"a loop doesn't come to its end: {visit[-1000:]}")
    return left.partition("\n")[2]


def _checksum(text: str) -> int:
    """FNV-1a of 64 bits."""
    value = 0xCBF29CE484222325
    for byte in text.encode("latin-1"):
        value = (value ^ byte) * 0x100000001B3 % (1 << 64)
    return value
