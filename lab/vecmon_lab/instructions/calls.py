"""System calls: which numbers the machine supports, and a sentence for each unsupported call."""

import functools
from collections.abc import Mapping, Sequence

from ..tables.table import read_table

ECALL = 0x73  # its encoding
A0, A7 = 10, 17  # scalar registers: the first argument, which is the file of a write; and the number of the call
WRITE, EXITS, STANDARD_OUTPUT = 64, (93, 94), 1
FILES = {0: " (standard input)", 2: " (standard error)"}
SUPPORTED = "64 (write), 93 and 94 (exit) are"


def is_supported(number: int, file: int) -> bool:
    """Return whether the machine supports a call. number: the value of a7; file: the value of a0, which matters only for a write"""
    return number in EXITS or (number, file) == (WRITE, STANDARD_OUTPUT)


def unsupported_call(x: Sequence[int]) -> str:
    """Return why an ECALL isn't supported, as a sentence without a full stop; "" if it is supported.

    For a call number of RARS (in a7) or Venus (in a0, with 0 in a7), the sentence says what to use here instead.

    x: the 32 scalar registers
    """
    number, file = x[A7], x[A0]
    if is_supported(number, file):
        return ""
    if number == WRITE:
        return f"a write to file {_signed(file)}{FILES.get(file, '')} isn't supported; file 1 (standard output) is"
    systems = _systems()
    if number in systems["RARS"]:
        what, instead = systems["RARS"][number]
        return f"ecall {number} {what} in RARS, and isn't supported here; instead: {instead}"
    if number == 0 and file in systems["Venus"]:
        what, instead = systems["Venus"][file]
        return f"ecall with {file} in a0 {what} in Venus, and 0 in a7 isn't supported here; instead: {instead}"
    name = f" ({systems['Linux'][number][0]})" if number in systems["Linux"] else ""
    return f"ecall {_signed(number)}{name} isn't supported; {SUPPORTED}"


@functools.cache
def _systems() -> Mapping[str, Mapping[int, Sequence[str]]]:
    """Return the calls of Linux, RARS and Venus: for each system, the texts about each call by the call's number.

    For Linux the text is the call's name. For RARS and Venus there are two texts: the effect, and what to write here instead.
    """
    systems: dict[str, dict[int, Sequence[str]]] = {"Linux": {}, "RARS": {}, "Venus": {}}
    for system, number, *cells in read_table("calls"):
        systems[system][int(number)] = cells
    return systems


def _signed(value: int) -> int:
    """Return a register's 64 bits as a signed number."""
    return value - (value >> 63 << 64)
