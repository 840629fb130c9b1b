"""The lines of a log of instructions, and the registers and the memory after them."""

from collections.abc import Iterator
from dataclasses import dataclass, field, replace

from vecmon_lab.instructions.accesses import REGISTER_BYTES
from vecmon_lab.machine.answers import ControlRegisters

CONTROLS = {"c8_vstart": "vstart", "c9_vxsat": "vxsat", "c10_vxrm": "vxrm", "c3104_vl": "vl", "c3105_vtype": "vtype"}
PLACE = "core   0: 0 0x"  # the beginning of each line


@dataclass
class LogLine:
    """The content of a line.

    scalars, vectors: the values of these registers after the line; vectors as bytes, the lowest first
    controls: the values of these control registers, by their fields; type_and_length: as `e32 m1 l8`
    loads: the addresses of the elements that were loaded; stores: address and bytes of each that was stored
    """

    pc: int
    word: int
    scalars: dict[int, int] = field(default_factory=dict)
    vectors: dict[int, bytes] = field(default_factory=dict)
    controls: dict[str, int] = field(default_factory=dict)
    type_and_length: str = ""
    loads: list[int] = field(default_factory=list)
    stores: list[tuple[int, bytes]] = field(default_factory=list)


@dataclass
class Replayed:
    """The registers that lines lead to."""

    x: list[int]
    v: bytearray
    control: ControlRegisters

    def apply(self, line: LogLine) -> None:
        """Writes what a line says over the registers."""
        for number, value in line.scalars.items():
            self.x[number] = value
        for number, octets in line.vectors.items():
            self.v[REGISTER_BYTES * number : REGISTER_BYTES * (number + 1)] = octets
        self.control = replace(self.control, **line.controls)


def read_line(text: str) -> LogLine:
    """Reads a line of a log. Raises ValueError for any other text."""
    words = text.split()
    if not text.startswith(PLACE) or words[4][0] != "(" or words[4][-1] != ")":
        raise ValueError(text)
    line, rest = LogLine(int(words[3], 16), int(words[4][1:-1], 16)), iter(words[5:])
    for word in rest:
        if word[0] == "e":
            line.type_and_length = f"{word} {next(rest)} {next(rest)}"
        elif word == "mem":
            line.loads.append(_number(next(rest)))
        elif word.startswith("0x"):
            line.stores.append((line.loads.pop(), bytes.fromhex(word[2:])[::-1]))
        elif word in CONTROLS:
            line.controls[CONTROLS[word]] = _number(next(rest))
        elif word[0] == "v":
            line.vectors[int(word[1:])] = bytes.fromhex(next(rest)[2:])[::-1]
        elif word[0] == "x":
            line.scalars[int(word[1:])] = _number(next(rest))
        else:
            raise ValueError(text)
    return line


def read_log(text: str) -> tuple[list[LogLine], str]:
    """The lines of a log, and its last line, which says how the run ended."""
    lines = text.splitlines()
    return [read_line(line) for line in lines[:-1]], lines[-1]


def bytes_stored(line: LogLine) -> Iterator[tuple[int, int]]:
    """Each byte that a line stores, by its address modulo 2^64, in the order in which they are stored."""
    for address, octets in line.stores:
        for place, byte in enumerate(octets):
            yield (address + place) % 2**64, byte


def _number(digits: str) -> int:
    if not digits.startswith("0x"):
        raise ValueError(digits)
    return int(digits, 16)
