"""The monitor's answers, as in docs/COMMANDS.md: where an answer ends, and its meaning.

No other module parses the text of an answer. The answer to a user's line is one line, except for an accepted `regs` (9 lines) and an
accepted `dis ADDR N` (N lines). The answer to an operator's line has the stop lines of the slices that it granted, and then a line that
starts with `*`.
"""

import functools
import re
from collections.abc import Callable, Sequence
from dataclasses import dataclass
from fractions import Fraction
from typing import Literal

from .. import LabError
from ..tables.table import read_table
from .lines import command_of, words_of

Run = Literal["absent", "stopped", "running"]
"""The state of a user's machine and program."""

_REFUSAL = re.compile(r"\* E0[34]|[1-8] E(?:0[3-8]|09 [A-Za-z]+|1[0-46]|15 [0-9]+)")
_STOP = "(?:(?:break|ebreak|outfull|exit D) pc=V16|fault cause=[01257] pc=V16 value=V16)"
_WORDS = {"STOP": _STOP, "V16": "[0-9a-f]{16}", "WORD": "[0-9a-f]{8}", "HEX": "(?:[0-9a-f]{2})+", "D": "[0-9]+"}


def _pattern(form: str, role: str = "[1-8*]") -> re.Pattern[str]:
    """Return the pattern of a line of an answer, with its prefix.

    form: the line after the prefix, in which words such as STOP stand for patterns; role: the pattern of the prefix's character
    """
    for word, expression in _WORDS.items():
        form = form.replace(word, expression)
    return re.compile(f"{role} (?:{form})")


_NO_OUTPUT = "out 0"
_STOP_LINE = _pattern("STOP", "[1-8]")
_LINES = {command: _pattern(form) for command, form in read_table("answers")}
VILL = 1 << 63  # vtype while no vector type is set
# Number of lines of an answer, if not 1; 0 if stop lines may precede the last line.
_COUNTS = {"regs": 9, "* slices": 0, "* run": 0}


class OutOfStep(LabError):
    """The program's output isn't an answer to the line that was sent."""


@dataclass(frozen=True)
class Refused:
    """A line that was refused.

    code: `E01` to `E16`
    detail: for E09 the fault of the image, for E15 the column; "" for other codes
    """

    code: str
    detail: str = ""

    def __str__(self) -> str:
        return f"{self.code} {self.detail}".rstrip()


@dataclass(frozen=True)
class Done:
    """A line that was accepted and shows nothing: `entered`, `left` or `ok`."""

    word: str


@dataclass(frozen=True)
class Loaded:
    """An image that was loaded: the address of its entry, and the number of the user's pages."""

    pc: int
    pages: int


@dataclass(frozen=True)
class Memory:
    """Consecutive bytes of memory. address: of the first byte"""

    address: int
    data: bytes


@dataclass(frozen=True)
class ScalarRegisters:
    """The program counter, and the values of x0 to x31."""

    pc: int
    x: Sequence[int]


@dataclass(frozen=True)
class VectorRegister:
    """The 32 bytes of a vector register. width: the number of bits of an element in the answer, which shows the register by elements"""

    number: int
    width: int
    data: bytes


@dataclass(frozen=True)
class ControlRegisters:
    """The vector control registers, in the order of the answer. The legality of an instruction depends only on vtype and vstart."""

    vl: int = 0
    vtype: int = VILL
    vstart: int = 0
    vxrm: int = 0
    vxsat: int = 0

    @property
    def sew(self) -> int:
        """The selected element width (SEW) in bits."""
        return 8 << (self.vtype >> 3 & 7)

    @property
    def lmul(self) -> Fraction:
        """The group multiplier (LMUL), from 1/8 to 8."""
        return Fraction(2) ** (((self.vtype & 7) + 4) % 8 - 4)

    @property
    def vlmax(self) -> int:
        """VLMAX: the number of elements of a register group; 0 if vill is set."""
        if self.vtype >> 63:
            return 0
        shift = ((self.vtype & 7) + 4) % 8 - 4  # log2 of LMUL
        return (256 << shift) // self.sew if shift >= 0 else 256 // self.sew >> -shift


CONTROL = tuple(vars(ControlRegisters()))


@dataclass(frozen=True)
class Word:
    """An instruction of a program. text: its canonical text, which `dis` shows; "" in an answer to `asm`"""

    address: int
    word: int
    text: str = ""


@dataclass(frozen=True)
class Listing:
    """Consecutive instructions."""

    words: Sequence[Word]


@dataclass(frozen=True)
class Addresses:
    """The addresses that an answer to `breaks` or `trace` shows. name: the command, `breaks` or `trace`"""

    name: str
    addresses: Sequence[int]


@dataclass(frozen=True)
class ProgramState:
    """The state of a program in an answer.

    kind: the start of the answer, such as `exit` or `state running`
    pc: the program counter
    number: the number of steps if the kind is `stepped`, the exit status if it is `exit`, and otherwise 0
    cause, value: the cause and the value of a fault; 0 for other kinds
    """

    kind: str
    pc: int
    number: int = 0
    cause: int = 0
    value: int = 0

    @property
    def what(self) -> str:
        """The kind, and for a fault also its cause."""
        return f"fault cause={self.cause}" if self.kind == "fault" else self.kind

    def __str__(self) -> str:
        number = f" {self.number}" if self.kind in ("stepped", "exit") else ""
        value = f" value={self.value:016x}" if self.kind == "fault" else ""
        return f"{self.what}{number} pc={self.pc:016x}{value}"


class Position(ProgramState):
    """The position of a program in an answer that isn't a stop of the program by itself.

    kind: `stepped`, `running` or `stopped`; in an answer to `state`, `state running` or `state stopped`
    """

    @property
    def run(self) -> Run:
        """Whether the program runs: `running` or `stopped`."""
        return "running" if self.kind.endswith("running") else "stopped"


class Stop(ProgramState):
    """A stop of a program by itself. kind: `exit`, `fault`, `break`, `ebreak`, or `outfull` for a full output buffer"""


@dataclass(frozen=True)
class Output:
    """The output of a program since the last `out`."""

    data: bytes


@dataclass(frozen=True)
class Granted:
    """The number of slices that a line granted, and the programs' stops in these slices, each after the digit of the program's user."""

    slices: int
    stops: Sequence[tuple[str, Stop]] = ()


@dataclass(frozen=True)
class Users:
    """The state of each user's program, by the user's digit: `-` (absent), `stopped` or `running`."""

    runs: dict[str, str]


@dataclass(frozen=True)
class Switches:
    """The counts of the vector unit, by name: `saves`, `restores` and `inits`.

    The entry `owner` is the user whose state the vector unit holds, or 0.
    """

    counts: dict[str, int]


Answer = (
    Refused | Done | Loaded | Memory | ScalarRegisters | VectorRegister | ControlRegisters | Word | Listing | Addresses
) | (Position | Stop | Output | Granted | Users | Switches)


def _value(word: str) -> int:
    """Return the hexadecimal number after `NAME=`."""
    return int(word.partition("=")[2], 16)


# By the start of an answer; each is called with the parts of the line, which spaces separate.
_READERS: dict[str, Callable[..., Answer]] = {
    **dict.fromkeys(("entered", "left", "ok"), Done),
    "loaded": lambda _, pc, pages: Loaded(_value(pc), int(pages.partition("=")[2])),
    "peek": lambda _, address, digits: Memory(int(address, 16), bytes.fromhex(digits)),
    **dict.fromkeys(("breaks", "trace"), lambda name, *values: Addresses(name, [int(value, 16) for value in values])),
    "stepped": lambda kind, number, pc: Position(kind, _value(pc), int(number)),
    **dict.fromkeys(("running", "stopped"), lambda kind, pc: Position(kind, _value(pc))),
    "state": lambda kind, run, pc: Position(f"{kind} {run}", _value(pc)),
    **dict.fromkeys(("break", "ebreak", "outfull"), lambda kind, pc: Stop(kind, _value(pc))),
    "exit": lambda kind, status, pc: Stop(kind, _value(pc), int(status)),
    "fault": lambda kind, cause, pc, value: Stop(kind, _value(pc), 0, int(cause[-1]), _value(value)),
    "out": lambda _, number, digits="": Output(bytes.fromhex(digits)),
    "list": lambda _, *users: Users({user[0]: user[2:] for user in users}),
    "saves": lambda *words: Switches({name: int(count) for name, count in zip(words[::2], words[1::2])}),
}


def read(answer: Sequence[str]) -> Answer:
    """Parse a whole answer. Raises ValueError if it has no known form. answer: its lines, each with its prefix"""
    *before, last = answer
    first, *others = words = last[2:].split(" ")
    if first in _READERS:
        try:
            return _READERS[first](*words)
        except TypeError as error:
            raise ValueError(f"no answer: {last}") from error
    if first == "granted":
        stops = [(line[0], stop) for line in before if isinstance(stop := read([line]), Stop)]
        return Granted(int("".join(others)), tuple(stops))
    if first[:1] == "E":
        return Refused(first, "".join(others))
    if first == "x28" and len(answer) == 9:
        pc, *lines = answer
        values = " ".join(line[2:] for line in lines).split()[1::2]
        return ScalarRegisters(int(pc[5:], 16), [int(value, 16) for value in values])
    if first[:3] == "vl=":
        vl, vtype, vstart, vxrm, vxsat = (word.partition("=")[2] for word in words)
        return ControlRegisters(int(vl), int(vtype, 16), int(vstart), int(vxrm), int(vxsat))
    if first[:1] == "v":
        return _vector_register(last[2:])
    listed = [Word(int(line[2:18], 16), int(line[19:27], 16), line[28:]) for line in answer]
    return Listing(listed) if listed[0].text else listed[0]


@functools.lru_cache(maxsize=4096)
def _vector_register(line: str) -> VectorRegister:
    """Return the vector register that a line without its prefix shows. Most lines are repeated, so results are cached."""
    name, *elements = line.split(" ")
    # The line has the last element first, and the last byte of each element first.
    data = bytes.fromhex("".join(reversed(elements)))[::-1]
    return VectorRegister(int(name[1:]), 256 // len(elements), data)


def answers_by_user(answer: Sequence[str]) -> list[tuple[str, Answer]]:
    """Return the parts of a whole answer, each after the digit of its user, or `*` for the operator.

    The stops of programs in granted slices come first, and the answer to the sender of the line comes last.

    answer: its lines, each with its prefix
    """
    parsed = read(answer)
    return [*(parsed.stops if isinstance(parsed, Granted) else ()), (answer[-1][0], parsed)]


def elements_in(data: bytes, width: int) -> list[int]:
    """Return the elements of registers, as unsigned numbers. data: the registers' bytes; width: the bits of an element, 1 for a mask"""
    if width == 1:
        return [byte >> bit & 1 for byte in data for bit in range(8)]
    size = width // 8
    return [int.from_bytes(data[at : at + size], "little") for at in range(0, len(data), size)]


def is_refusal(answer: Sequence[str]) -> bool:
    """Return whether an answer is a refusal."""
    return _REFUSAL.fullmatch(answer[0]) is not None


def first_word(line: str) -> str:
    """Return the first word of a line of an answer, after its prefix: `stepped`, `E03` or `vl=4`."""
    return line[2:].partition(" ")[0]


def is_empty_output(line: str) -> bool:
    """Return whether a line of an answer shows empty output."""
    return line[2:] == _NO_OUTPUT


def is_stop(line: str) -> bool:
    """Return whether a line of an answer shows that a program has stopped by itself."""
    return _STOP_LINE.fullmatch(line) is not None


def is_whole(line: str, answer: Sequence[str]) -> bool:
    """Return whether `answer`, one line or more, is the whole answer to `line`.

    Call this after each line that is received. Raises OutOfStep if the last line of `answer` can't be a part of the answer.
    """
    latest, count = answer[-1], _shape(line)[1]
    if latest[2:3] == "E" and latest[:2] == line[:2] and is_refusal(answer):
        return True
    if not count and is_stop(latest):
        return False
    if not _fits(line, latest):
        raise OutOfStep(f"the answer to {line[:60]!r} can't have the line {latest[:60]!a}")
    return not count or len(answer) == count


@functools.lru_cache(maxsize=4096)
def _fits(line: str, latest: str) -> bool:
    """Return whether `latest` can be a line of the answer to an accepted line."""
    form = _shape(line)[0]
    return latest[:2] == line[:2] and form is not None and form.fullmatch(latest) is not None


@functools.lru_cache(maxsize=1024)
def _shape(line: str) -> tuple[re.Pattern[str] | None, int]:
    """Return the pattern of the last line of the answer to an accepted line (None for an unknown command), and the number of its lines.

    The number is 0 if any number of stop lines may precede the last line.
    """
    words, command = words_of(line), command_of(line)
    if command == "dis" and len(words) == 3 and words[2].isdecimal():
        return _LINES[command], max(1, int(words[2]))
    return _LINES.get(command), _COUNTS.get(command, 1)
