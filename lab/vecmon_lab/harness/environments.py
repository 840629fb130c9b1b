"""The environments in which golden programs run, and the code that executes the instructions that they test (`Harness`).

The machine assembles this code from the sources in this folder. A golden program has a page for the tested instruction, two pages of memory,
and the code with its data. After them comes a list of cases, or of the words that the program executes. An `Environment` has the code's
address, and a base that is added to the addresses of the instruction's page and of the memory.
"""

import functools
import pathlib
import re
import struct
from collections.abc import Iterator, Mapping, Sequence
from dataclasses import dataclass, field

from .. import LabError
from ..assembler.source import assemble
from ..guest.guest import Guest
from ..instructions.accesses import PAGE_BYTES
from ..machine.answers import Refused
from ..machine.program import find_program
from ..machine.session import Session
from .elf import EXECUTE, READ, WRITE, Segment, elf

CODE, PC, MEMORY = 0x10000, 0x10800, 0x20000
"""The addresses, without an environment's base, of the tested instruction's page, of this instruction, and of the memory."""

MEMORY_BYTES = 2 * PAGE_BYTES
BLOCK_BYTES = 1344
"""The size in bytes of a block, which has the state of all registers after a case.

It has 8 words of 64 bits (how the case ended, vl, vtype, vxrm, vxsat, vstart, the value of a fault, 0), then v0 to v31, pc, and x1 to x31.
"""

SPARE = (31, 29, 27, 25)
"""The numbers S of the registers xS with which the code returns from a tested instruction, by `jalr xS, 0(xS)`.

The code for a case needs xS and the register below it, xT. The tested instruction uses neither of them.
"""

LIST = 0x40000
"""The distance from the code to the list of cases, or to the executed words."""


@dataclass(frozen=True)
class Environment:
    """An environment in which golden programs run.

    files: the names of the environment's own sources in this folder, without `.s`
    code: the address where the program starts
    ends: the numbers that report how a case ended, by the name of the end; cases with another end can't be tested there
    base: the number added to the addresses of the instruction and of memory
    """

    files: tuple[str, ...]
    code: int
    ends: Mapping[str, int] = field(hash=False)
    base: int = 0


_ENDS = {"ran": 0, "shortened load": 0}
_SIGNALS = {"fault 2": 4, "refused control register": 4, "ebreak": 5, "fault 5": 11, "fault 7": 11}
ENVIRONMENTS = {
    "linux": Environment(("linux", "calls"), 0x60000000, _ENDS | _SIGNALS | {"jump to another page": 11}),
    "vecmon": Environment(("vecmon", "calls"), 0x60000000, _ENDS),
    "bare": Environment(("bare",), 0x80000000, {"ran": 0, "fault 2": 3, "ebreak": 4}, 0x80000000),
}
"""The environments by name: Linux's user mode, vecmon, and a core in machine mode, whose memory begins at the address 80000000."""


@dataclass(frozen=True)
class Harness:
    """The assembled code that executes a list of cases, or a list of words, in an environment, and reports the result as a signature.

    For each case, the code sets the registers and the memory, executes the case's instruction, and compares what the instruction has changed
    with the expected state.

    source: the source of the code; labels: the addresses of its labels, by name; segments: the assembled code and its data
    """

    environment: Environment
    source: str
    labels: Mapping[str, int] = field(default_factory=dict)
    segments: Sequence[Segment] = ()

    def image(self, data: bytes, memory: bytes = b"") -> bytes:
        """Return an ELF file with this code and a list. data: the bytes of the list; memory: the first bytes of the two pages of memory"""
        base, names = self.environment.base, ("_start", "begin_signature", "end_signature", "tohost", "fromhost")
        size = -(-len(data) // PAGE_BYTES) * PAGE_BYTES
        pages = [Segment(base + CODE, b"", PAGE_BYTES, READ | WRITE | EXECUTE)]
        pages += [Segment(base + MEMORY, memory, MEMORY_BYTES, READ | WRITE)]
        pages += [Segment(self.environment.code + LIST, data, size, READ | EXECUTE)]
        symbols = {name: self.labels[name] for name in names if name in self.labels}
        return elf(self.labels["_start"], [*self.segments, *pages], symbols)


@functools.cache
def harness(environment: Environment, name: str, signature_words: int) -> Harness:
    """Return the code that executes a list of cases or words in an environment.

    name: the name of the code's main source in this folder, such as `cases`
    signature_words: the number of 64-bit words of the signature

    Raises LabError if the machine refuses the code.
    """
    base, code = environment.base, environment.code
    numbers = {"CODE": base + CODE, "PC": base + PC, "MEMORY": base + MEMORY, "READ_ONLY": base + MEMORY + PAGE_BYTES}
    numbers |= {"BLOCK_BYTES": BLOCK_BYTES, "MEMORY_BYTES": MEMORY_BYTES, "MEMORY_WORDS": MEMORY_BYTES // 8}
    numbers["STATE_WORDS"] = (BLOCK_BYTES + MEMORY_BYTES) // 8
    numbers |= {"SIGNATURE_BYTES": 8 * signature_words, "TEXT_BYTES": 18 * signature_words + 18, "LIST": code + LIST}
    equates = [f"{'':24}.equ {name}, {number:#x}" for name, number in numbers.items()]
    sources = [_source(each) for each in (name, *environment.files, "common")]
    source = "\n".join([f"{'':24}.globl _start", *equates, *_expanded("".join(sources)), ""])
    program = assemble(source, code)
    with Session(find_program()) as session:
        guest = Guest(session)
        if refused := [answer for answer in guest.ask("enter", *program.lines) if isinstance(answer, Refused)]:
            raise LabError(f"the machine refuses the code around golden programs: {refused[0]}")
        segments = [_segment(guest, *line.split()[1:]) for line in program.lines if line.startswith("map ")]
    return Harness(environment, source, program.labels, segments)


def _segment(guest: Guest, digits: str, pages: str, permissions: str) -> Segment:
    """Return a segment with the present bytes of pages of a guest.

    digits, pages, permissions: the arguments of the `map` that mapped the pages: their address, their number and their permissions
    """
    address, size = int(digits, 16), int(pages) * PAGE_BYTES
    flags = READ | (EXECUTE if "x" in permissions else WRITE)
    return Segment(address, guest.peek(address, size).rstrip(b"\0"), size, flags)


def _source(name: str) -> str:
    """Return a source of this folder. In `cases`, the code of `enter` is repeated for each pair of registers that a case may leave unused."""
    text = pathlib.Path(__file__).with_name(f"{name}.s").read_text("ascii")
    if name != "cases":
        return text
    entry = _source("enter")
    entries = [entry.replace("_S", f"_{it}").replace("xS", f"x{it}").replace("xT", f"x{it - 1}") for it in SPARE]
    return "".join([text, *entries])


def _expanded(text: str) -> Iterator[str]:
    """Yield the lines of a source after expansion of two forms that assemblers don't have.

    `for NAME.. in VALUE.., ..: TEXT; ..` is replaced by the texts, once for each list of values of the names. `save xT, xS` and `load xT,
    xS` are replaced by stores or loads of all scalar registers except these two, at their places in the block at the address in xT.
    """
    for line in text.splitlines():
        label, body = line[:24], "" if line.startswith("#") else line[24:]
        loop = re.fullmatch(r"for (.*?) in (.*?): (.*)", body)
        saved = re.fullmatch(r"(save|load) x(\d+), x(\d+)", body)
        if not loop and not saved:
            yield line
        elif label.strip():
            yield label.rstrip()
        if loop:
            for values in loop[2].split(", "):
                fields = dict(zip(loop[1].split(), values.split()))
                yield from (f"{'':24}{each.format(**fields)}" for each in loop[3].split("; "))
        if saved:
            name, base, others = {"save": "sd", "load": "ld"}[saved[1]], saved[2], (saved[2], saved[3])
            numbers = [number for number in range(1, 32) if str(number) not in others]
            yield from (f"{'':24}{name} x{number}, {BLOCK_BYTES - 256 + 8 * number}(x{base})" for number in numbers)


def digest(data: bytes, before: int = 0) -> int:
    """Return the digest of 64-bit words, as the code of golden programs calculates it.

    For each word, the digest is multiplied by 31, and the word is added. before: the digest of the words before
    """
    for (word,) in struct.iter_unpack("<Q", data):
        before = (before * 31 + word) % (1 << 64)
    return before


def signature_text(words: Sequence[int]) -> str:
    """Return a signature as programs and simulators print it: a row for each 32 bits, the lowest address first."""
    return "".join(f"{word % (1 << 32):08x}\n{word >> 32:08x}\n" for word in words)
