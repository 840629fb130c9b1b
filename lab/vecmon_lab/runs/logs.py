"""Logs of other devices, one instruction at a time, in Spike's form, which `vecmon-record` also writes, and in QEMU's form."""

import enum
import itertools
import re
from collections.abc import Iterable, Iterator
from dataclasses import dataclass, field
from fractions import Fraction

from .. import LabError
from ..instructions.accesses import REGISTER_BYTES
from ..machine.answers import CONTROL

_WRITTEN = (
    r"$| +(?:[xfv]\d+ +0x|e\d+ m|c\d+_|mem 0x)"  # without privilege and with another text it is Spike's disassembly
)
_COMMIT = re.compile(rf"core +\d+: (?:\d+ )?0x([0-9a-f]+) \(0x([0-9a-f]+)\)(?={_WRITTEN})(.*)")
_REGISTER = re.compile(r"\b([xv])(\d+) +0x([0-9a-f]+)")
_TYPE = re.compile(r" e(\d+) m(f?)(\d+) l(\d+)\b")
_CONTROL = re.compile(r"\bc\d+_(v\w+) +0x([0-9a-f]+)")
_MEMORY = re.compile(r"\bmem 0x([0-9a-f]+)(?: 0x([0-9a-f]+))?")
_END = re.compile(r"((?:exit|ebreak|fault|running)\b.*?) pc=[0-9a-f]+.* \d+ \d+$")  # the recorder's last line
_PC, _X = re.compile(r" pc +([0-9a-f]{16})"), re.compile(r"x(\d+)/\w+ +([0-9a-f]{16})")
_VECTOR_UNIT = re.compile(r" (v[a-z0-9]+) +([0-9a-f]+)$")
_CALL, _EXIT, _SIGNAL = re.compile(r"\d+ \w+\("), re.compile(r"\d+ exit(_group)?\("), re.compile(r"--- (SIG\w+) ")

Kind = enum.Enum("Kind", "OPEN TRUNCATED LIMITED ENDED")
"""How a log ends.

OPEN: the log doesn't say; TRUNCATED: inside an instruction; LIMITED: the recorder's ticks were used up; ENDED: the log says
that the program ended.
"""


@dataclass
class Commit:
    """An instruction of a log: its address, its word, and the changes that the log shows.

    word: None in QEMU's form; stack: the stack pointer before the instruction, only in QEMU's form
    x, v, control: values of registers after the instruction, by number or name
    vector_type: SEW, LMUL and vl after the instruction, or None
    loads: the addresses that were read; stores: the addresses that were written, each with its bytes
    compared: which of `v`, `control` and `memory` the log shows: in these, parts that it doesn't name didn't change
    is_done: False if the log doesn't show that the instruction was executed
    """

    pc: int
    word: int | None = None
    stack: int | None = None
    x: dict[int, int] = field(default_factory=dict)
    v: dict[int, bytes] = field(default_factory=dict)
    control: dict[str, int] = field(default_factory=dict)
    vector_type: tuple[int, Fraction, int] | None = None
    loads: list[int] = field(default_factory=list)
    stores: list[tuple[int, bytes]] = field(default_factory=list)
    compared: frozenset[str] = frozenset()
    is_done: bool = True


class Log:
    """Reads a log of another device. The instructions of a log can be read only once.

    end: how the log ends; end_text: the end in words, such as `SIGILL` or `exit 0`. Both are known after `commits` has yielded all instructions.
    has_calls: whether the log contains system calls, which QEMU writes with `-d strace`
    """

    def __init__(self, lines: Iterable[str]) -> None:
        self.end, self.end_text, self.has_calls = Kind.OPEN, "", False
        self._lines = lines
        self._compared = {"v"}  # the kinds of registers and memory that a log in Spike's form has shown up to now
        self._states: list[Commit] = []  # in QEMU's form: the states before the last and the current instruction

    def commits(self) -> Iterator[Commit]:
        """Yield the instructions. Raises LabError.

        The last state in QEMU's form precedes an instruction with `is_done` False.
        """
        for line in self._lines:
            if not line.endswith("\n"):
                self.end = Kind.TRUNCATED
            elif written := _COMMIT.match(line):
                yield self._commit(int(written[1], 16), int(written[2], 16), written[3])
            elif place := _PC.match(line):
                yield from self._changed()
                self.end, self._states = Kind.OPEN, [*self._states[-1:], Commit(int(place[1], 16))]
            elif not self._take_end(line) and self._states:
                self._take_registers(line)
        if self._states and not self._is_whole():
            self.end, self._states = Kind.TRUNCATED, self._states[:-1]
        yield from self._changed()
        yield from (Commit(state.pc, stack=state.x.get(2), is_done=False) for state in self._states[-1:])

    def _commit(self, pc: int, word: int, text: str) -> Commit:
        """Return an instruction in Spike's form."""
        commit = Commit(pc, word)
        for kind, number, digits in _REGISTER.findall(text):
            if kind == "x":
                commit.x[int(number)] = int(digits, 16)
            else:
                commit.v[int(number)] = _vector(digits)
        commit.control = {name: int(digits, 16) for name, digits in _CONTROL.findall(text)}
        if shown := _TYPE.search(text):
            lmul = Fraction(1, int(shown[3])) if shown[2] else Fraction(int(shown[3]))
            commit.vector_type = int(shown[1]), lmul, int(shown[4])
        for address, digits in _MEMORY.findall(text):
            if digits:
                commit.stores.append((int(address, 16), bytes.fromhex(digits)[::-1]))
            else:
                commit.loads.append(int(address, 16))
        self._compared |= {"control"} if commit.control else set()
        self._compared |= {"memory"} if commit.loads or commit.stores else set()
        commit.compared = frozenset(self._compared)
        return commit

    def _take_end(self, line: str) -> bool:
        """Record the program's end or a system call, if a line reports one. Return whether the end is known."""
        self.has_calls |= bool(_CALL.match(line))
        if end := _END.match(line):
            self.end = Kind.LIMITED if end[1] == "running" else Kind.ENDED
            self.end_text = end[1]
        elif end := _SIGNAL.match(line) or _EXIT.match(line):
            self.end, self.end_text = Kind.ENDED, "exit" if line[0].isdigit() else end[1]
        return self.end is not Kind.OPEN

    def _take_registers(self, line: str) -> None:
        """Record the registers in a line of QEMU's, which precede an instruction. Raises LabError for another VLEN."""
        state = self._states[-1]
        state.x.update({int(number): int(digits, 16) for number, digits in _X.findall(line)})
        if shown := _VECTOR_UNIT.match(line):
            name, digits = shown[1], shown[2]
            if name[1:].isdigit():
                state.v[int(name[1:])] = _vector(digits)
            elif name in CONTROL:
                state.control[name] = int(digits, 16)

    def _is_whole(self) -> bool:
        """Return whether the last state in QEMU's form has all registers. Vector registers are needed only if the first state has them."""
        first, last = self._states[0], self._states[-1]
        return len(last.x) == 32 and len(last.v) in (0, 32) and len(last.v) == len(first.v)

    def _changed(self) -> Iterator[Commit]:
        """Yield an instruction with its changes, from QEMU's registers before and after it, if both are known."""
        for before, after in itertools.pairwise(self._states):
            compared = frozenset({"v", "control"} if after.v else set())
            yield Commit(
                before.pc,
                stack=before.x.get(2),
                x=dict(after.x.items() - before.x.items()),
                v=dict(after.v.items() - before.v.items()),
                control=dict(after.control.items() - before.control.items()),
                compared=compared,
            )


def _vector(digits: str) -> bytes:
    """Return the bytes of a vector register. digits: the last byte first. Raises LabError for another VLEN."""
    if len(digits) != 2 * REGISTER_BYTES:
        width = f"{4 * len(digits)} bits, and here they have {8 * REGISTER_BYTES}"
        raise LabError(
            f"in the log vector registers have {width}: run the other device with a VLEN of 256 (QEMU: vlen=256)"
        )
    return bytes.fromhex(digits)[::-1]
