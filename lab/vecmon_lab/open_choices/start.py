"""Initial values that a program relies on: those of registers, vxrm, vxsat and stack memory that nothing has written."""

import pathlib
from collections.abc import Iterator, Mapping, Sequence
from dataclasses import dataclass, replace
from random import Random

from ..instructions.accesses import REGISTER_BYTES
from ..machine.program import segments_of
from ..machine.start_state import STACK_BYTES, STACK_END
from ..runs.initial_state import InitialState
from ..runs.open_runs import OpenProgram
from .effects import Pair, Place
from .search import MAX_ROUNDS, halve

CELL_BYTES = 8
"""Of stack memory that is filled together."""

WAYS = (0, 0xFF)
"""The bits of each byte that are inverted, by which there are two fillings."""


@dataclass(frozen=True)
class Filling:
    """Values for all registers but x2, for vxrm and vxsat, and for the stack below x2.

    registers: lines of registers; cells: the addresses of parts of the stack, each with its bytes, the highest first
    """

    registers: list[str]
    cells: list[tuple[int, bytes]]

    @property
    def size(self) -> int:
        """The number of places: registers, and then parts of the stack."""
        return len(self.registers) + len(self.cells)

    def apply(self, initial_state: InitialState, first: int, end: int) -> InitialState:
        """Return a start in which the places from one number up to another have these values."""
        registers, count = self.registers[first:end], len(self.registers)
        cells = self.cells[max(0, first - count) : max(0, end - count)]
        stack = [(cells[-1][0], "rw", b"".join(data for _, data in reversed(cells)))] if cells else []
        own = _segments_in_stack(initial_state.image) if initial_state.image else ()
        memory = [*stack, *own, *initial_state.memory]
        return replace(initial_state, memory=memory, registers=[*registers, *initial_state.registers])

    def differing(self, number: int, initial_state: InitialState) -> dict[Place, Pair]:
        """Return what differs at the start if a place has its value here, with both values."""
        if number >= len(self.registers):
            address, data = self.cells[number - len(self.registers)]
            before = _bytes_at(initial_state, address, len(data))
            return {("memory", address + at): pair for at, pair in enumerate(zip(before, data)) if pair[0] != pair[1]}
        name, digits = self.registers[number].split()
        if name[0] == "v" and name[1:].isdigit():
            first = REGISTER_BYTES * int(name[1:])
            return {("v", first + at): (0, byte) for at, byte in enumerate(bytes.fromhex(digits)) if byte}
        return {("x", int(name[1:])) if name[0] == "x" else (name, 0): (0, int(digits, 16))}

    def setting(self, number: int) -> str:
        """Return the value of a place, as an argument of `run --set`."""
        if number >= len(self.registers):
            address, data = self.cells[number - len(self.registers)]
            return f"{address:x}={data.hex()}"
        return self.registers[number].replace(" ", "=")

    def name(self, number: int) -> str:
        """Return the name of a place: a register, or an address in square brackets."""
        if number >= len(self.registers):
            return f"[{self.cells[number - len(self.registers)][0]:x}]"
        return self.registers[number].split()[0]


def filling(initial_state: InitialState, inverted: int) -> Filling:
    """Return a filling of a start. inverted: the bits of each byte that are inverted"""
    random, given = Random(0), dict(line.split() for line in initial_state.registers)
    pointer = int(given.get("x2", "0"), 16)
    junk = [bytes(byte ^ inverted for byte in random.randbytes(size)) for size in [8] * 31 + [REGISTER_BYTES] * 32]
    registers = [f"x{number} {data.hex()}" for number, data in enumerate(junk[:31], 1)]
    registers += [f"v{number} {data.hex()}" for number, data in enumerate(junk[31:])]
    registers += [f"vxrm {1 ^ inverted & 3}", f"vxsat {1 ^ inverted & 1}"]
    start = STACK_END - STACK_BYTES
    stack = bytes(byte ^ inverted for byte in random.randbytes(max(0, pointer - start) // CELL_BYTES * CELL_BYTES))
    cells = [(start + at, stack[at : at + CELL_BYTES]) for at in range(0, len(stack), CELL_BYTES)]
    return Filling([line for line in registers if line.split()[0] not in given], cells[::-1])


@dataclass(frozen=True)
class StartReliance:
    """An initial value on which a program relies.

    name: of the register, or the address of memory; differing: the places with both values
    settings: the other initial values, with which the program ends differently, as arguments of `run --set`
    program: with these initial values
    """

    kind: str
    name: str
    differing: Mapping[Place, Pair]
    settings: Sequence[str]
    program: OpenProgram


def search_start(program: OpenProgram) -> Iterator[StartReliance]:
    """Find the initial values on which a program relies, one after another."""
    initial_state, found = program.initial_state, set[str]()
    for inverted in WAYS:
        values, first = filling(initial_state, inverted), 0
        for _ in range(MAX_ROUNDS):
            end = _last_place(program, values, first)
            if end is None:
                break
            name, low, first = values.name(end - 1), first, end
            if _differs(program, values, end - 1, end):
                low = end - 1
            if name not in found:
                found.add(name)
                start = values.apply(initial_state, low, end)
                kind = "stack" if name[0] == "[" else "register"
                differing = values.differing(end - 1, initial_state)
                settings = [values.setting(number) for number in range(low, end)]
                yield StartReliance(kind, name, differing, settings, program.with_start(start))


def _last_place(program: OpenProgram, values: Filling, first: int) -> int | None:
    """Return the end of the places from one on that make a difference, though those before the last don't; or None."""
    if not _differs(program, values, first, values.size):
        return None
    return halve(first, values.size, lambda end: _differs(program, values, first, end))


def _differs(program: OpenProgram, values: Filling, first: int, end: int) -> bool:
    """Return whether a run ends differently if the places from one number up to another have other values."""
    if first >= end:
        return False
    program.runs += 1
    start = values.apply(program.initial_state, first, end)
    return not program.with_start(start).outcome().is_like(program.outcome())


def _segments_in_stack(image: pathlib.Path) -> Iterator[tuple[int, str, bytes]]:
    """The image's own bytes in the pages of the stack, by its program headers."""
    for address, _, length, data in segments_of(image.read_bytes()):
        if address < STACK_END and address + length > STACK_END - STACK_BYTES:
            yield address, "rw", data.ljust(length, b"\0")


def _bytes_at(initial_state: InitialState, address: int, length: int) -> bytes:
    """Return bytes of the stack at the start of a run."""
    found = bytearray(length)
    for place, _, data in initial_state.memory:
        for at in range(max(address, place), min(address + length, place + len(data))):
            found[at - address] = data[at - place]
    return bytes(found)
