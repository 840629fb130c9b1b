"""The first instruction that reads a choice, by the logs of two runs that differ in the choice."""

from collections.abc import Iterable, Iterator, Mapping, Sequence
from dataclasses import dataclass
from fractions import Fraction
from typing import NamedTuple

from ..instructions.accesses import REGISTER_BYTES, moves_whole_registers, vector_instruction
from ..instructions.words import LOAD, STORE, Operand, VectorInstruction
from ..runs.logs import Commit, Log

Place = tuple[str, int]
"""A byte of the vector registers (`v`, 0 to 1,023) or of memory (`memory`), a scalar register (`x`), or a control register
by its name and 0."""

Pair = tuple[int | None, int | None]
"""The values of a place in two runs; None if the log doesn't show the value."""

_WHOLE_SCALAR = 3  # funct3 of ld and sd, which move a whole register


class NamedPair(NamedTuple):
    """A register, an element or a byte that differs between two runs, by its name, as `x10` or `v8.e32[3]`; both values in hexadecimal digits."""

    name: str
    without: str
    with_choice: str


class LoggedInstruction(NamedTuple):
    """An instruction of a log: its number in the run, its address and its word."""

    number: int
    pc: int
    word: int


@dataclass(frozen=True)
class Effect:
    """The first instruction whose result depends on a choice.

    values: the registers, elements and bytes of memory that differ after it
    is_parting: whether the next instruction is another one in each run, as after a branch; `values` is empty then
    """

    instruction: LoggedInstruction
    values: Sequence[NamedPair] = ()
    is_parting: bool = False


def commit_of(line: str) -> Commit | None:
    """Return the instruction of a log's line; None for the last line."""
    return next(Log([line if line.endswith("\n") else f"{line}\n"]).commits(), None)


def vtype_of(commit: Commit) -> int:
    """Return the vector type that a log shows, without the policies, which it doesn't show; vill without one."""
    if commit.vector_type is None:
        return 1 << 63
    sew, lmul, _ = commit.vector_type
    return (sew.bit_length() - 4) << 3 | (
        Fraction(lmul).numerator.bit_length() - Fraction(lmul).denominator.bit_length()
    ) & 7


def instruction_of(commit: Commit) -> VectorInstruction | None:
    """Return the vector instruction of a log's line, by the vector type that the line shows; None for any other one."""
    return vector_instruction(commit.word or 0, vtype_of(commit))


def destination_of(commit: Commit) -> Operand | None:
    """Return the vector registers that an instruction writes; None if it writes none."""
    instruction = instruction_of(commit)
    operands = instruction.operands if instruction else []
    return next((operand for operand in operands if operand.noun == "destination"), None)


def element_bytes(operand: Operand, element: int) -> range:
    """Return the bytes of an element of a destination in the vector registers. The fields of a segment follow each other."""
    size = max(1, operand.eew // 8)
    first = REGISTER_BYTES * operand.registers.start + size * element
    return range(first, first + size)


def values_of(commit: Commit) -> dict[Place, int]:
    """Return the values that an instruction wrote, by places."""
    values: dict[Place, int] = {("x", number): value for number, value in commit.x.items()}
    for number, data in commit.v.items():
        values.update({("v", REGISTER_BYTES * number + at): byte for at, byte in enumerate(data)})
    values.update({(name, 0): value for name, value in commit.control.items()})
    for address, data in commit.stores:
        values.update({("memory", address + at): byte for at, byte in enumerate(data)})
    return values


def first_effect(
    one: Iterable[str], other: Iterable[str], first: int, known: Mapping[Place, Pair], limit: int = 1 << 62
) -> Effect | None:
    """Return the first effect of a difference between two runs; None without an effect up to a number of instructions.

    one, other: the logs of the runs; first: the number of their first instruction
    known: the places that differ before it. A place that keeps its two values isn't read, nor is one that is copied
    as a whole register.
    """
    differing, last = dict(known), LoggedInstruction(first - 1, 0, 0)
    for number, (left, right) in enumerate(zip(one, other), first):
        if number >= first + limit:
            return None
        if left == right and not _names_any(left, differing):
            last = logged_instruction(left, number) or last
            continue
        ours, theirs = commit_of(left), commit_of(right)
        if ours is None or theirs is None or ours.pc != theirs.pc:
            return Effect(last, is_parting=True)
        here = LoggedInstruction(number, ours.pc, ours.word or 0)
        left_values, right_values = values_of(ours), values_of(theirs)
        destination = destination_of(ours)
        changed = _changed(left_values, right_values, differing, destination is not None and destination.eew == 1)
        changed = [place for place in changed if place not in _lengthened(ours, theirs)]
        if changed and not _is_copy(ours):
            return Effect(here, [*named_pairs(changed, left_values, right_values, destination)])
        last = here
    return None


def _names_any(line: str, differing: Mapping[Place, Pair]) -> bool:
    """Return whether a line of a log may overwrite a place that differs."""
    numbers = {("v", at // REGISTER_BYTES) if kind == "v" else (kind, at) for kind, at in differing if kind != "memory"}
    if any(kind == "memory" for kind, _ in differing) and " mem 0x" in line:
        return True
    return any(f" {kind}{number:<2} 0x" in line if kind in "xv" else f"_{kind} " in line for kind, number in numbers)


def logged_instruction(line: str, number: int) -> LoggedInstruction | None:
    """Return the instruction of a line that is the same in both logs."""
    parts = line.split(maxsplit=5)
    if len(parts) < 5 or parts[0] != "core":
        return None
    return LoggedInstruction(number, int(parts[3], 16), int(parts[4].strip("()"), 16))


def _changed(
    left: Mapping[Place, int], right: Mapping[Place, int], differing: dict[Place, Pair], is_mask: bool
) -> list[Place]:
    """Return the places that differ after an instruction wrote these values, but those that keep theirs.

    differing: the places that differ before it, and after the call those that differ after it
    is_mask: whether the vector registers that it wrote are masks, whose bits may be kept one by one
    """
    changed = list[Place]()
    for place in {**left, **right}:
        pair = (left.get(place), right.get(place))
        before = differing.pop(place, None)
        if pair[0] == pair[1]:
            continue
        differing[place] = pair
        if before is None or not _is_kept(before, pair, is_mask and place[0] == "v"):
            changed.append(place)
    return changed


def _is_kept(before: Pair, after: Pair, by_bits: bool) -> bool:
    """Return whether a place that differs has its two values from before; by_bits: in all bits that differ now."""
    bits = ~0
    if by_bits and after[0] is not None and after[1] is not None:
        bits = after[0] ^ after[1]
    return all(old is None or new is not None and old & bits == new & bits for old, new in zip(before, after))


def _lengthened(ours: Commit, theirs: Commit) -> set[Place]:
    """Return the elements of a destination that only one of two runs writes, since its vl is longer."""
    destination, lengths = destination_of(ours), {each.vector_type[2] for each in (ours, theirs) if each.vector_type}
    if destination is None or len(lengths) < 2 or ours.control or destination.eew == 1:
        return set()
    elements = range(min(lengths), max(lengths))
    return {("v", at) for element in elements for at in element_bytes(destination, element)}


def _is_copy(commit: Commit) -> bool:
    """Return whether an instruction copies whole registers, to save or restore them for example."""
    word = commit.word or 0
    if word & 0x7F in (LOAD, STORE):
        return word >> 12 & 7 == _WHOLE_SCALAR
    instruction = instruction_of(commit)
    return instruction is not None and moves_whole_registers(word, instruction)


def named_pairs(
    places: Iterable[Place], left: Mapping[Place, int], right: Mapping[Place, int], operand: Operand | None
) -> Iterator[NamedPair]:
    """Return the registers, elements and bytes that have these places, with their values in two runs.

    operand: the destination of the instruction, whose elements are named in place of their bytes
    """
    done = set[Place]()
    for kind, at in sorted(places):
        if (kind, at) in done:
            continue
        if kind == "v":
            name, parts = _element_at(at, operand)
        else:
            name, parts = f"x{at}" if kind == "x" else f"[{at:x}]" if kind == "memory" else kind, [(kind, at)]
        done.update(parts)
        yield NamedPair(name, *(_hex([values.get(part) for part in parts]) for values in (left, right)))


def _element_at(at: int, operand: Operand | None) -> tuple[str, Sequence[Place]]:
    """Return the name of the element that has a byte of the vector registers, and all of its bytes."""
    size = max(8, operand.eew) // 8 if operand else 1
    group = REGISTER_BYTES * (operand.group if operand else 1)
    start = REGISTER_BYTES * operand.registers.start if operand else 0
    register = start + (at - start) // group * group
    element = (at - register) // size
    first = register + size * element
    name = f"v{register // REGISTER_BYTES}.e{8 * size}[{element}]"
    return name, [("v", first + byte) for byte in range(size)]


def _hex(values: Sequence[int | None]) -> str:
    """Return a number, or bytes of which the first one is the lowest, in hexadecimal digits; `?` for an unknown value."""
    known = [value for value in values if value is not None]
    if len(known) < len(values):
        return "?"
    return f"{sum(value << 8 * at for at, value in enumerate(known)):x}"
