"""The vector register groups in use.

Each register is shown in the group of the last instruction that wrote it, or, if none did, of the last one that read it.
"""

import functools
from collections.abc import Iterable, Mapping, Sequence
from itertools import groupby
from typing import NamedTuple, TypedDict

from ..guest.vector_flow import flow_of_listing, type_after
from ..instructions.accesses import vector_instruction

REGISTERS = 32
WIDTHS = (1, 8, 16, 32, 64)  # of elements in bits; 1 is a mask
E32 = 2 << 3  # the vector type e32,m1, used while vill is set


class ShownRegisterGroup(TypedDict):
    """A vector register group. width: of its elements in bits, 1 in a mask; size: the number of its registers"""

    width: int
    size: int


def element_width(groups: Mapping[str, ShownRegisterGroup], number: int) -> int | None:
    """Return the width in bits of a vector register's elements; None if the register is in none of the groups.

    groups: the groups by their first registers; number: the number of the register
    """
    covering = (group["width"] for first, group in groups.items() if 0 <= number - int(first) < group["size"])
    return next(covering, None)


class _Group(NamedTuple):
    """A register group, as an instruction uses it.

    first, size: the number of the first register, and the number of registers
    width: the width of an element in bits, 1 for a mask
    is_written: whether the instruction writes the group; otherwise it reads it
    is_whole: whether the group has this size under all vector types
    """

    first: int
    size: int
    width: int
    is_written: bool
    is_whole: bool


_MASK = _Group(0, 1, 1, is_written=False, is_whole=True)


class RegisterGroups:
    """The groups of one user's vector registers while the user's program runs.

    After a run, only the last 16 instructions are known, from the machine's trace. Other registers are shown as the listing's instructions
    use them.
    """

    def __init__(self) -> None:
        self._executed = dict[int, _Group]()  # groups that executed instructions use, by register
        self._trace: Sequence[int] = []
        self._vtype: int | None = None  # the vector type after the last instruction; None if unknown
        self._code: Mapping[str, str] = {}
        self._words = dict[int, int]()  # the listing's words in the order of their addresses
        self._types = dict[int, int]()  # vector types by address, as far as the listing shows them

    def follow(self, code: Mapping[str, str], trace: Sequence[int], stepped: int, vtype: int) -> None:
        """Update the groups with the instructions that were executed since the last call.

        code: the listing: for each address in hexadecimal digits, the word's digits and its text
        trace: the addresses of the last executed instructions, as the machine's trace shows them
        stepped: the number of instructions that were stepped since the last call; 0 if the program ran
        vtype: the vector type after these instructions
        """
        if code is not self._code:
            self._code = code
            words = {int(address, 16): int(line[:8], 16) for address, line in code.items()}
            self._words = dict(sorted(words.items()))
            states = flow_of_listing(self._words).states
            self._types = {address: state.vtype for address, state in states.items() if state.vtype is not None}
        if 0 < stepped <= len(trace):
            self._execute(trace[-stepped:], self._vtype, vtype)
        elif trace != self._trace:
            self._executed = {}
            self._execute(trace, None, vtype)
        self._trace, self._vtype = trace, vtype

    def _execute(self, addresses: Iterable[int], before: int | None, after: int) -> None:
        """Update the groups with executed instructions.

        addresses: the addresses of the instructions, in the order of their execution
        before, after: the vector types before the first and after the last of them; `before` is None if it is unknown
        """
        vtype = before
        for address in addresses:
            word = self._words.get(address, 0)
            _take(self._executed, _groups_of(word, self._types.get(address, after) if vtype is None else vtype))
            vtype = type_after(word, vtype)

    def shown(self, pc: int) -> dict[str, ShownRegisterGroup]:
        """Return the groups to show, by the numbers of their first registers.

        If no executed instruction is known to use a register, the register is in the group of the last listed instruction that uses it
        before the program counter. If there is none, it is in the group of the first listed instruction that uses it from the program
        counter on, under the present vector type.

        pc: the program counter
        """
        before, after = dict[int, _Group](), dict[int, _Group]()
        present = E32 if self._vtype is None or self._vtype >> 63 else self._vtype
        for address, word in self._words.items():
            if address < pc:
                _take(before, _groups_of(word, self._types.get(address, present)))
        for address, word in reversed(self._words.items()):
            if address >= pc:
                _take(after, _groups_of(word, present))
        written = {number for number, group in before.items() if group.is_written}
        executed = {
            number: group for number, group in self._executed.items() if group.is_written or number not in written
        }
        return _joined(after | before | executed)


@functools.lru_cache(maxsize=4096)
def _groups_of(word: int, vtype: int) -> Sequence[_Group]:
    """Return the register groups of an instruction under a vector type: first those that it reads, then those that it writes."""
    instruction = vector_instruction(word, vtype)
    if instruction is None:
        return []
    groups = [_MASK] if instruction.is_masked else []
    for operand in sorted(instruction.operands, key=lambda each: each.noun == "destination"):
        is_aligned = operand.registers.start % operand.group == 0
        if operand.eew in WIDTHS and is_aligned and operand.registers.stop <= REGISTERS:
            is_written = operand.noun == "destination"
            groups += [
                _Group(first, operand.group, operand.eew, is_written, operand.is_whole)
                for first in operand.registers[:: operand.group]
            ]
    return groups


def _take(groups: dict[int, _Group], new: Iterable[_Group]) -> None:
    """Set the group of each register that an instruction uses. A group that is only read doesn't replace one that was written.

    groups: the groups by register, which are changed; new: the groups that the instruction uses
    """
    for group in new:
        for number in range(group.first, group.first + group.size):
            old = groups.get(number)
            if old is not None and old.is_written and not group.is_written:
                continue
            is_part = old is not None and group.is_whole and group.size < old.size and group.width == old.width
            groups[number] = old._replace(is_written=group.is_written) if old is not None and is_part else group


def _joined(groups: Mapping[int, _Group]) -> dict[str, ShownRegisterGroup]:
    """Return groups by their first registers. If another group has replaced a part of a group, the remaining registers are a group.

    groups: the group of each register, by the register's number
    """
    numbers = sorted(groups)
    # A group's registers count as equal whether they were read or written.
    places = {number: groups[number][:3] for number in numbers}
    runs = groupby(numbers, key=lambda number: (places[number], number - numbers.index(number)))
    rows = [(list(run), place) for (place, _), run in runs]
    return {f"{run[0]}": {"width": width, "size": len(run)} for run, (_, _, width) in rows}
