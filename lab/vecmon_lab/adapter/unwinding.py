"""Callers of functions, found by call frame information (DWARF 4, section 6.4) or by the return address in ra."""

import io
import pathlib
from collections.abc import Callable, Mapping, Sequence
from dataclasses import dataclass
from functools import cached_property
from typing import Any

from ..compilers.locations import CODE_END, location
from ..guest.jumps import is_call, jump_target
from ..machine.start_state import RETURN

MAX_FRAMES = 256
RA, SP = 1, 2  # numbers of registers
_COMMON = 0xFFFFFFFF  # the identifier of a common information entry
_SAVED = (2, 3, 4, 8, 9, *range(18, 28))  # sp, gp, tp and s0 to s11, which a function preserves

Registers = Sequence[int | None]
"""The values of x0 to x31 in a function. A value is None if it is unknown, since a called function may have changed it."""

Peek = Callable[[int], int | None]
"""Returns the 8 bytes at an address as a number; None if they can't be read."""


@dataclass(frozen=True)
class CallFrame:
    """A function that is executing, or that waits for the return of a function that it has called.

    address: the address of the function's next instruction; in a waiting function, the return address of the call
    registers: the values of x0 to x31 in the function
    stack: the stack pointer after the function has returned (the canonical frame address); None if it is unknown
    is_innermost: whether the function is executing
    """

    address: int
    registers: Registers
    stack: int | None
    is_innermost: bool

    @property
    def inside(self) -> int:
        """An address inside the instruction that executes next, or inside the call for whose return the function waits."""
        return self.address if self.is_innermost else self.address - 1


class CallFrames:
    """The call frame information of an image."""

    def __init__(self, image: pathlib.Path) -> None:
        self._image = image

    def walk(self, pc: int, x: Sequence[int], peek: Peek, word_at: Callable[[int], int]) -> list[CallFrame]:
        """Return the call stack, the innermost function first, with at most MAX_FRAMES functions.

        pc, x: the program counter and the values of x0 to x31; word_at: returns the word at an address, or 0 without memory
        """
        found, address, registers = list[CallFrame](), pc, list[int | None](x)
        while len(found) < MAX_FRAMES:
            row = self._row(address if not found else address - 1)
            stack = _stack_of(row, registers) if row else None
            found.append(CallFrame(address, registers, stack, not found))
            before = None if row is None or stack is None else self._caller(row, registers, stack, peek)
            if row is None and len(found) == 1:
                before = _caller_in_register(pc, x, word_at)
            if before is None or before[RA] in (None, 0, RETURN):
                break
            address, registers = before[RA] or 0, before
        return found

    def covers(self, address: int) -> bool:
        """Return whether the image has call frame information for the function at an address."""
        return self._row(address) is not None

    def _caller(self, row: "_Row", registers: Registers, stack: int, peek: Peek) -> list[int | None]:
        """Return the registers of the caller. The value of ra is the address to which the function returns.

        row: the rules at the function's present address; registers: the function's registers; stack: the canonical frame address
        """
        before: list[int | None] = [registers[number] if number in _SAVED else None for number in range(32)]
        before[0], before[SP], before[RA] = 0, stack, registers[RA]
        for number, rule in row.rules.items():
            if number < 32:
                before[number] = _restored(rule, registers, stack, registers[number], peek)
        return before

    def _row(self, address: int) -> "_Row | None":
        """Return the rules at an address; None if the image has no call frame information for it."""
        for first, end, rows in self._entries:
            if first <= address < end:
                return next((row for row in reversed(rows) if row.first <= address), None)
        return None

    @cached_property
    def _entries(self) -> list[tuple[int, int, list["_Row"]]]:
        """The first address of each function, the address after its last one, and its rows of rules. Functions after damaged data are missing."""
        from elftools.dwarf.callframe import FDE, CallFrameInfo
        from elftools.elf.elffile import ELFFile

        found = list[tuple[int, int, list[_Row]]]()
        with self._image.open("rb") as file:
            try:
                elf = ELFFile(file)
                debug = elf.get_dwarf_info() if elf.has_dwarf_info() else None
                if debug is None:
                    return found
                entries = [*(debug.EH_CFI_entries() if debug.has_EH_CFI() else ())]
                if debug.has_CFI():
                    section = debug.debug_frame_sec
                    data = with_older_headers(section.stream.getvalue()[: section.size])
                    entries += CallFrameInfo(io.BytesIO(data), len(data), section.address, debug.structs).get_entries()
                for entry in entries:
                    if isinstance(entry, FDE):
                        first, size = entry.header["initial_location"], entry.header["address_range"]
                        found.append((first, first + size, _rows(entry, debug.structs)))
            except Exception:  # pylint: disable=broad-except  # damaged data can make pyelftools raise any exception
                pass
        return found


def with_older_headers(data: bytes) -> bytes:
    """Return a section `.debug_frame` in which common information entries of version 4 are replaced by those of version 3.

    The reason is that pyelftools 0.29 reads entries of version 4 as if they had version 3. In version 4, two bytes with the sizes of addresses
    and segments follow the augmentation. They are removed, and two DW_CFA_nop are added at the end, so that the entry keeps its length.
    """
    changed, at = bytearray(data), 0
    while at + 9 <= len(data):
        length, kind = (int.from_bytes(data[at + place : at + place + 4], "little") for place in (0, 4))
        end = at + 4 + length
        if kind == _COMMON and data[at + 8] == 4:
            sizes = data.index(b"\0", at + 9) + 1
            changed[at + 8 : end] = b"\3" + data[at + 9 : sizes] + data[sizes + 2 : end] + b"\0\0"
        at = end
    return bytes(changed)


@dataclass(frozen=True)
class _Row:
    """The rules of a function from an address on.

    first: the address from which the rules hold, up to the first address of the next row
    register, offset: the canonical frame address is the value of this register plus `offset`; `register` is None if the rule has another form
    rules: how to restore each register of the caller, by its number, in pyelftools' form
    """

    first: int
    register: int | None
    offset: int
    rules: Mapping[int, Any]


def _rows(entry: Any, structs: Any) -> list[_Row]:
    """Return the rows of a function's entry, by rising address. The first row has the rules of the common information entry."""
    first = entry.header["initial_location"]
    common = [{**row, "pc": first} for row in entry.cie.get_decoded().table[-1:]]
    own = [row for row in entry.get_decoded().table if row.get("pc") is not None]
    return [_row(row, structs) for row in [*common, *own] if "cfa" in row]


def _row(row: Mapping[Any, Any], structs: Any) -> _Row:
    """Return a row of rules from pyelftools' form of it. structs: the format of the debug data"""
    rules = {number: rule for number, rule in row.items() if isinstance(number, int)}
    rule = row["cfa"]
    if rule.expr is None:
        return _Row(row["pc"], rule.reg, rule.offset, rules)
    try:
        from elftools.dwarf.dwarf_expr import DWARFExprParser

        place = location(0, CODE_END, DWARFExprParser(structs).parse_expr(rule.expr), None)
    except (ValueError, IndexError):
        return _Row(row["pc"], None, 0, rules)
    offset = int(place.offset, 16)
    return _Row(row["pc"], place.register, offset - (offset >> 63 << 64), rules)


def _stack_of(row: _Row, registers: Registers) -> int | None:
    """Return the canonical frame address by a row of rules; None if it is unknown."""
    base = registers[row.register] if row.register is not None else None
    return None if base is None else base + row.offset & (1 << 64) - 1


def _restored(rule: Any, registers: Registers, stack: int, now: int | None, peek: Peek) -> int | None:
    """Return the caller's value of a register; None if it is unknown.

    rule: how to restore it; registers: the function's registers; stack: the canonical frame address; now: the register's value in the function
    """
    match rule.type, rule.arg:
        case "OFFSET", int(offset):
            return peek(stack + offset)
        case "VAL_OFFSET", int(offset):
            return stack + offset
        case "REGISTER", int(other):
            return registers[other] if other < 32 else None
        case "SAME_VALUE", _:
            return now
    return None


def _caller_in_register(pc: int, x: Sequence[int], word_at: Callable[[int], int]) -> list[int | None] | None:
    """Return the registers of the caller of a function without call frame information, if ra has the function's return address.

    Return None if the instruction before the address in ra isn't a call of the present code. Then ra may be left over from another call.
    """
    back = x[RA]
    if back % 4 or not is_call(word_at(back - 4)):
        return None
    target = jump_target(back - 4, word_at(back - 4))
    if target is not None and not (target <= pc and not target <= back <= pc):
        return None
    return [0, *(x[number] if number in (RA, *_SAVED) else None for number in range(1, 32))]
