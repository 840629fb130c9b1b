"""A student's changes on the page as lines of the monitor: typed values, and breakpoints at lines of the source."""

import re
from bisect import bisect_left
from collections.abc import Mapping, Sequence

from .moved_breakpoints import MAX_BREAKPOINTS
from .bad_request import BadRequest

_EDIT = re.compile(r"setpc|poke [0-9a-f]+|set x[0-9]{1,2}|vset v([0-9]{1,2}) (1|8|16|32|64) ([0-9]{1,4}) (\w+)")
_DECIMAL, _HEXADECIMAL = re.compile(r"-?[0-9]{1,20}"), re.compile(r"(0x)?[0-9A-Fa-f]{1,16}")


def edit_line(edit: str, text: str, is_decimal: bool, v: Mapping[str, str]) -> str:
    """Return the monitor's line that writes a typed value to the place that an edit names.

    edit: `setpc`, `poke 20000`, `set x5`, or `vset v1 32 3 signed`. The last one names a vector register, the number of bits of an
        element (1 for a bit of a mask), its index, and the form in which pages show it.
    text: the typed value; is_decimal: whether pages show scalar registers in decimal
    v: the bytes of each vector register in hexadecimal digits, by the register's number
    Raises BadRequest for any other edit or a missing element, and if the text for a register isn't a number that fits. The machine
    checks the texts for `setpc` and `poke`.
    """
    found = _EDIT.fullmatch(edit)
    if not found:
        raise BadRequest("there is no such edit")
    if not edit.startswith(("set x", "vset")):
        return f"{edit} {text.removeprefix('0x')}"
    register, bits, index, form = found.groups()
    if not register:
        return f"{edit} {_value(text, is_decimal, 64):x}"
    width, value = int(bits), _value(text, form != "hexadecimal", int(bits))
    digits = v.get(register, "")
    shift = width * int(index)
    if shift + width > 4 * len(digits):
        raise BadRequest("there is no such element")
    others = int.from_bytes(bytes.fromhex(digits), "little") & ~(((1 << width) - 1) << shift)
    return f"vset v{register} {(others | value << shift).to_bytes(len(digits) // 2, 'little').hex()}"


def _value(text: str, is_decimal: bool, bits: int) -> int:
    """Return the number in a text, modulo 2^bits. A text that starts with 0x is always hexadecimal.

    Raises BadRequest if the text isn't a number from -2^(bits - 1) to 2^bits - 1.
    """
    is_decimal = is_decimal and not text.startswith("0x")
    if (_DECIMAL if is_decimal else _HEXADECIMAL).fullmatch(text):
        value = int(text, 10 if is_decimal else 16)
        if -(1 << bits) // 2 <= value < 1 << bits:
            return value % (1 << bits)
    kind = "decimal" if is_decimal else "hexadecimal"
    raise BadRequest(f"`{text}` isn't a {kind} number of {bits} bits: nothing was sent.")


def breakpoint_lines(
    stops: Mapping[str, Sequence[str]], breaks: Sequence[str], line: int, is_only_set: bool = False
) -> list[str]:
    """Return the lines that set all breakpoints of a line of the source, or that remove its breakpoints if any of them is set.

    A line without instructions has the breakpoints of the next line that has an instruction.

    stops: the addresses of the breakpoints of each line of the source, by the line's number
    breaks: the addresses of all breakpoints that are set in the machine; line: the number of the line
    is_only_set: whether to set the missing breakpoints, and to remove none

    Raises BadRequest if neither the line nor a later one has an instruction, or if not all of the line's breakpoints can be set.
    """
    place = _place(sorted(map(int, stops)), line)
    there = [address for address in stops.get(f"{place}", []) if address in breaks]
    if there and not is_only_set:
        return [f"unbreak {address}" for address in there]
    lines, refusals = setting_lines(stops, breaks, [line])
    if refusals:
        raise BadRequest(refusals[0])
    return lines


def setting_lines(
    stops: Mapping[str, Sequence[str]], breaks: Sequence[str], numbers: Sequence[int]
) -> tuple[list[str], list[str]]:
    """Return the lines that set all breakpoints of some lines of the source, and a sentence for each reason why a line gets none.

    numbers: the numbers of the lines; stops, breaks: as for `breakpoint_lines`
    """
    there, missing, crowded, needed = set(breaks), list[int](), dict[int, None](), set[str]()
    added, places = list[str](), sorted(map(int, stops))
    for number in numbers:
        place = _place(places, number)
        new = [address for address in stops.get(f"{place}", []) if address not in there]
        if not place:
            missing.append(number)
        elif len(there) + len(new) > MAX_BREAKPOINTS:
            crowded[place] = None
            needed.update(new)
        else:
            there.update(new)
            added += new
    refusals = [_no_instruction(missing)] if missing else []
    if crowded:
        refusals.append(_no_room([*crowded], len(needed), MAX_BREAKPOINTS - len(there)))
    return [f"break {address}" for address in added], refusals


def _place(places: Sequence[int], line: int) -> int:
    """Return the number of the first line that has an instruction, beginning with `line`; 0 if there is none.

    places: the numbers of lines with instructions, in rising order
    """
    at = bisect_left(places, line)
    return places[at] if at < len(places) else 0


def _no_instruction(lines: Sequence[int]) -> str:
    has, them = ("has", "it") if len(lines) == 1 else ("have", "them")
    return f"{_named(lines)} {has} no instruction to stop at, and no line after {them} has one."


def _no_room(lines: Sequence[int], needed: int, left: int) -> str:
    """Return the refusal of lines that need more breakpoints than the machine has left. needed, left: the numbers of breakpoints"""
    need = "needs" if len(lines) == 1 else "need"
    breakpoints = "1 breakpoint" if needed == 1 else f"{needed} breakpoints"
    rest = f"{left or 'none'} of {MAX_BREAKPOINTS} {'is' if left < 2 else 'are'} left"
    return f"{_named(lines)} {need} {breakpoints}, and {rest}: none was set."


def _named(lines: Sequence[int]) -> str:
    """Return a phrase that names lines by their numbers, such as `Lines 3, 4 and 9`."""
    *first, last = map(str, lines)
    return f"Lines {', '.join(first)} and {last}" if first else f"Line {last}"
