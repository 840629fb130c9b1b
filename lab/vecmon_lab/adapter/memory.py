"""Memory and instructions as a client reads and writes them."""

import base64
from collections.abc import Callable, Sequence
from typing import Any

from .. import LabError
from ..assembler.commands import explain_refusal
from ..guest.guest import peeks, pokes
from ..instructions.accesses import LINE_BYTES, PAGE_BYTES
from ..machine.answers import Memory, Refused
from .program import Line, Program
from .requests import BadArguments

MAX_BYTES, MAX_INSTRUCTIONS = 1 << 20, 4096  # that one request may have
_ADDRESSES = 1 << 48  # the end of memory's addresses


def read_memory(program: Program, address: int, count: int) -> dict[str, Any]:
    """Return the body of a response with `count` bytes from an address on, or with fewer if a page isn't mapped.

    Raises BadArguments if the count is out of range.
    """
    if not 0 <= count <= MAX_BYTES:
        raise BadArguments(f"count is 0 to {MAX_BYTES:,}")
    data = bytearray()
    stop = min(address + count, _ADDRESSES)
    while 0 <= address + len(data) < stop:
        start = address + len(data)
        end = min(stop, (start // PAGE_BYTES + 1) * PAGE_BYTES)
        parts = [answer.data for answer in program.guest.ask(*peeks(start, end - start)) if isinstance(answer, Memory)]
        data += b"".join(parts)
        if sum(map(len, parts)) < end - start:
            break
    body: dict[str, Any] = {"address": f"{address:#x}", "unreadableBytes": count - len(data)}
    return body | ({"data": base64.b64encode(data).decode("ascii")} if data else {})


def write_memory(program: Program, address: int, text: str, is_partial: bool) -> int:
    """Write bytes to memory from an address on, and return the number of bytes that were written.

    text: the bytes in base64; is_partial: whether to write only the first bytes if the others can't be written

    Raises LabError if the bytes can't be written; then some of them may have been written. Raises BadArguments if the text is invalid.
    """
    try:
        data = base64.b64decode(text, validate=True)
    except ValueError as error:  # as for other letters than those of ASCII; binascii.Error is one, too
        raise BadArguments("data isn't base64") from error
    if len(data) > MAX_BYTES:
        raise BadArguments(f"data has {MAX_BYTES:,} bytes at most")
    guest = program.guest
    readable = len(data) - int(read_memory(program, address, len(data))["unreadableBytes"])
    if readable < len(data) and not is_partial:
        raise LabError(f"no memory is at {address + readable:#x}, so nothing was written")
    commands = [*pokes(address, data[:readable])]
    for number, (command, answer) in enumerate(zip(commands, guest.ask(*commands))):
        if isinstance(answer, Refused):
            if is_partial:
                return number * LINE_BYTES
            raise LabError(explain_refusal(f"{guest.user} {command}", answer)[-1])
    return readable


def disassemble(
    program: Program, start: int, count: int, line_fields: Callable[[Line], dict[str, Any]]
) -> list[dict[str, Any]]:
    """Return the rows of `count` instructions from the address `start` on. An address without memory has a row, too.

    line_fields: returns the fields `line` and `location` of a source line

    Raises BadArguments if the count or the start is out of range.
    """
    if not 0 <= count <= MAX_INSTRUCTIONS:
        raise BadArguments(f"instructionCount is 0 to {MAX_INSTRUCTIONS:,}")
    if abs(start) >= 1 << 64:
        raise BadArguments(f"there is no instruction at {start:#x}: addresses have 64 bits")
    addresses: Sequence[int] = range(start, start + 4 * count, 4)
    inside = [address for address in addresses if 0 <= address < _ADDRESSES]
    words = program.words(inside)
    rows, before = list[dict[str, Any]](), None
    for address in addresses:
        row: dict[str, Any] = {"address": f"{address:#x}" if address >= 0 else f"-{-address:#x}"}
        if word := words.get(address):
            row |= {"instruction": word.text, "instructionBytes": word.word.to_bytes(4, "little").hex(" ")}
            symbol = program.symbols.place(address)
            row |= {"symbol": symbol} if symbol and "+" not in symbol else {}
        else:
            row |= {"instruction": "no memory", "presentationHint": "invalid"}
        line = program.line(address) if word else None
        if line and line != before:
            row |= line_fields(line)
        before = line
        rows.append(row)
    return rows
