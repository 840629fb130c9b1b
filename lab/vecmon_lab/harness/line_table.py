"""Debug data with the source line of each instruction of an assembler source, in DWARF 4 (its section 6.2)."""

import os
import pathlib
import struct
from collections.abc import Sequence

_VERSION, _ADDRESS_BYTES = 4, 8
_MIPS_ASSEMBLER = 0x8001  # DW_LANG_Mips_Assembler, which GNU as uses for each assembler source
# DW_TAG_compile_unit without children; its attributes and their forms, in the order of `_unit`: DW_AT_stmt_list,
# DW_AT_language, DW_AT_name, DW_AT_comp_dir, DW_AT_low_pc, DW_AT_high_pc
_ABBREVIATIONS = bytes([1, 0x11, 0, 0x10, 0x17, 0x13, 5, 3, 8, 0x1B, 8, 0x11, 1, 0x12, 7, 0, 0, 0])
_OPERANDS = bytes([0, 1, 1, 1, 1, 0, 0, 0, 1, 0, 0, 1])  # number of operands of each standard opcode, 1 to 12
_COPY, _ADVANCE_LINE = b"\1", b"\3"  # standard opcodes
_END_SEQUENCE, _SET_ADDRESS = b"\0\1\1", b"\0\x09\2"  # extended opcodes; an address follows the second one


def debug_sections(path: pathlib.Path, rows: Sequence[tuple[int, int]]) -> dict[str, bytes]:
    """Return the debug sections of an executable by name; none if there are no rows.

    path: the path of the source
    rows: the address and the line of each instruction (4 bytes), in rising order of addresses
    """
    if not rows:
        return {}
    unit, lines = _unit(path, rows), _lines(path, rows)
    return {".debug_abbrev": _ABBREVIATIONS, ".debug_info": unit, ".debug_line": lines}


def _unit(path: pathlib.Path, rows: Sequence[tuple[int, int]]) -> bytes:
    """Return the compilation unit, which has all instructions."""
    names = b"".join(os.fsencode(name) + b"\0" for name in (path, path.parent))
    first, size = rows[0][0], rows[-1][0] + 4 - rows[0][0]
    entry = b"\1" + struct.pack("<IH", 0, _MIPS_ASSEMBLER) + names + struct.pack("<2Q", first, size)
    return _sized(struct.pack("<HIB", _VERSION, 0, _ADDRESS_BYTES) + entry)


def _lines(path: pathlib.Path, rows: Sequence[tuple[int, int]]) -> bytes:
    """Return the line table. Its only file is the source; it has no list of folders."""
    files = b"\0" + os.fsencode(path) + b"\0\0\0\0" + b"\0"
    # minimum_instruction_length, maximum_operations_per_instruction, default_is_stmt, line_base, line_range, opcode_base
    header = struct.pack("<3BbBB", 4, 1, 1, -5, 14, len(_OPERANDS) + 1)
    program, before = b"", 1
    for address, line in rows:
        program += _SET_ADDRESS + struct.pack("<Q", address) + _ADVANCE_LINE + _signed(line - before) + _COPY
        before = line
    program += _SET_ADDRESS + struct.pack("<Q", rows[-1][0] + 4) + _END_SEQUENCE
    return _sized(struct.pack("<H", _VERSION) + _sized(header + _OPERANDS + files) + program)


def _sized(data: bytes) -> bytes:
    """Return data with its length, in 32 bits, before it."""
    return struct.pack("<I", len(data)) + data


def _signed(number: int) -> bytes:
    """Return a number in DWARF's signed LEB128 (section 7.6)."""
    encoded = bytearray()
    while not -64 <= number < 64:
        encoded.append(number & 0x7F | 0x80)
        number >>= 7
    encoded.append(number & 0x7F)
    return bytes(encoded)
