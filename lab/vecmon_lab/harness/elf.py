"""ELF files for RISC-V: executables at fixed addresses, with symbols, and optionally with sections and debug data."""

import struct
from collections.abc import Mapping, Sequence
from dataclasses import dataclass
from typing import NamedTuple

from ..instructions.accesses import PAGE_BYTES

READ, WRITE, EXECUTE = 4, 2, 1  # flags of a segment
_PROGBITS, _SYMTAB, _STRTAB, _NOBITS = 1, 2, 3, 8  # kinds of sections
_WRITABLE, _ALLOCATED, _INSTRUCTIONS = 1, 2, 4  # flags of a section
_ABSOLUTE, _GLOBAL = 0xFFF1, 16  # SHN_ABS; st_info of STB_GLOBAL and STT_NOTYPE
_SYMBOL_BYTES, _ABSOLUTE_BYTES = 24, 8  # size of an entry of the symbol table, and of the object of an absolute symbol


@dataclass(frozen=True)
class Segment:
    """Bytes at an address, followed by zeros up to a size.

    address: a multiple of 4,096
    size: the number of bytes with the zeros
    flags: the program's permissions there, a sum of READ, WRITE and EXECUTE
    section: the name of the section that has these bytes; "" for none
    """

    address: int
    data: bytes
    size: int
    flags: int
    section: str = ""


class _Section(NamedTuple):
    """A section header. The data of the section is `size` bytes of the file from `offset` on."""

    name: str
    kind: int
    flags: int
    address: int
    offset: int
    size: int
    link: int = 0
    info: int = 0
    alignment: int = 8
    entry_size: int = 0


def elf(
    entry: int, segments: Sequence[Segment], symbols: Mapping[str, int], debug: Mapping[str, bytes] | None = None
) -> bytes:
    """Return the file of an executable that starts at the address `entry`.

    symbols: addresses by name. A symbol belongs to the section that has its address. Otherwise it is absolute, with a size of 8 bytes, as
    simulators require for tohost.
    debug: the bytes of further sections, by name

    The file has all bytes of a segment that isn't writable: a loader may write its zeros only into writable segments.
    """
    headers, body, sections = b"", b"", list[_Section]()
    for part in segments:
        data = part.data if part.flags & WRITE else part.data.ljust(part.size, b"\0")
        place = (PAGE_BYTES + len(body), part.address, part.address, len(data), part.size, PAGE_BYTES)
        headers += struct.pack("<2I6Q", 1, part.flags, *place)
        if part.section:
            sections.append(_section_of(part, PAGE_BYTES + len(body)))
        body += data.ljust(-(-len(data) // PAGE_BYTES) * PAGE_BYTES, b"\0")
    for name, data in (debug or {}).items():
        sections.append(_Section(name, _PROGBITS, 0, 0, PAGE_BYTES + len(body), len(data), alignment=1))
        body += data
    body += bytes(-len(body) % 8)
    tables, headers_of_sections, at = _tables(symbols, sections, PAGE_BYTES + len(body))
    counts = (64, 56, len(segments), 64, len(headers_of_sections) // 64, len(headers_of_sections) // 64 - 1)
    head = struct.pack("<16s2HI3QI6H", b"\x7fELF\2\1\1", 2, 243, 1, entry, 64, at, 0, *counts) + headers
    return head.ljust(PAGE_BYTES, b"\0") + body + tables + headers_of_sections


def _section_of(segment: Segment, offset: int) -> _Section:
    """Return the header of a segment's section. offset: the offset of the segment's data in the file"""
    flags = _ALLOCATED | (_WRITABLE if segment.flags & WRITE else 0) | (_INSTRUCTIONS if segment.flags & EXECUTE else 0)
    kind = _PROGBITS if segment.data else _NOBITS
    return _Section(segment.section, kind, flags, segment.address, offset, segment.size, alignment=PAGE_BYTES)


def _tables(symbols: Mapping[str, int], sections: Sequence[_Section], at: int) -> tuple[bytes, bytes, int]:
    """Return the tables of symbols and names, the headers of all sections, and their offset. at: the offset of the tables in the file"""
    names, table = b"\0", bytes(_SYMBOL_BYTES)
    for name, address in symbols.items():
        owners = (number for number, it in enumerate(sections, 1) if it.flags and 0 <= address - it.address < it.size)
        owner = next(owners, _ABSOLUTE)
        size = _ABSOLUTE_BYTES if owner == _ABSOLUTE else 0
        table += struct.pack("<I2BH2Q", len(names), _GLOBAL, 0, owner, address, size)
        names += name.encode() + b"\0"
    titles = "".join(f"\0{name}" for name in (*(it.name for it in sections), ".symtab", ".strtab", ".shstrtab", ""))
    content = {".symtab": table, ".strtab": names, ".shstrtab": titles.encode()}
    listed = list(sections)
    for name, data in content.items():
        kind, link, size = (_SYMTAB, len(sections) + 2, _SYMBOL_BYTES) if data is table else (_STRTAB, 0, 0)
        listed.append(_Section(name, kind, 0, 0, at, len(data), link, 1 if link else 0, entry_size=size))
        at += len(data)
    places = [titles.index(f"\0{it.name}\0") + 1 for it in listed]
    headers = b"".join(struct.pack("<2I4Q2I2Q", place, *it[1:]) for place, it in zip(places, listed))
    return b"".join(content.values()), bytes(64) + headers, at
