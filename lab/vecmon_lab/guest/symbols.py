"""The symbols of an ELF file, and the source lines of its instructions."""

import bisect
import functools
import pathlib
from collections.abc import Collection, Iterator, Mapping, Sequence
from dataclasses import dataclass, field
from typing import TYPE_CHECKING

from .entries import printable
from .source_lines import SourceLines

if TYPE_CHECKING:
    from elftools.elf.elffile import ELFFile

ALLOCATED = 2  # SHF_ALLOC: the section is a part of the memory
NAMING = ("STT_NOTYPE", "STT_OBJECT", "STT_FUNC")
BINDINGS = ("STB_LOCAL", "STB_WEAK", "STB_GLOBAL")
MAPPING = ("$", ".L")  # the start of symbols that assemblers add


@dataclass(frozen=True)
class Symbols:
    """The symbols of a file by name. They are empty if the file has no symbol table.

    addresses: the address of each name; if several symbols have the name, that of the one which `_symbols` ranks highest
    path: the path of the file, from which source lines are read when they are first used; None without a file
    sizes: the size of each symbol in bytes; 0 if the file doesn't give a size
    places_of: all addresses of each name, since several source files may define the same name
    """

    addresses: Mapping[str, int] = field(default_factory=dict)
    path: pathlib.Path | None = None
    sizes: Mapping[str, int] = field(default_factory=dict)
    places_of: Mapping[str, Collection[int]] = field(default_factory=dict)
    _places: Sequence[tuple[int, int, str]] = ()  # addresses in rising order, each with its section's end, and its name

    @classmethod
    def read(cls, path: pathlib.Path) -> "Symbols":
        """Return the symbols of a file; no symbols if it isn't a valid ELF file. Raises OSError if the file can't be read."""
        with path.open("rb") as file:
            from elftools.elf.elffile import ELFFile  # not needed by a console without an image

            try:
                found = sorted(_symbols(ELFFile(file)))
            except Exception:  # pylint: disable=broad-except  # a damaged file makes pyelftools raise what its parts do
                return cls()
        ranked = sorted(found, key=lambda symbol: symbol[1])
        addresses = {name: address for address, _, _, name, _ in ranked}
        # if an address has several symbols, the last one names it
        places = {address: (address, end, name) for address, _, end, name, _ in found if address < end}
        places_of = dict[str, set[int]]()
        for address, _, _, name, _ in found:
            places_of.setdefault(name, set()).add(address)
        return cls(addresses, path, {name: size for *_, name, size in ranked}, places_of, list(places.values()))

    @classmethod
    def of_labels(cls, labels: Mapping[str, Sequence[str]]) -> "Symbols":
        """Return the labels of a source as symbols. The symbol with the highest address reaches to the end of its page.

        labels: the names at each address, by the address in hexadecimal digits
        """
        from ..instructions.accesses import PAGE_BYTES  # not needed for an image; its import reads tables

        places = sorted((int(digits, 16), names) for digits, names in labels.items())
        end = (max((address for address, _ in places), default=0) | PAGE_BYTES - 1) + 1
        addresses = {name: address for address, names in places for name in names}
        return cls(addresses, None, {}, {}, [(address, end, names[-1]) for address, names in places])

    def place(self, address: int) -> str:
        """Return the name of the last symbol at or before an address in the same section, with the distance to it, as `main+0x8`.

        Return "" if there is no such symbol.
        """
        at = bisect.bisect_right(self._places, address, key=lambda place: place[0]) - 1
        if at < 0 or address >= self._places[at][1]:
            return ""
        start, _, name = self._places[at]
        return name if address == start else f"{name}+{address - start:#x}"

    def room(self, name: str) -> int:
        """Return the number of bytes of a symbol: its size in the file, or else the distance to the next symbol or the section's end.

        Return 0 if neither is known. Raises KeyError if there is no symbol with this name.
        """
        address = self.addresses[name]
        at = bisect.bisect_left(self._places, address, key=lambda place: place[0])
        if self.sizes.get(name) or not self._places[at : at + 1] or self._places[at][0] != address:
            return self.sizes.get(name, 0)
        return min([self._places[at][1], *(place for place, _, _ in self._places[at + 1 : at + 2])]) - address

    def line(self, address: int) -> str:
        """Return the source line of an instruction, as `sum.c:12`; "" if the file has none."""
        return self.source.at(address)

    @property
    def warning(self) -> str:
        """Why the file's source lines can't be read, in one line; "" if they can be read, or if there are none."""
        return self.source.warning

    @functools.cached_property
    def source(self) -> SourceLines:
        """The source lines of the file."""
        return SourceLines(self.path)


def _symbols(elf: "ELFFile") -> Iterator[tuple[int, int, int, str, int]]:
    """Yield each symbol: its address, its rank, the address after its section, its name and its size in bytes.

    Of symbols with the same name, the one with the highest rank is used. The address after the section is 0 if the symbol is in none.
    """
    allocated = [(at, each) for at, each in enumerate(elf.iter_sections()) if each["sh_flags"] & ALLOCATED]
    bounds = {at: (each["sh_addr"], each["sh_addr"] + each["sh_size"]) for at, each in allocated}
    for section in elf.iter_sections():
        if section["sh_type"] not in ("SHT_SYMTAB", "SHT_DYNSYM"):
            continue
        for symbol in section.iter_symbols():
            kind, bind, index = symbol["st_info"]["type"], symbol["st_info"]["bind"], symbol["st_shndx"]
            if kind not in NAMING or index == "SHN_UNDEF" or not symbol.name or symbol.name.startswith(MAPPING):
                continue
            rank = 3 * (kind != "STT_NOTYPE") + (BINDINGS.index(bind) if bind in BINDINGS else 0)
            start, end = bounds.get(index, (0, 0))
            end = end if start <= symbol["st_value"] < end else 0
            yield symbol["st_value"], rank, end, printable(symbol.name), symbol["st_size"]
