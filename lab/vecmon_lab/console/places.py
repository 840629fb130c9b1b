"""Places of code in the console's lines: addresses, functions with their inlined copies, and lines of the source."""

import re
from collections.abc import Mapping, Sequence
from typing import NamedTuple

from .. import LabError
from ..compilers.compiler import RUNTIME
from .listing import SourceListing
from .names import DIGITS, Names

_LINE, _NUMBER = re.compile(r"(?:.*/)?([^/]+):([1-9][0-9]*)"), re.compile("[1-9][0-9]*")
_RUNTIMES = {path.name for path in RUNTIME.glob("*")}


class Place(NamedTuple):
    """A place of code.

    addresses: the addresses in hexadecimal digits, or one word that the monitor refuses
    taken: a sentence that says whether a number was taken as a line or as an address; "" if it can't be misunderstood
    is_address: whether the user named an address, or a symbol with one address
    """

    addresses: Sequence[str]
    taken: str = ""
    is_address: bool = False


class Places:
    """The places of code in the program that is loaded."""

    def __init__(self, names: Names, listing: SourceListing) -> None:
        self._names, self._listing = names, listing

    def find(self, word: str, pc: int) -> Place:
        """Return the place that an argument names. Raises LabError if there is no such place, or if several functions have the name.

        word: the argument; pc: the program counter
        """
        if found := _LINE.fullmatch(word):
            return Place(self._of_line(*found.groups()))
        if _NUMBER.fullmatch(word) and not self._names.symbols.place(int(word, 16)):
            return self._of_number(word, pc)
        if functions := self._names.symbols.source.functions.get(word):
            return self._of_function(word, functions)
        return Place([self._names.named(word, "ADDR")], is_address=True)

    @property
    def _stops(self) -> Mapping[str, Sequence[int]]:
        """The addresses of breakpoints, by the line, such as `sum.c:12`."""
        if self._listing.own is None:
            return self._names.symbols.source.stops
        own = self._listing.own
        return {f"{own.path.name}:{line}": [address] for address, line in sorted(own.lines.items(), reverse=True)}

    def _of_line(self, file: str, number: str) -> list[str]:
        """Return the addresses of a line's breakpoints in hexadecimal digits. Raises LabError if no instruction is of this line.

        file: the name of the source; number: the line's number, in digits
        """
        stops, symbols = self._stops, self._names.symbols
        if addresses := stops.get(f"{file}:{number}"):
            return [f"{address:x}" for address in addresses]
        if not stops:
            raise LabError(symbols.warning or "no source lines are known: compile the image with -g")
        lines = sorted(int(line) for name, _, line in (each.rpartition(":") for each in stops) if name == file)
        if not lines:
            files = sorted({each.rpartition(":")[0] for each in stops})
            raise LabError(f"no instruction is of a file {file}; the files are {', '.join(files)}")
        later = next((line for line in lines if line > int(number)), lines[-1])
        raise LabError(f"no instruction is of line {number} of {file}; {file}:{later} has some")

    def _of_number(self, word: str, pc: int) -> Place:
        """Return the place that a number names, if the program has no symbol at or before it as an address.

        It is a line of the file where the program is stopped, or of `main`'s file, or else an address.
        """
        symbols, stops = self._names.symbols, self._stops
        near = [symbols.line(address).rpartition(":")[0] for address in (pc, symbols.addresses.get("main", pc))]
        files = sorted({line.rpartition(":")[0] for line in stops})
        own = [*(each for each in near if each and each not in _RUNTIMES), *(files if len(files) == 1 else [])]
        for file in own:
            if f"{file}:{word}" in stops or int(word, 16) % 4:  # it isn't an instruction's address
                return Place(self._of_line(file, word), f"{word} is taken as the line {file}:{word}")
        taken = f"{word} is taken as an address; a line is named as FILE:{word}" if stops else ""
        return Place([word], taken, is_address=True)

    def _of_function(self, name: str, functions: Mapping[str, Sequence[int]]) -> Place:
        """Return the place of a function and its inlined copies. Raises LabError if several functions have the name."""
        symbols = self._names.symbols
        own = {address for addresses in functions.values() for address in addresses}
        others = set(symbols.places_of.get(name, ())) - own
        if len(functions) > 1 or others:
            raise self._names.ambiguous(name, sorted(own | others))
        return Place([f"{address:x}" for address in sorted(own)], is_address=len(own) == 1)


def is_number(word: str) -> bool:
    """Return whether a word has only hexadecimal digits."""
    return re.fullmatch(DIGITS, word) is not None
