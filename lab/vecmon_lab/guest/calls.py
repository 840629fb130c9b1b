"""The ECALLs in a program's code, and which of them may be calls that the machine doesn't support."""

import re
import struct
from collections.abc import Iterable, Iterator, Mapping, Sequence
from typing import TYPE_CHECKING

from ..instructions.accesses import PAGE_BYTES
from ..instructions.calls import A0, A7, ECALL, EXITS, WRITE, is_supported, unsupported_call
from ..machine.program import segments_of
from ..machine.session import Session
from .constants import constant_before
from .jumps import jump_target

if TYPE_CHECKING:
    from .guest import Guest


class Code:
    """The ECALLs in the executable pages of a guest's program. If the program writes code, it may have others.

    places: the addresses of all ECALLs
    uncertain: the addresses of ECALLs for which the preceding instructions don't show a supported call
    """

    def __init__(self) -> None:
        self.places: Sequence[int] = ()
        self.uncertain: Sequence[int] = ()
        self._session: Session | None = None  # the session to which the read part of the script belongs
        self._size = 0  # bytes of the script that were read
        self._lines = list[bytes]()  # the lines that define the code
        self._pages = set[int]()  # executable pages
        self._found = dict[bytes, tuple[Sequence[int], Sequence[int]]]()  # the results of _search, by _lines

    def update(self, guest: "Guest") -> None:
        """Read the lines added to the script since the last call. If they change the code, search it again."""
        session, form = guest.session, rb"^%d (leave|load|map|poke|asm)\b *([^\n]*)"
        if session is not self._session:
            self._session, self._size, self._lines, self._pages = session, 0, [], set()
        if session.size == self._size:
            return
        part, self._size = bytes(session.recorded.text[self._size :]), session.size
        for command, words in re.findall(form % guest.user, part, re.MULTILINE):
            self._follow(guest, command, words)
        key = b"\n".join(self._lines)
        if key not in self._found:
            self._found[key] = _search(words_in(guest, sorted(self._pages)))
        self.places, self.uncertain = self._found[key]

    def _follow(self, guest: "Guest", command: bytes, words: bytes) -> None:
        """Update the lines and pages that define the code, for a line of the script. command, words: the command and its arguments"""
        arguments = words.decode("ascii").split()
        if command in (b"leave", b"load"):
            self._lines, self._pages = [], set()
        if command == b"load" and arguments:
            self._pages = set(_image_pages(guest, arguments[0]))
        if command == b"map" and len(arguments) == 3 and "x" in arguments[2]:
            self._pages.update(_pages(int(arguments[0], 16), int(arguments[1]) * PAGE_BYTES))
        is_write = command in (b"poke", b"asm") and len(arguments) > 1
        if not is_write or self._pages.intersection(_pages(int(arguments[0], 16), max(4, len(arguments[1]) // 2))):
            self._lines.append(command + b" " + words)


def unshown_calls(image: bytes, executed: Iterable[int]) -> list[int]:
    """Return the addresses of executed ECALLs for which an image's code doesn't show a supported call, in rising order.

    executed: the addresses of the executed ECALLs
    """
    words = dict[int, int]()
    for address, rights, _, data in segments_of(image):
        if "x" in rights:
            words |= _words(address, data)
    places, uncertain = _search(words)
    return sorted(set(executed).difference(set(places).difference(uncertain)))


def shown_calls(words: Mapping[int, int]) -> dict[int, str]:
    """Return a sentence about each ECALL whose call the code shows, by the ECALL's address.

    The sentence says why the call isn't supported; it is "" for a supported call. words: the code's words by address
    """
    sentences, targets = dict[int, str](), _targets(words)
    for place in (address for address, word in words.items() if word == ECALL):
        number, file = (constant_before(words, targets, place, register) for register in (A7, A0))
        if number is not None and (number != WRITE or file is not None):
            x = [0] * 32
            x[A7], x[A0] = number, file or 0
            sentences[place] = unsupported_call(x)
    return sentences


def words_in(guest: "Guest", pages: Sequence[int]) -> dict[int, int]:
    """Return the words of pages by address. Pages that aren't mapped are left out."""
    words = dict[int, int]()
    for page in pages:
        words |= _words(page, guest.peek(page, PAGE_BYTES))
    return words


def _words(address: int, data: bytes) -> dict[int, int]:
    """Return the words in bytes of memory, by the words' addresses, which are multiples of 4. address: the address of the first byte"""
    first = -address % 4
    data = data[first : first + (len(data) - first) // 4 * 4]
    return {address + first + 4 * number: word for number, (word,) in enumerate(struct.iter_unpack("<I", data))}


def _image_pages(guest: "Guest", name: str) -> Iterator[int]:
    """Yield the pages of an image that are executable; none if the image can't be read."""
    try:
        for address, rights, length, _ in segments_of(guest.session.images[name].read_bytes()):
            if "x" in rights:
                yield from _pages(address, length)
    except (KeyError, OSError, struct.error):  # the machine refuses it as well
        return


def _pages(address: int, length: int) -> range:
    """Return the addresses of the pages that a range of bytes overlaps. address, length: the range's first address and its size"""
    return range(address // PAGE_BYTES * PAGE_BYTES, address + length, PAGE_BYTES)


def _search(words: Mapping[int, int]) -> tuple[Sequence[int], Sequence[int]]:
    """Return the addresses of all ECALLs among words, and those of the ECALLs for which the code doesn't show a supported call."""
    places = sorted(address for address, word in words.items() if word == ECALL)
    targets = _targets(words) if places else set()
    uncertain = [place for place in places if not _is_shown(words, targets, place)]
    return places, uncertain


def _is_shown(words: Mapping[int, int], targets: set[int], place: int) -> bool:
    """Return whether the straight-line code before an ECALL sets a7 and a0 to values of a supported call."""
    number = constant_before(words, targets, place, A7)
    return number in EXITS or number == WRITE and is_supported(WRITE, constant_before(words, targets, place, A0) or 0)


def _targets(words: Mapping[int, int]) -> set[int]:
    """Return the addresses to which branches and `jal` among words may jump."""
    targets = (jump_target(address, word) for address, word in words.items())
    return {target for target in targets if target is not None}
