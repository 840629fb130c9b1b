"""The parts of an image, as JSON: its segments, symbols, the source line of each instruction, and its variables."""

import pathlib
from collections.abc import Iterator, Sequence
from itertools import islice
from typing import TYPE_CHECKING, NamedTuple, TypedDict

from ..guest.entries import NAME_LETTERS
from ..guest.source_lines import copies_in, innermost, line_addresses, source_rows
from ..guest.symbols import Symbols
from ..machine.image import rights_of
from .compiler import OWN_SOURCES
from .variables import Variable, variables_of

if TYPE_CHECKING:
    from elftools.elf.elffile import ELFFile

MAX_MESSAGES, MESSAGE_LETTERS = 100, 400  # of a compiler: messages, and letters of each
MAX_SEGMENTS, MAX_BYTES, MAX_SYMBOLS, MAX_ROWS = 64, 1 << 20, 2000, 20_000
MAX_STOPS = 64  # addresses of a line or a function
_CODE = 4  # SHF_EXECINSTR: the section has instructions
_CONSTRUCTORS = {"SHT_INIT_ARRAY", "SHT_FINI_ARRAY", "SHT_PREINIT_ARRAY"}

NO_CONSTRUCTORS = "the runtime calls no constructors and no destructors: call the function from main"
NO_THREADS = "the machine has no threads, and so no _Thread_local variables: use a plain variable"


class Segment(NamedTuple):
    """A segment of memory.

    rights: the program's permissions, such as `rw`; size: the number of bytes
    data: the first bytes in hexadecimal digits; all other bytes of the segment are 0
    """

    address: int
    rights: str
    size: int
    data: str


class LineRow(NamedTuple):
    """An address where instructions of another line begin.

    line: the file and the number of the line, such as `source.c:12`, or "" for none
    inlined: the name of the function that was inlined there, or ""
    """

    address: int
    line: str
    inlined: str


class Image(TypedDict):
    """The parts of an image, in the form of the sandbox's output.

    stops: the addresses of breakpoints, by a line of the source such as `source.c:12`, or by the name of a function in it
    """

    entry: int
    segments: list[Segment]
    symbols: dict[str, int]
    rows: list[LineRow]
    stops: dict[str, list[int]]
    variables: list[Variable]


def image_of(path: pathlib.Path) -> Image:
    """Return the parts of an image, as far as its debug data can be read.

    An image without an entry address starts at `_start`, or at its first code. Raises ValueError if the image has too many parts,
    or its headers are damaged.
    """
    from elftools.elf.elffile import ELFFile

    symbols = list(Symbols.read(path).addresses.items())
    with path.open("rb") as file:
        try:
            return _parts(ELFFile(file), symbols)
        except (ValueError, MemoryError, RecursionError):
            raise
        except Exception as error:  # pylint: disable=broad-except  # pyelftools raises what its parts do
            raise ValueError("its headers are damaged: compile it again") from error


def missing_start_code(path: pathlib.Path) -> list[str]:
    """Return a sentence for each thing that has to be done before the image's `main`, but isn't done by the lab's runtime.

    Raises OSError, and the exceptions of pyelftools.
    """
    from elftools.elf.elffile import ELFFile

    with path.open("rb") as file:
        elf = ELFFile(file)
        kinds = {section["sh_type"] for section in elf.iter_sections() if section["sh_size"]}
        has_threads = any(elf.iter_segments("PT_TLS"))
    return [NO_CONSTRUCTORS] * bool(kinds & _CONSTRUCTORS) + [NO_THREADS] * has_threads


def _parts(elf: "ELFFile", symbols: Sequence[tuple[str, int]]) -> Image:
    """Return the parts of an open image. symbols: the names and the addresses of the image's symbols"""
    rows, stops = _rows(elf)
    code = [section["sh_addr"] for section in elf.iter_sections() if section["sh_flags"] & _CODE]
    return {
        "entry": elf.header["e_entry"] or dict(symbols).get("_start", min(code, default=0)),
        "segments": list(_segments(elf)),
        "symbols": {name[:NAME_LETTERS]: address for name, address in symbols[:MAX_SYMBOLS]},
        "rows": rows,
        "stops": stops,
        "variables": variables_of(elf),
    }


def _segments(elf: "ELFFile") -> Iterator[Segment]:
    """Return the loaded segments. Raises ValueError if they are too many or too large."""
    left = MAX_BYTES
    if elf.num_segments() > MAX_SEGMENTS:
        raise ValueError(f"the image has more than {MAX_SEGMENTS} segments")
    for segment in elf.iter_segments("PT_LOAD"):
        left -= segment["p_memsz"]
        if left < 0 or segment["p_filesz"] > segment["p_memsz"]:
            raise ValueError(f"the image has more than {MAX_BYTES:,} bytes")
        if segment["p_memsz"]:
            yield Segment(segment["p_vaddr"], rights_of(segment["p_flags"]), segment["p_memsz"], segment.data().hex())


def _rows(elf: "ELFFile") -> tuple[list[LineRow], dict[str, list[int]]]:
    """Return the rows of the line tables by address, and `Image.stops`; nothing if the tables are damaged."""
    try:
        listed, copies = [*islice(source_rows(elf), MAX_ROWS)], [*copies_in(elf)]
    except Exception:  # pylint: disable=broad-except  # damaged data makes pyelftools raise what its parts do
        return [], {}
    copy_at = innermost((row.address for row in listed), copies)
    inlined = {address: copy.name for address, copy in copy_at.items() if copy.called}
    rows = [LineRow(row.address, row.line[:NAME_LETTERS], inlined.get(row.address, "")) for row in listed]
    stops = {line: at[:MAX_STOPS] for line, at in line_addresses(listed, copies).items() if _is_own(line)}
    for copy in copies:
        if _is_own(copy.declared):
            stops.setdefault(copy.name, []).extend(copy.entries)
    return sorted(rows, key=lambda row: (row.address, row.line != "")), stops


def _is_own(line: str) -> bool:
    """Return whether a line belongs to the source. line: the file and the number, such as `source.c:12`"""
    return line.rpartition(":")[0] in OWN_SOURCES
