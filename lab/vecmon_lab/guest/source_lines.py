"""Source lines of an image's instructions, and places of inlined functions, by debug data (DWARF 4 and 5, sections 3.3 and 6.2).

An optimizing compiler separates the instructions of a line and inlines functions, so a line may have several addresses. A
function that isn't `static` also has its own code, which may never be called.
"""

import bisect
import functools
import pathlib
from collections.abc import Callable, Collection, Iterable, Iterator, Mapping, Sequence
from typing import TYPE_CHECKING, Any, NamedTuple, TypeVar

from .entries import entry_at, first_of, name_of, printable, ranges_of
from .jumps import Code, Ranges

if TYPE_CHECKING:
    from elftools.dwarf.compileunit import CompileUnit
    from elftools.dwarf.die import DIE
    from elftools.dwarf.dwarfinfo import DWARFInfo
    from elftools.elf.elffile import ELFFile

Item = TypeVar("Item")
_FUNCTION, _INLINED = "DW_TAG_subprogram", "DW_TAG_inlined_subroutine"


class SourceRow(NamedTuple):
    """A row of a line table.

    address: the address of the first instruction to which the row applies
    line: the file and the line, as `sum.c:12`; "" if there is no line, or at the end of a sequence
    is_statement: whether the compiler recommends the address for a breakpoint
    """

    address: int
    line: str
    is_statement: bool


class Copy(NamedTuple):
    """An address range of a function's code, or of an inlined copy of a function.

    depth: the number of debug data entries around the copy's entry
    first, end: the first address of the range, and the address after its last one
    number: a number that all ranges of the copy have; outer: the number of the copy that contains this copy; -1 if there is none
    name: the function's name
    declared: where the function is declared, as `sum.c:12`; "" if unknown
    called: where the inlined copy is called, as `sum.c:12`; "" if unknown, or if this is the function's own code
    entries: the addresses where the copy's code is entered, in rising order
    """

    depth: int
    first: int
    end: int
    number: int
    outer: int
    name: str
    declared: str
    called: str
    entries: tuple[int, ...]


class _Waiting(NamedTuple):
    """An entry of debug data that isn't read yet.

    depth: the number of entries around it; outer: the number of the copy that contains it; -1 if there is none
    whole: the address ranges of the function that contains it
    """

    entry: "DIE"
    depth: int = 0
    outer: int = -1
    whole: Ranges = ()


class SourceLines:
    """The source lines of an image. Its ELF file is read when they are first used; without a file there are none."""

    def __init__(self, path: pathlib.Path | None = None) -> None:
        self._path = path

    def at(self, address: int) -> str:
        """Return the source line of an instruction, as `sum.c:12`; "" if the file has none."""
        rows = self._ordered
        at = bisect.bisect_right(rows, address, key=lambda row: row.address) - 1
        return rows[at].line if at >= 0 else ""

    @property
    def warning(self) -> str:
        """Why the line tables can't be read, in one line; "" if they can be read."""
        return self._table[1]

    @functools.cached_property
    def stops(self) -> Mapping[str, Sequence[int]]:
        """The addresses of each line's breakpoints, in rising order. A line is `sum.c:12`."""
        return line_addresses(self._table[0], self._copies)

    @functools.cached_property
    def functions(self) -> Mapping[str, Mapping[str, Sequence[int]]]:
        """The addresses where functions and their inlined copies are entered, by name and then by declaration, as `sum.c:10`."""
        found = dict[str, dict[str, set[int]]]()
        for copy in self._copies:
            found.setdefault(copy.name, {}).setdefault(copy.declared, set()).update(copy.entries)
        return {name: {declared: sorted(at) for declared, at in each.items()} for name, each in found.items()}

    @functools.cached_property
    def files(self) -> Mapping[str, pathlib.PurePath]:
        """The paths of source files, as given to the compiler, by the files' names."""
        return dict(self._read(source_files)[0])

    def copies_at(self, address: int) -> list[Copy]:
        """Return the inlined copies that contain the instruction at an address, the innermost first, and then its function."""
        return sorted((copy for copy in self._copies if copy.first <= address < copy.end), reverse=True)

    @functools.cached_property
    def _ordered(self) -> list[SourceRow]:
        return sorted(self._table[0], key=lambda row: (row.address, row.line != ""))

    @functools.cached_property
    def _table(self) -> tuple[list[SourceRow], str]:
        return self._read(source_rows)

    @functools.cached_property
    def _copies(self) -> list[Copy]:
        return self._read(copies_in)[0]

    def _read(self, read: "Callable[[ELFFile], Iterator[Item]]") -> tuple[list[Item], str]:
        """Return the items that `read` yields for the file, and "". If the debug data is damaged, return none, and the reason in one line."""
        if self._path is None:
            return [], ""
        with self._path.open("rb") as file:
            from elftools.elf.elffile import ELFFile

            try:
                return [*read(ELFFile(file))], ""
            except (
                Exception
            ) as error:  # pylint: disable=broad-except  # damaged data makes pyelftools raise what its parts do
                reason = f"{type(error).__name__} {error}".strip()
        return [], f"pyelftools can't read the source lines of {self._path.name} ({reason}); -gdwarf-4 helps"


def source_rows(elf: "ELFFile") -> Iterator[SourceRow]:
    """Yield the rows of a file's line tables, those of each table in its order."""
    for debug, unit in units_of(elf):
        program = debug.line_program_for_CU(unit)
        names = _file_names(debug, unit)
        for state in (entry.state for entry in program.get_entries() if entry.state is not None) if program else ():
            has_line = state.line and not state.end_sequence and state.file in names  # line 0 is no line
            line = f"{names[state.file]}:{state.line}" if has_line else ""
            yield SourceRow(state.address, line, bool(state.is_stmt))


def source_files(elf: "ELFFile") -> Iterator[tuple[str, pathlib.PurePath]]:
    """Yield the names of source files, each with its path."""
    for debug, unit in units_of(elf):
        yield from _file_paths(debug, unit)


def copies_in(elf: "ELFFile") -> Iterator[Copy]:
    """Yield the ranges of all functions and of their inlined copies."""
    code = Code(elf)
    for debug, unit in units_of(elf):
        yield from _copies_of(debug, unit, code)


def _copies_of(debug: "DWARFInfo", unit: "CompileUnit", code: Code) -> Iterator[Copy]:
    """Yield the ranges of a unit's functions and of their inlined copies."""
    names, waiting = _file_names(debug, unit), [_Waiting(unit.get_top_DIE())]
    while waiting:
        entry, depth, outer, whole = waiting.pop()
        ranges = [*ranges_of(debug, unit, entry)] if entry.tag in (_FUNCTION, _INLINED) else []
        if ranges:
            whole, called = (whole, _place(entry, "call", names)) if entry.tag == _INLINED else (ranges, "")
            origin = entry_at(entry, "DW_AT_abstract_origin") or entry
            entries = (code.entries(ranges, whole) if called else []) or [first_of(entry, ranges)]
            fields = entry.offset, outer, name_of(entry), _place(origin, "decl", names), called, tuple(entries)
            yield from (Copy(depth, first, end, *fields) for first, end in ranges)
            outer = entry.offset
        waiting += [_Waiting(child, depth + 1, outer, whole) for child in entry.iter_children()]


def innermost(addresses: Iterable[int], copies: Iterable[Copy]) -> dict[int, Copy]:
    """Return the innermost copy that contains each address, by the address. Addresses in no copy are left out."""
    ordered, found = sorted(set(addresses)), dict[int, Copy]()
    for copy in sorted(copies):
        inside = slice(bisect.bisect_left(ordered, copy.first), bisect.bisect_left(ordered, copy.end))
        found.update(dict.fromkeys(ordered[inside], copy))
    return found


def line_addresses(rows: Iterable[SourceRow], copies: Collection[Copy]) -> dict[str, list[int]]:
    """Return the addresses of each line's breakpoints, in rising order.

    They are the first recommended address in each run of the line's instructions. If a copy of a function has no recommended
    address for the line, they are the first address of each run there. Inlined code also belongs to the line that calls it;
    if a run begins with inlined code, the breakpoints are where that code is entered. Rows without a line don't end a run.
    """
    stops = dict[str, set[int]]()
    for (line, _), runs in _runs([row for row in rows if row.line], copies).items():
        recommended = {address for run in runs for address in run[1:]}
        stops.setdefault(line, set()).update(recommended or {run[0] for run in runs})
    return {line: sorted(addresses) for line, addresses in stops.items()}


def _runs(rows: Sequence[SourceRow], copies: Collection[Copy]) -> dict[tuple[str, int], list[list[int]]]:
    """Return the runs of each line in each copy of a function, by the line and the number of the copy.

    A run is a list: its first address, and then its recommended addresses for a breakpoint.
    """
    copy_at, by_number = innermost((row.address for row in rows), copies), {copy.number: copy for copy in copies}
    runs, before = dict[tuple[str, int], list[list[int]]](), list[tuple[str, int]]()
    for row in rows:
        lines = _lines_at(row, copy_at.get(row.address), by_number)
        for key, entries in lines.items():
            own = runs.setdefault(key, [])
            if key not in before:
                own.append([row.address, *entries])
            if row.is_statement and len(own[-1]) < 2:
                own[-1].append(row.address)
        before = [*lines]
    return runs


def _lines_at(
    row: SourceRow, copy: Copy | None, by_number: Mapping[int, Copy]
) -> dict[tuple[str, int], tuple[int, ...]]:
    """Return the line of a row, and the lines that call the inlined copies around the row's instruction.

    A key is a line and the number of the copy that contains the line, or -1. The value has the addresses where the copy that the line
    calls is entered; it is empty for the row's own line.

    copy: the innermost copy that contains the instruction, or None; by_number: all copies by their numbers
    """
    lines: dict[tuple[str, int], tuple[int, ...]] = {(row.line, copy.number if copy else -1): ()}
    while copy and copy.called:
        lines.setdefault((copy.called, copy.outer), copy.entries)
        copy = by_number.get(copy.outer)
    return lines


def units_of(elf: "ELFFile") -> "Iterator[tuple[DWARFInfo, CompileUnit]]":
    """Yield the compilation units of a file. Add a form that pyelftools 0.29 lacks, and that clang's DWARF 5 line tables have."""
    from elftools.construct import Array, ULInt8

    if elf.has_dwarf_info():
        debug = elf.get_dwarf_info()
        for unit in debug.iter_CUs():
            unit.structs.Dwarf_dw_form.setdefault("DW_FORM_data16", Array(16, ULInt8("")))
            yield debug, unit


def _file_names(debug: "DWARFInfo", unit: "CompileUnit") -> dict[int, str]:
    """Return the names of a unit's files without folders, by number. Numbers start at 1 before DWARF 5, and at 0 since."""
    program = debug.line_program_for_CU(unit)
    if program is None:
        return {}
    names = (_name_in(entry) for entry in program["file_entry"])
    return dict(enumerate(names, 0 if program.header["version"] >= 5 else 1))


def _file_paths(debug: "DWARFInfo", unit: "CompileUnit") -> Iterator[tuple[str, pathlib.PurePath]]:
    """Yield the names of a unit's files without folders, each with its path. Folder 0 is the compilation's folder."""
    program, folder = debug.line_program_for_CU(unit), unit.get_top_DIE().attributes.get("DW_AT_comp_dir")
    if program is None:
        return
    first = pathlib.PurePath(_text(folder.value) if folder else "")
    listed = [_text(each) for each in program["include_directory"]]
    folders = listed if program.header["version"] >= 5 else [f"{first}", *listed]
    for entry in program["file_entry"]:
        own = folders[entry.dir_index] if entry.dir_index < len(folders) else ""
        yield _name_in(entry), first / own / _text(entry.name)


def _text(data: bytes) -> str:
    """Return a name in debug data as text."""
    return data.decode("utf-8", "replace")


def _name_in(entry: Any) -> str:
    """Return the name of an entry in a line table's list of files, without its folder."""
    return printable(pathlib.PurePath(_text(entry.name)).name)


def _place(entry: "DIE", kind: str, names: Mapping[int, str]) -> str:
    """Return the line of an entry's declaration (`decl`) or call (`call`), as `sum.c:12`; "" if the entry has none."""
    file, line = (entry.attributes.get(f"DW_AT_{kind}_{name}") for name in ("file", "line"))
    return f"{names.get(file.value, '')}:{line.value}" if file and line else ""
