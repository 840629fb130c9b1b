"""All files that repeat the records of instructions, with their texts by the records, for `tools/instructions`."""

from collections.abc import Iterator, Sequence
from dataclasses import dataclass
from pathlib import Path

from tools.records.instruction_accesses import access_parts
from tools.records.instruction_commands import command_parts
from tools.records.instruction_crates import crate_parts
from tools.records.instruction_figures import output_parts
from tools.records.instruction_lists import ListError, list_parts
from tools.records.instruction_parts import Part, PartError, first_difference, replaced
from tools.records.instruction_records import Record, RecordError, read_records
from tools.records.instruction_tables import table_texts
from tools.records.instruction_tests import STEPPED, kernel_parts, listed_parts, stepped_text
from tools.records.instruction_widths import width_parts

FILE_ERRORS = (RecordError, PartError, ListError)
"""Why the files can't be written: each has a text of one line with the file."""


@dataclass(frozen=True)
class Change:
    """A file that differs from the records, and its text by the records."""

    path: Path
    has: str
    text: str

    def write(self) -> None:
        """Write the file."""
        self.path.write_text(self.text, "utf-8", errors="surrogateescape")

    def difference(self) -> str:
        """The file, the line and the texts of the first difference, as a line."""
        return first_difference(self.path, self.has, self.text)


def read(path: Path) -> str:
    """The text of a file; bytes that aren't UTF-8, as printed ones of a test, stay as they are."""
    return path.read_text("utf-8", errors="surrogateescape")


def parts_by_file(records: Sequence[Record]) -> dict[str, list[Part]]:
    """The generated parts of files, by file."""
    found = dict[str, list[Part]]()
    writers = (
        *(crate_parts, width_parts, access_parts, list_parts, listed_parts, kernel_parts, command_parts, output_parts),
    )
    for part in (part for writer in writers for part in writer(records)):
        found.setdefault(part.path, []).append(part)
    return found


def _texts(records: Sequence[Record]) -> Iterator[tuple[Path, str]]:
    """The files with their texts by the records. Raises `FILE_ERRORS`."""
    for name, parts in parts_by_file(records).items():
        yield Path(name), replaced(read(Path(name)), parts)
    yield Path(STEPPED), stepped_text(records)
    yield from table_texts(records)


def changes() -> list[Change]:
    """The files that differ from the records. Raises `FILE_ERRORS`."""
    found = list[Change]()
    for path, text in _texts(read_records()):
        has = read(path) if path.is_file() else ""
        if has != text:
            found.append(Change(path, has, text))
    return found


def part_lines() -> list[str]:
    """A line for each file: the numbers of the lines that are generated. Raises `FILE_ERRORS`."""
    records = read_records()
    lines = list[str]()
    for name, parts in parts_by_file(records).items():
        text = read(Path(name))
        places = sorted((it.start, it.end) for it in (part.place_in(text) for part in parts))
        numbers = [(text.count("\n", 0, start) + 1, text.count("\n", 0, end - 1) + 1) for start, end in places]
        lines.append(
            f"{name}: {', '.join(f'{first}-{last}' if first < last else f'{first}' for first, last in numbers)}"
        )
    return [*lines, *(f"{path}: all" for path in (Path(STEPPED), *(path for path, _ in table_texts(records))))]
