"""The table of vector instructions in docs/COMMANDS.md, for `tools/instructions`."""

import re
from collections.abc import Iterator, Mapping, Sequence

from tools.records.instruction_parts import Between, Part
from tools.records.instruction_records import ACCESSES, Record
from vecmon_lab.meanings.extensions import extensions

PAGE = "docs/COMMANDS.md"
LAST_ACCESS = "| `vl1r` to `vl8r`, `vs1r` to `vs8r` | 7.9 |"
"""The last row of loads and stores, whose rows are written by hand: they have names with numbers."""
ROWS = {
    "11.1": "{11.1}",
    "11.2": "{11.2}, also with a wide first source",
    "11.3": "{11.3}, of a half, a quarter and an eighth",
    "11.4": "{11.4}",
    "11.5, 11.6": "{11.5}; {11.6}",
    "11.7": "{11.7}",
    "11.8": "{11.8}",
    "11.9": "{11.9}",
    "11.10, 11.11": "{11.10}; {11.11}",
    "11.12": "{11.12}",
    "11.13": "{11.13}",
    "11.14": "{11.14}",
    "11.15, 11.16": "{11.15}; {11.16}",
    "12.1, 12.2": "{12.1}; {12.2}",
    "12.3, 12.4, 12.5": "{12.3}; {12.4}; {12.5}",
    "14.1": "{14.1}",
    "14.2": "{14.2}",
    "15.1": "{15.1}",
    "15.2 to 15.6": "{15.2 15.3}; {15.4 15.5 15.6}",
    "15.8, 15.9": "{15.8 15.9}",
    "16.1": "{16.1}",
    "16.3": "{16.3.1 16.3.2 16.3.3 16.3.5}",
    "16.4, 16.5": "{16.4}; {16.5}",
    "16.6": "{16.6}",
}
"""The text of a row by the sections of the manual in its second column; `{11.1}` is the names of a section."""
PLACE = re.compile(r"\{(.*?)\}")


def command_parts(records: Sequence[Record]) -> Iterator[Part]:
    """The rows of the table after loads and stores; a section that no row has gets its own one at the end."""
    names = dict[str, list[str]]()
    for record in records:
        if record.shapes and record.family not in ACCESSES:
            found = names.setdefault(section_of(record), [])
            found += [name for name in shown_names(record) if name not in found]
    known = {section for text in ROWS.values() for place in PLACE.findall(text) for section in place.split()}
    rows = ROWS | {section: f"{{{section}}}" for section in names if section not in known}
    lines = [f"| {PLACE.sub(lambda it: _listed(names, it[1]), text)} | {manual} |" for manual, text in rows.items()]
    yield Between(PAGE, [LAST_ACCESS], "", lines)


def section_of(record: Record) -> str:
    """The section of a record, with the manual if that isn't the V extension's."""
    section, manual = record.cells["section"], extensions()[record.cells["extension"]].manual
    return f"{section} of {manual}" if manual else section


def _listed(names: Mapping[str, Sequence[str]], place: str) -> str:
    """The names of one section or of several, as code."""
    sections = [place] if place in names else place.split()
    return f"`{' '.join(name for section in sections for name in names.get(section, []))}`"


def shown_names(record: Record) -> list[str]:
    """The names of a record up to the dot of its forms."""
    if "mnemonics" in record.cells:
        return [it.name.partition(".")[0] for it in record.mnemonics]
    return [it.name for it in record.mnemonics] if "." in record.base else [record.base]
