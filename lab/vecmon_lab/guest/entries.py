"""Entries of debug data: their names, the addresses of their code, and the entries that their attributes refer to."""

from collections.abc import Iterator, Sequence
from typing import TYPE_CHECKING

if TYPE_CHECKING:
    from elftools.dwarf.compileunit import CompileUnit
    from elftools.dwarf.die import DIE
    from elftools.dwarf.dwarfinfo import DWARFInfo

NAME_LETTERS, MAX_ORIGINS = 100, 8


def printable(name: str) -> str:
    """Return a name from an image, with `?` in place of characters that aren't printable, which could control a terminal."""
    return name if name.isprintable() else "".join(letter if letter.isprintable() else "?" for letter in name)


def name_of(entry: "DIE") -> str:
    """Return the name of a function or a variable, which its entry or the entry's declaration has; "" if neither has one."""
    for _ in range(MAX_ORIGINS):
        if "DW_AT_name" not in entry.attributes and "DW_AT_abstract_origin" in entry.attributes:
            entry = entry.get_DIE_from_attribute("DW_AT_abstract_origin")
    name = entry.attributes.get("DW_AT_name")
    return printable(str(name.value, "utf-8", "replace")[:NAME_LETTERS]) if name else ""


def ranges_of(debug: "DWARFInfo", unit: "CompileUnit", entry: "DIE") -> Iterator[tuple[int, int]]:
    """Yield the address ranges of an entry: the first address of each range, and the address after its last."""
    attributes = entry.attributes
    if "DW_AT_ranges" in attributes:
        first = unit.get_top_DIE().attributes.get("DW_AT_low_pc")
        base = first.value if first else 0
        for each in debug.range_lists().get_range_list_at_offset(attributes["DW_AT_ranges"].value, unit):
            if hasattr(each, "base_address"):
                base = each.base_address
            else:
                own = 0 if each.is_absolute else base
                yield own + each.begin_offset, own + each.end_offset
    elif "DW_AT_low_pc" in attributes and "DW_AT_high_pc" in attributes:
        low, high = attributes["DW_AT_low_pc"].value, attributes["DW_AT_high_pc"]
        yield low, high.value if high.form == "DW_FORM_addr" else low + high.value


def first_of(entry: "DIE", ranges: Sequence[tuple[int, int]]) -> int:
    """Return the address where the code of an entry with these ranges is entered (DWARF 5, section 2.18)."""
    entry_pc, first = entry.attributes.get("DW_AT_entry_pc"), ranges[0][0]
    if entry_pc is None:
        return first
    return int(entry_pc.value) if entry_pc.form.startswith("DW_FORM_addr") else first + int(entry_pc.value)


def entry_at(entry: "DIE", attribute: str) -> "DIE | None":
    """Return the entry that an attribute refers to; None if there is no such attribute."""
    return entry.get_DIE_from_attribute(attribute) if attribute in entry.attributes else None
