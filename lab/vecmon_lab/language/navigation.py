"""The definition, the references and the renaming of names, and the outline of a source."""

import re
from collections.abc import Sequence
from typing import TypedDict

from .. import LabError
from ..assembler.names import SOURCE_NAMES
from ..assembler.operands import REGISTER_NAMES
from ..assembler.source import DIRECTIVES
from .analysis import Analysis
from .names import Occurrence
from .positions import Position, Range, TextEdit, index_at, range_of

_NAME = re.compile(r"[A-Za-z_.$][A-Za-z0-9_.$]*")
_FUNCTION, _VARIABLE, _CONSTANT, _KEY, _METHOD = 12, 13, 14, 20, 6  # kinds of symbols
_WRITE, _READ = 3, 2  # kinds of highlights


class Symbol(TypedDict):
    """An entry of an outline."""

    name: str
    kind: int
    detail: str
    range: Range
    selectionRange: Range


class Highlight(TypedDict):
    """A place that an editor highlights, since it has the name at the caret."""

    range: Range
    kind: int


def occurrence_at(analysis: Analysis, where: Position) -> Occurrence | None:
    """Return the name at a position, or the one that ends there; None if the source defines no such name."""
    number = where["line"] + 1
    if not 0 < number <= len(analysis.lines):
        return None
    column = index_at(analysis.lines[number - 1], where["character"]) + 1
    here = [it for it in analysis.names if it.line == number and it.column <= column <= it.column + it.length]
    return here[-1] if here else None


def definition(analysis: Analysis, where: Position) -> list[Range]:
    """Return the ranges where the name at a position is defined. A constant may have several definitions."""
    return [_range(analysis, it) for it in _same(analysis, where) if it.defines]


def references(analysis: Analysis, where: Position, with_definition: bool) -> list[Range]:
    """Return the ranges where the name at a position is used. with_definition: whether to include its definitions"""
    return [_range(analysis, it) for it in _same(analysis, where) if with_definition or not it.defines]


def highlights(analysis: Analysis, where: Position) -> list[Highlight]:
    """Return the places where the name at a position is defined and used, for the editor to highlight."""
    return [{"range": _range(analysis, it), "kind": _WRITE if it.defines else _READ} for it in _same(analysis, where)]


def renamed(analysis: Analysis, where: Position, name: str) -> list[TextEdit]:
    """Return the changes that replace the name at a position by `name`. Raises LabError if the name can't be replaced by this one."""
    _check_new_name(analysis, name)
    return [{"range": _range(analysis, it), "newText": name} for it in _same(analysis, _renameable(analysis, where))]


def rename_range(analysis: Analysis, where: Position) -> Range:
    """Return the range of the name at a position. Raises LabError if there is no name that can be renamed."""
    found = occurrence_at(analysis, _renameable(analysis, where))
    assert found is not None
    return _range(analysis, found)


def symbols(analysis: Analysis) -> list[Symbol]:
    """Return the labels, constants and macros of a source."""
    found = list[Symbol]()
    for each in analysis.names:
        if each.defines and each.defines != "numeric label":
            span = _range(analysis, each)
            kind, detail = _kind(analysis, each)
            found.append({"name": each.name, "kind": kind, "detail": detail, "range": span, "selectionRange": span})
    return found


def _kind(analysis: Analysis, symbol: Occurrence) -> tuple[int, str]:
    """Return the kind of a symbol in the protocol, and a detail for the outline: the symbol's address, a word for its kind, or ""."""
    if symbol.defines == "macro":
        return _METHOD, "macro"
    address = analysis.program.labels.get(symbol.name)
    if symbol.defines == "constant" or address is None:
        return _CONSTANT, "constant" if symbol.defines == "constant" else ""
    if address not in analysis.words:
        return _VARIABLE, f"{address:#x}"
    is_function = symbol.name in analysis.program.exported or address in (analysis.program.entry, *analysis.called)
    return _FUNCTION if is_function else _KEY, f"{address:#x}"


def _same(analysis: Analysis, where: Position) -> Sequence[Occurrence]:
    """Return all places with the name at a position; none if the source defines no such name."""
    found = occurrence_at(analysis, where)
    return [it for it in analysis.names if found and it.name == found.name]


def _renameable(analysis: Analysis, where: Position) -> Position:
    """Return the position unchanged if the name at it can be renamed; otherwise raise LabError."""
    found = occurrence_at(analysis, where)
    if found is None:
        raise LabError("there is no label, constant or macro here")
    if "\n" in found.name:
        raise LabError("a numeric label has no name: which label 1b or 1f means depends on its place")
    return where


def _check_new_name(analysis: Analysis, name: str) -> None:
    """Raise LabError if a label can't have this name, or if the name is defined already."""
    if not _NAME.fullmatch(name):
        raise LabError(f"{name} is no name: those begin with a letter or with one of . _ $, and have no spaces")
    if name in REGISTER_NAMES:
        raise LabError(f"{name} is a register")
    if name.lower() in SOURCE_NAMES or name.lower() in DIRECTIVES:
        raise LabError(f"{name} is an instruction or a directive")
    if any(each.name == name for each in analysis.names):
        raise LabError(f"{name} is defined already")


def _range(analysis: Analysis, occurrence: Occurrence) -> Range:
    return range_of(analysis.lines, occurrence.line, occurrence.column, occurrence.length)
