"""The variables in the debug data of a source: their C types, and their places for each address of code."""

import re
from collections.abc import Callable, Iterable, Iterator, Sequence
from itertools import islice
from typing import TYPE_CHECKING, Any, NamedTuple

from .c_types import declaration, pointed_kind, shape
from .compiler import C_SOURCE
from .layouts import Layout
from ..guest.entries import NAME_LETTERS, entry_at, name_of, ranges_of
from ..guest.source_lines import units_of
from .locations import CODE_END, FRAME, MAX_BYTES, Location, Operation, Sum, location

if TYPE_CHECKING:
    from elftools.dwarf.compileunit import CompileUnit
    from elftools.dwarf.die import DIE
    from elftools.dwarf.dwarfinfo import DWARFInfo
    from elftools.elf.elffile import ELFFile

MAX_VARIABLES, MAX_PARTS = 300, 32

_CALL_FRAME = 0x9C  # DW_OP_call_frame_cfa
_ELEMENT = re.compile("([iucx](8|16|32|64))?")
_VARIABLES = ("DW_TAG_formal_parameter", "DW_TAG_variable")
_FUNCTION, _BLOCKS = "DW_TAG_subprogram", ("DW_TAG_inlined_subroutine", "DW_TAG_lexical_block")


class Variable(NamedTuple):
    """A variable of the source.

    declaration: the declaration in C, such as `int32_t x[37]`
    element: the kind of the variable's number, or of the numbers in an array, such as `i32`; "" if there are none
    counts: the dimensions of an array; empty for other variables
    function: the name of the function that declares the variable, which may be inlined; "" for a global variable
    scopes: the ranges of addresses of code in which the variable is visible, each with its first address and the address after its end. A
        variable without ranges is visible everywhere.
    locations: the places of the variable. At an address of code that no location covers, the compiler has optimized the variable out.
    target: the kind of the numbers that a pointer points to, such as `i32`; "" if there are none
    """

    name: str
    declaration: str
    element: str
    counts: Sequence[int]
    function: str
    scopes: Sequence[tuple[int, int]]
    locations: Sequence[Location]
    target: str = ""


class TypedVariable(NamedTuple):
    """A variable and its type. layout: None if the debug data has no type"""

    variable: Variable
    layout: Layout | None


def variables_of(elf: "ELFFile") -> list[Variable]:
    """Return the variables of a source that a class has compiled, as `typed_variables` finds them."""
    return [each.variable for each in typed_variables(elf, lambda name: name == C_SOURCE)]


def typed_variables(elf: "ELFFile", is_own: Callable[[str], bool], has_frames: bool = False) -> list[TypedVariable]:
    """Return the variables in the debug data of an image, at most MAX_VARIABLES. If the data is damaged, return the variables before the damage.

    is_own: is called with the name of a source as the compiler got it; returns whether this source's variables are wanted
    has_frames: whether locations may have FRAME in place of a register
    """
    found = list[TypedVariable]()
    try:
        for debug, unit in units_of(elf):
            if is_own(name_of(top := unit.get_top_DIE())):
                found += islice(_Unit(debug, unit, has_frames).variables(top), MAX_VARIABLES - len(found))
    except Exception:  # pylint: disable=broad-except  # damaged data makes pyelftools raise what its parts do
        pass
    return found


def read_variables(entries: Iterable[Any]) -> list[Variable]:
    """Read variables from JSON, as the sandbox prints them. Raises ValueError and TypeError for another form."""
    found = list[Variable]()
    for name, words, element, counts, function, scopes, locations, *_ in islice(entries, MAX_VARIABLES):
        if not _ELEMENT.fullmatch(element):
            raise ValueError("a kind of numbers that there isn't")
        parts = locations[:MAX_PARTS]
        places = [Location(int(a), int(b), str(c), d % 32, f"{int(e, 16):x}") for a, b, c, d, e in parts]
        ranges = [(int(first), int(end)) for first, end in scopes[:MAX_PARTS]]
        name, words, function = (str(each)[:NAME_LETTERS] for each in (name, words, function))
        sizes = [int(each) for each in counts[:MAX_PARTS]]
        found.append(Variable(name, words, element, sizes, function, ranges, places))
    return found


class _Unit:
    """A unit of the debug data: one source."""

    def __init__(self, debug: "DWARFInfo", unit: "CompileUnit", has_frames: bool) -> None:
        from elftools.dwarf.dwarf_expr import DWARFExprParser

        self._debug, self._unit, self._has_frames = debug, unit, has_frames
        self._parse = DWARFExprParser(unit.structs).parse_expr
        first = unit.get_top_DIE().attributes.get("DW_AT_low_pc")
        self._base = first.value if first else 0

    def variables(
        self, entry: "DIE", function: str = "", scopes: Sequence[Sum] = (), frame: Sum | None = None
    ) -> Iterator[TypedVariable]:
        """Yield the variables below an entry.

        function, scopes: the function that contains the entry, and the ranges of addresses in which its variables are visible
        frame: the base of the function's frame; None if it is unknown
        """
        for child in entry.iter_children():
            if child.tag in _VARIABLES:
                yield _variable(child, function, scopes, self._locations(child, frame))
            elif child.tag in (_FUNCTION, *_BLOCKS):
                own = list(islice(ranges_of(self._debug, self._unit, child), MAX_PARTS))
                if own:  # otherwise the entry is the abstract origin of inlined copies
                    name = name_of(child) or function
                    base = self._frame(child) if child.tag == _FUNCTION else frame
                    yield from self.variables(child, name, own, base)
                    yield from (_variable(each, name, own, ()) for each in _dropped(child))

    def _frame(self, entry: "DIE") -> Sum | None:
        """Return the base of a function's frame; None if the entry has none that is a scalar register."""
        attribute = entry.attributes.get("DW_AT_frame_base")
        if attribute and self._has_frames and [*attribute.value] == [_CALL_FRAME]:
            return FRAME, 0
        place = self._location(0, CODE_END, attribute.value, None) if attribute else None
        return (place.register, 0) if place and place.kind == "register" else None

    def _locations(self, entry: "DIE", frame: Sum | None) -> Sequence[Location]:
        """Return the places of a variable."""
        attribute, constant = (entry.attributes.get(name) for name in ("DW_AT_location", "DW_AT_const_value"))
        if constant and isinstance(constant.value, int):
            return [Location(0, CODE_END, "value", 0, f"{constant.value % (1 << 64):x}")]
        if attribute is None:
            return []
        if attribute.form == "DW_FORM_exprloc":
            return [self._location(0, CODE_END, attribute.value, frame)]
        base, found = self._base, list[Location]()
        for each in self._debug.location_lists().get_location_list_at_offset(attribute.value, entry)[:MAX_PARTS]:
            if hasattr(each, "base_address"):
                base = each.base_address
            else:
                # Entries of DWARF 5 may have absolute addresses.
                own = 0 if getattr(each, "is_absolute", False) else base
                found.append(self._location(own + each.begin_offset, own + each.end_offset, each.loc_expr, frame))
        return found

    def _operations(self, expression: Sequence[int]) -> list[Operation]:
        """Return the operations of an expression. An index into a table of addresses (DWARF 5) is replaced by the address."""
        found = list[Operation]()
        for code, name, arguments, place in self._parse(expression):
            if name == "DW_OP_addrx":
                name, arguments = "DW_OP_addr", [self._debug.get_addr(self._unit, arguments[0])]
            found.append((code, name, arguments, place))
        return found

    def _location(self, first: int, end: int, expression: Sequence[int], frame: Sum | None) -> Location:
        """Return the location of an expression; its kind is `untold` if the expression is long, damaged, or has unknown operations."""
        try:
            if len(expression) <= MAX_BYTES:
                return location(first, end, self._operations(expression), frame)
        except Exception:  # pylint: disable=broad-except  # as above
            pass
        return Location(first, end, "untold")


def _variable(entry: "DIE", function: str, scopes: Sequence[Sum], locations: Sequence[Location]) -> TypedVariable:
    """Return the variable of an entry."""
    name, kind = name_of(entry), entry_at(entry_at(entry, "DW_AT_abstract_origin") or entry, "DW_AT_type")
    try:
        words, (element, counts) = " ".join(declaration(kind, name).split()), shape(kind)
        target = pointed_kind(kind)
    except Exception:  # damaged types, or types that contain themselves
        words, element, counts, target = name, "", [], ""
    variable = Variable(name, words[:NAME_LETTERS], element, counts, function, scopes, locations, target)
    return TypedVariable(variable, Layout(kind) if kind else None)


def _dropped(entry: "DIE") -> list["DIE"]:
    """Return the variables of an inlined function that its copy doesn't list, since they were optimized out."""
    origin = entry_at(entry, "DW_AT_abstract_origin")
    saved = {source.offset for each in _all_within(entry) if (source := entry_at(each, "DW_AT_abstract_origin"))}
    whole = _all_within(origin) if origin else ()
    return [each for each in whole if each.tag in _VARIABLES and each.offset not in saved]


def _all_within(entry: "DIE") -> Iterator["DIE"]:
    """Return all entries below one, at any depth."""
    for child in entry.iter_children():
        yield child
        yield from _all_within(child)
