"""The C types of functions' parameters and results, from the debug data of an image (DWARF 4 and 5, section 3.3)."""

import functools
import io
from collections.abc import Iterator, Sequence
from typing import TYPE_CHECKING, NamedTuple

from ..guest.entries import NAME_LETTERS, entry_at, first_of, name_of, ranges_of
from .c_types import Integer, declaration, integer

if TYPE_CHECKING:
    from elftools.dwarf.compileunit import CompileUnit
    from elftools.dwarf.die import DIE
    from elftools.dwarf.dwarfinfo import DWARFInfo

_ASSEMBLERS = (0x31, 0x8001)  # DW_LANG_Assembly and DW_LANG_Mips_Assembler, whose functions have no types
_OTHER_CONVENTION = 3  # DW_CC_nocall
_SCOPES = {f"DW_TAG_{kind}" for kind in ("namespace", "module", "structure_type", "class_type")}
_LOCATION = "DW_AT_location"
_FUNCTION, _PARAMETER, _MORE = "DW_TAG_subprogram", "DW_TAG_formal_parameter", "DW_TAG_unspecified_parameters"


class Declared(NamedTuple):
    """A parameter or a result of a function.

    declaration: the declaration in C, such as `uint32_t key`; for a result, only the type
    integer: the type; None if it isn't an integer, an enumeration or a pointer
    """

    declaration: str
    integer: Integer | None


class Signature(NamedTuple):
    """The types of a function.

    result: None for void
    is_variadic: whether the function takes a variable number of arguments, as printf does
    is_callable: whether the function takes its arguments by the ABI. A compiler may change the calling convention of a static function.
        Then the function has DW_CC_nocall, or one of its parameters has no location.
    """

    result: Declared | None
    parameters: Sequence[Declared]
    is_variadic: bool
    is_callable: bool


class Signatures:
    """The signatures of an image's functions, which are read on demand."""

    def __init__(self, image: bytes) -> None:
        """image: the bytes of an ELF file; b"" if there is none"""
        self._image = image
        self._found = dict[int, Signature | None]()

    def at(self, address: int) -> Signature | None:
        """Return the signature of the function at an address; None if the function is in assembler, or has no usable debug data."""
        if address not in self._found:
            self._found[address] = self._read(address)
        return self._found[address]

    def _read(self, address: int) -> Signature | None:
        try:
            debug = self._debug
            for unit in debug.iter_CUs() if debug else ():
                if entry := _function_at(debug, unit, address):
                    return _signature(entry)
        except Exception:  # pylint: disable=broad-except  # damaged data makes pyelftools raise what its parts do
            pass
        return None

    @functools.cached_property
    def _debug(self) -> "DWARFInfo | None":
        """Return the debug data of the image; None if there is none."""
        if not self._image:
            return None
        from elftools.elf.elffile import ELFFile  # not needed for a source of the lab's assembler

        elf = ELFFile(io.BytesIO(self._image))
        return elf.get_dwarf_info() if elf.has_dwarf_info() else None


def _function_at(debug: "DWARFInfo", unit: "CompileUnit", address: int) -> "DIE | None":
    """Return the entry of the function that starts at an address; None if a unit has none there."""
    top = unit.get_top_DIE()
    language, ranges = top.attributes.get("DW_AT_language"), [*ranges_of(debug, unit, top)]
    if language and language.value in _ASSEMBLERS:
        return None
    if ranges and not any(first <= address < end for first, end in ranges):
        return None
    for entry in _functions(top):
        own = [*ranges_of(debug, unit, entry)]
        if own and first_of(entry, own) == address:
            return entry
    return None


def _functions(scope: "DIE") -> Iterator["DIE"]:
    """Return the entries of functions in a unit, a namespace or a class."""
    for child in scope.iter_children():
        if child.tag == _FUNCTION:
            yield child
        elif child.tag in _SCOPES:
            yield from _functions(child)


def _signature(entry: "DIE") -> Signature:
    """Return the signature of a function's entry. Since the entry of a copy may lack parameters, the parameters of its origin are used."""
    origin = entry_at(entry, "DW_AT_abstract_origin") or entry
    declared = entry_at(origin, "DW_AT_specification") or origin
    result = entry_at(declared, "DW_AT_type")
    children = [*origin.iter_children()]
    parameters = [_declared(_type_of(child), name_of(child)) for child in children if child.tag == _PARAMETER]
    convention = entry.attributes.get("DW_AT_calling_convention")
    is_static = "DW_AT_external" not in origin.attributes and "DW_AT_external" not in declared.attributes
    located = [child for child in entry.iter_children() if child.tag == _PARAMETER and _LOCATION in child.attributes]
    return Signature(
        _declared(result, "") if result else None,
        parameters,
        any(child.tag == _MORE for child in children),
        (convention is None or convention.value != _OTHER_CONVENTION)
        and not (is_static and len(located) < len(parameters)),
    )


def _type_of(entry: "DIE") -> "DIE | None":
    """Return the type of a parameter's entry."""
    return entry_at(entry_at(entry, "DW_AT_abstract_origin") or entry, "DW_AT_type")


def _declared(kind: "DIE | None", name: str) -> Declared:
    """Return a parameter or a result. kind: the entry of its type; None for void; name: the parameter's name; "" for a result"""
    return Declared(" ".join(declaration(kind, name).split())[:NAME_LETTERS], integer(kind))
