"""Types of C in debug data, for a debugger: fields of structures, elements of arrays and vectors, and targets of pointers."""

import math
from collections.abc import Callable, Iterator, Sequence
from dataclasses import dataclass
from functools import cached_property
from typing import TYPE_CHECKING, NamedTuple, TypeVar

from ..guest.entries import entry_at, name_of
from .c_types import QUALIFIERS, declaration, pointed_kind, shape
from .locations import constant

if TYPE_CHECKING:
    from elftools.dwarf.die import DIE

MAX_TYPEDEFS, MAX_FIELDS, MAX_BYTES = 32, 256, 1 << 24
_STRUCTURES = ("DW_TAG_structure_type", "DW_TAG_union_type", "DW_TAG_class_type")
_POINTERS = ("DW_TAG_pointer_type", "DW_TAG_reference_type", "DW_TAG_rvalue_reference_type")
_BOOLEAN = 2  # DW_ATE_boolean

Read = TypeVar("Read")


class Field(NamedTuple):
    """A field of a structure or union.

    offset: in bytes, from the start of the structure
    bits: for a bit field, the number of its first bit, counted from the start of the structure, and its width in bits; None for other fields
    """

    name: str
    layout: "Layout"
    offset: int
    bits: tuple[int, int] | None = None


@dataclass(frozen=True)
class Layout:
    """A type of C. Its parts are read on demand, since a structure may have a pointer to its own type."""

    entry: "DIE"

    def declaration(self, name: str = "") -> str:
        """Return the declaration of a name with this type in C, such as `struct pair *x`. If the name is "", return only the type."""
        return self._read(lambda: " ".join(declaration(self.entry, name).split()), name)

    @cached_property
    def kind(self) -> str:
        """The kind of the type's numbers, such as `i32`; "" if it has none."""
        return self._shape[0]

    @cached_property
    def counts(self) -> Sequence[int]:
        """The dimensions of an array, or the number of a vector's elements."""
        return self._shape[1]

    @cached_property
    def size(self) -> int:
        """The number of bytes; 0 if it isn't known."""
        size = self._read(lambda: _size(_plain(self.entry)), 0)
        return size if size <= MAX_BYTES else 0

    @cached_property
    def is_vector(self) -> bool:
        """Whether the type is a vector type, such as `vint32m1_t`."""
        return self._read(lambda: _is_vector(_plain(self.entry)), False)

    @cached_property
    def is_mask(self) -> bool:
        """Whether the type is a mask type, such as `vbool8_t`: a vector of bits."""

        def is_boolean() -> bool:
            encoding = _plain(_inside(_plain(self.entry))).attributes.get("DW_AT_encoding")
            return encoding is not None and encoding.value == _BOOLEAN

        return self.is_vector and self._read(is_boolean, False)

    @cached_property
    def fields(self) -> Sequence[Field]:
        """The fields of a structure or union, including those of unnamed structures in it; none for other types."""
        return self._read(lambda: [*_fields(_plain(self.entry), 0)][:MAX_FIELDS], [])

    @cached_property
    def element(self) -> "Layout | None":
        """The type of an array's elements, after all of its dimensions; for other types, the type itself.

        None if the debug data is damaged.
        """

        def innermost() -> "Layout | None":
            entry = _plain(self.entry)
            while entry.tag == "DW_TAG_array_type" and not _is_vector(entry):
                entry = _plain(_inside(entry))
            return Layout(entry)

        return self._read(innermost, None)

    @cached_property
    def pointee(self) -> "Layout | None":
        """The type that a pointer points to; None for `void` and other types."""

        def pointed() -> "Layout | None":
            entry = _plain(self.entry)
            of = entry_at(entry, "DW_AT_type") if entry.tag in _POINTERS else None
            return Layout(of) if of else None

        return self._read(pointed, None)

    @cached_property
    def pointed_kind(self) -> str:
        """The kind of the numbers that a pointer points to, such as `i32`; "" if there is none."""
        return self._read(lambda: pointed_kind(self.entry), "")

    @cached_property
    def _shape(self) -> tuple[str, Sequence[int]]:
        def read() -> tuple[str, Sequence[int]]:
            entry = _plain(self.entry)
            return (shape(_inside(entry))[0], _vector_counts(entry)) if _is_vector(entry) else shape(self.entry)

        nothing: tuple[str, Sequence[int]] = ("", [])
        return self._read(read, nothing)

    def _read(self, read: Callable[[], Read], default: Read) -> Read:
        """Return the result of `read`; the default if the debug data is damaged."""
        try:
            return read()
        except Exception:  # pylint: disable=broad-except  # damaged data makes pyelftools raise what its parts do
            return default


def _plain(entry: "DIE") -> "DIE":
    """Return a type without qualifiers and typedefs. Raises ValueError for `void`, and for a type that contains itself."""
    for _ in range(MAX_TYPEDEFS):
        if entry.tag not in (*QUALIFIERS, "DW_TAG_typedef"):
            return entry
        entry = _inside(entry)
    raise ValueError("a type is its own type")


def _inside(entry: "DIE") -> "DIE":
    """Return the type to which the attribute DW_AT_type of another type refers. Raises ValueError if there is no such attribute."""
    inside = entry_at(entry, "DW_AT_type")
    if inside is None:
        raise ValueError("a type of nothing")
    return inside


def _size(entry: "DIE") -> int:
    """Return the number of bytes of a type without qualifiers and typedefs."""
    if entry.tag == "DW_TAG_array_type":
        counts = _vector_counts(entry) if _is_vector(entry) else shape(entry)[1]
        element = Layout(entry).element if not _is_vector(entry) else Layout(_inside(entry))
        return math.prod(counts) * element.size if element else 0
    size = entry.attributes.get("DW_AT_byte_size")
    return int(size.value) if size else 8 if entry.tag in _POINTERS else 0


def _is_vector(entry: "DIE") -> bool:
    return entry.tag == "DW_TAG_array_type" and "DW_AT_GNU_vector" in entry.attributes


def _vector_counts(entry: "DIE") -> Sequence[int]:
    """Return the number of elements of a vector type, which debug data may calculate from vlenb."""
    (bounds,) = (child.attributes for child in entry.iter_children() if child.tag == "DW_TAG_subrange_type")
    if "DW_AT_count" in bounds:
        return [int(bounds["DW_AT_count"].value)]
    bound = bounds["DW_AT_upper_bound"].value
    return [1 + (bound if isinstance(bound, int) else constant(entry.cu.structs, bound))]


def _fields(entry: "DIE", start: int, depth: int = 0) -> Iterator[Field]:
    """Yield the fields of a structure.

    start: the structure's offset in bytes from the start of the outermost structure; depth: the number of structures around it
    """
    if entry.tag not in _STRUCTURES or depth > MAX_TYPEDEFS:
        return
    for child in entry.iter_children():
        if child.tag != "DW_TAG_member":
            continue
        place, layout = child.attributes.get("DW_AT_data_member_location"), Layout(_inside(child))
        offset = start + (int(place.value) if place else 0)
        bits, first = (child.attributes.get(f"DW_AT_{name}") for name in ("bit_size", "data_bit_offset"))
        if not name_of(child):
            yield from _fields(_plain(layout.entry), offset, depth + 1)
        elif bits and first:
            yield Field(name_of(child), layout, start, (8 * start + int(first.value), int(bits.value)))
        # Counted from the highest bit, as before DWARF 4.
        elif bits and (first := child.attributes.get("DW_AT_bit_offset")):
            size = child.attributes.get("DW_AT_byte_size")
            width = 8 * (int(size.value) if size else layout.size)
            at = 8 * offset + width - int(first.value) - int(bits.value)
            yield Field(name_of(child), layout, offset, (at, int(bits.value)))
        else:
            yield Field(name_of(child), layout, offset)
