"""Types of C in debug data: their declarations, integer ranges, and the kinds of their numbers."""

from typing import TYPE_CHECKING, NamedTuple

from ..guest.entries import entry_at, name_of

if TYPE_CHECKING:
    from elftools.dwarf.die import DIE

QUALIFIERS = {f"DW_TAG_{word}_type": word for word in ("const", "volatile", "restrict")}
QUALIFIERS["DW_TAG_atomic_type"] = "_Atomic"
_KINDS = {"DW_TAG_structure_type": "struct ", "DW_TAG_union_type": "union ", "DW_TAG_enumeration_type": "enum "}
_NUMBERS = {
    2: "u",
    5: "i",
    6: "i",
    7: "u",
    8: "u",
}  # kinds of numbers by the encoding of a base type (DW_ATE_boolean and so on)
_CHARACTERS = (6, 8)
_BIT_INT = "_BitInt"  # clang's debug data has no number of bits for it
_UNICODE = 16  # DW_ATE_UTF, of char16_t and char32_t
_POINTERS = {"DW_TAG_pointer_type": "*", "DW_TAG_reference_type": "&", "DW_TAG_rvalue_reference_type": "&&"}
# Attributes, and the number to add to get the number of elements.
_COUNTS = (("DW_AT_count", 0), ("DW_AT_upper_bound", 1))


class Integer(NamedTuple):
    """The range of an integer type, an enumeration or a pointer.

    bits: 8, 16, 32 or 64; smallest, largest: the range of its values, which is 0 to 1 for `_Bool`
    """

    bits: int
    smallest: int
    largest: int


WORD = Integer(64, -(1 << 63), (1 << 64) - 1)
"""The 64 bits of a register, by a signed or an unsigned number."""


BOOLEAN = Integer(8, 0, 1)
"""`_Bool`."""


def integer_of(bits: int, is_signed: bool) -> Integer:
    """Return the integer type of a number of bits."""
    return Integer(bits, -(1 << bits - 1), (1 << bits - 1) - 1) if is_signed else Integer(bits, 0, (1 << bits) - 1)


def integer(entry: "DIE | None") -> Integer | None:
    """Return the integer type of an entry of debug data.

    Returns None for void, for `_BitInt(N)`, and for a type that isn't an integer, an enumeration or a pointer. Raises RecursionError for a
    type that contains itself.
    """
    if entry is None:
        return None
    if entry.tag in _POINTERS:
        return WORD
    if entry.tag in (*QUALIFIERS, "DW_TAG_typedef"):
        return integer(entry_at(entry, "DW_AT_type"))
    if entry.tag == "DW_TAG_enumeration_type" and "DW_AT_type" in entry.attributes:
        return integer(entry_at(entry, "DW_AT_type"))
    size, encoding = (entry.attributes.get(f"DW_AT_{name}") for name in ("byte_size", "encoding"))
    if size is None or size.value not in (1, 2, 4, 8):
        return None
    match entry.tag, encoding and encoding.value:
        case "DW_TAG_enumeration_type", _:  # of DWARF 2, which leaves out its integer type
            return integer_of(8 * size.value, False)
        case "DW_TAG_base_type", 2:
            return BOOLEAN
        case "DW_TAG_base_type", _ if _BIT_INT in name_of(entry):
            return None
        case "DW_TAG_base_type", kind if kind == _UNICODE or kind in _NUMBERS:
            return integer_of(8 * size.value, _NUMBERS.get(kind) == "i")
    return None


def declaration(entry: "DIE | None", inner: str) -> str:
    """Return the C declaration of the name `inner` with the type of an entry, such as `const int *from` or `int x[3][4]`.

    Raises RecursionError for a type that contains itself.
    """
    if entry is None:
        return f"void {inner}"
    of = entry_at(entry, "DW_AT_type")
    match entry.tag:
        case tag if tag in _POINTERS:
            return declaration(of, f"{_POINTERS[tag]}{inner}")
        case "DW_TAG_array_type" | "DW_TAG_subroutine_type":
            behind = "".join(f"[{count or ''}]" for count in _counts(entry)) or "()"
            return declaration(of, f"({inner}){behind}" if inner.startswith("*") else f"{inner}{behind}")
        case tag if tag in QUALIFIERS:
            word = QUALIFIERS[tag]
            if of is not None and of.tag in ("DW_TAG_pointer_type", *QUALIFIERS):
                return declaration(of, f"{word} {inner}")
            return f"{word} {declaration(of, inner)}"
    return f"{_KINDS.get(entry.tag, '')}{name_of(entry)} {inner}"


def shape(entry: "DIE | None") -> tuple[str, list[int]]:
    """Return the kind of a type's numbers, and the dimensions of an array.

    A kind is `i`, `u`, `c` for char or `x` for a pointer, followed by the number of bits, such as `i32`; "" for other types.
    Raises RecursionError for a type that contains itself.
    """
    if entry is None:
        return "", []
    match entry.tag:
        case "DW_TAG_pointer_type":
            return "x64", []
        case "DW_TAG_enumeration_type":
            return f"u{8 * entry.attributes['DW_AT_byte_size'].value}", []
        case "DW_TAG_base_type":
            encoding, size = (entry.attributes[f"DW_AT_{name}"].value for name in ("encoding", "byte_size"))
            kind = "c" if encoding in _CHARACTERS and name_of(entry) == "char" else _NUMBERS.get(encoding, "")
            return (f"{kind}{8 * size}" if kind and size in (1, 2, 4, 8) else ""), []
        case "DW_TAG_array_type" if "DW_AT_GNU_vector" not in entry.attributes:
            element, counts = shape(entry_at(entry, "DW_AT_type"))
            return element, [*_counts(entry), *counts]
        case tag if tag in (*QUALIFIERS, "DW_TAG_typedef"):
            return shape(entry_at(entry, "DW_AT_type"))
    return "", []


def pointed_kind(entry: "DIE | None") -> str:
    """Return the kind of the numbers that a pointer, or each pointer in an array, points to, such as `i32`; "" if there are no such numbers.

    Raises RecursionError for a type that contains itself.
    """
    if entry is None:
        return ""
    of = entry_at(entry, "DW_AT_type")
    if entry.tag == "DW_TAG_pointer_type":
        kind, counts = shape(of)
        return "" if counts else kind
    return pointed_kind(of) if entry.tag in (*QUALIFIERS, "DW_TAG_typedef", "DW_TAG_array_type") else ""


def _counts(entry: "DIE") -> list[int]:
    """Return the dimensions of an array; 0 for a dimension that isn't constant."""
    ranges = [child.attributes for child in entry.iter_children() if child.tag == "DW_TAG_subrange_type"]
    counts = [[each[name].value + more for name, more in _COUNTS if name in each] for each in ranges]
    return [number[0] if number and isinstance(number[0], int) else 0 for number in counts]
