"""C variables of a frame, from debug data: where they are, and their values."""

import functools
from collections.abc import Callable, Iterator, Sequence
from dataclasses import dataclass, replace

from .. import LabError
from ..assembler.commands import explain_refusal
from ..compilers.locations import FRAME, Location
from ..compilers.layouts import Field, Layout
from ..compilers.variables import TypedVariable
from ..guest.guest import pokes
from ..instructions.accesses import REGISTER_BYTES
from ..machine.answers import Memory, Refused, elements_in
from .instants import Frame, Instant
from .values import read_number, typed_text

_SHOWN, _LETTERS = 16, 80  # the most elements in the text of an array, and the most letters of a string
_DEPTH = 3  # the most arrays and structures inside each other in a text
_ADDRESSES = 1 << 64

OPTIMIZED_OUT = "optimized out"
UNSUPPORTED = "unknown: the debug data's location isn't supported"
CHANGED = "unknown: a called function may have changed it"
UNREADABLE = "unreadable memory"


@dataclass(frozen=True)
class CVariable:
    """A variable of C with its bytes. Fields of structures, elements of arrays and targets of pointers are variables, too.

    name: the name that the client shows, such as `x`, or `[3]` for an element
    type: the type in C, or the declaration with the type; "" if it is unknown
    expression: an expression in C that has the variable's value; "" if there is none
    kind: the kind and the number of bits of the variable's number, or of the numbers in an array, such as `i32` (see `typed_text`); "" if
        there are no numbers
    counts: the dimensions of an array; empty for other variables
    data: the bytes of the variable; if they are unknown, a text with the reason
    address: the address of the variable; None if it isn't in memory
    put: replaces the bytes of the variable by the bytes in the argument; None if the variable can't be changed
    target: the kind of the numbers that a pointer points to, in the form of `kind`; "" if the variable doesn't point to numbers
    layout: the variable's type in the debug data; None if the debug data has none
    at: reads the target of a pointer from memory, and returns it. The arguments are the target without its bytes, its address and its number
        of bytes. None if the variable can't be a pointer.
    """

    name: str
    type: str
    expression: str
    kind: str
    counts: Sequence[int]
    data: bytes | str
    address: int | None = None
    put: Callable[[bytes], None] | None = None
    target: str = ""
    layout: Layout | None = None
    at: "Callable[[CVariable, int, int], CVariable] | None" = None

    @property
    def is_known(self) -> bool:
        """Whether the variable's bytes are known, and are those of a number, a pointer, an array or a structure."""
        return not isinstance(self.data, str) and bool(self.kind or self.fields or self.counts and self.layout)

    @property
    def count(self) -> int:
        """The number of an array's elements; 0 for other variables."""
        return self.counts[0] if self.counts and self.is_known else 0

    @property
    def can_change(self) -> bool:
        """Whether the variable can be changed. Arrays and structures can't; only the numbers in them can."""
        return self.put is not None and self.is_known and bool(self.kind) and not self.counts

    @property
    def pointer(self) -> int | None:
        """The address that a pointer contains; None if the variable isn't a pointer, or if its value is unknown."""
        return self.number() if self.is_known and not self.counts and self.kind[:1] == "x" else None

    @property
    def place(self) -> tuple[int, int] | None:
        """The variable's address and number of bytes; None if it isn't in memory, or if its value is unknown."""
        return (self.address, len(self.data)) if self.address is not None and self.is_known else None

    @property
    def fields(self) -> Sequence[Field]:
        """The fields of a structure; empty for other variables, such as an array of structures, and if the bytes are unknown."""
        return self.layout.fields if self.layout and not self.counts and not isinstance(self.data, str) else ()

    def number(self) -> int:
        """Return the variable's value as an unsigned number. Raises LabError if it isn't a number, or if the value is unknown."""
        if self.data == UNREADABLE and self.address is not None:
            raise LabError(f"memory at {self.address:#x} can't be read")
        if isinstance(self.data, str):
            raise LabError(f"{self.name} is {self.data}")
        if not self.kind or self.counts:
            raise LabError(f"{self.name} isn't a number")
        return int.from_bytes(self.data, "little")

    def value(self) -> int:
        """Return the variable's value, signed if its type is signed. Raises LabError if it isn't a number, or if the value is unknown."""
        number, bits = self.number(), int(self.kind[1:])
        return number - (1 << bits) if self.kind[0] in "ic" and number >> bits - 1 else number

    def text(self, is_hex: bool, depth: int = 0) -> str:
        """Return the variable's value as text, with arrays and structures in gdb's form. If the value is unknown, return the reason.

        is_hex: whether numbers are written in hexadecimal
        depth: the number of arrays and structures in whose text this text is contained
        """
        if isinstance(self.data, str):
            return self.data
        if not self.is_known:
            return f"at {self.address:#x}" if self.address is not None else self.data.hex(" ")
        if self.kind == "c8" and len(self.counts) == 1:
            return _string(self.data)
        if self.kind and not self.counts:
            return typed_text(self.kind, self.number(), is_hex)
        if depth == _DEPTH:
            return "{…}"
        if self.counts:
            parts = [each.text(is_hex, depth + 1) for each in self.elements(0, _SHOWN)]
        else:
            first = self.fields[:_SHOWN]
            parts = [f"{each.name} = {self.field(each.name).text(is_hex, depth + 1)}" for each in first]
        return "{" + ", ".join(parts) + ", …" * (max(self.count, len(self.fields)) > len(parts)) + "}"

    def elements(self, start: int, count: int) -> "list[CVariable]":
        """Return `count` elements of an array, from the index `start` on; if `count` is 0, all elements from there on."""
        stop = min(start + count if count else self.count, self.count)
        return [self.element(index) for index in range(start, stop)]

    def element(self, index: int) -> "CVariable":
        """Return element `index` of an array, or of the memory that a pointer points to. Raises LabError if there is none."""
        if self.pointer is not None and self.at:
            return self._pointed(index, self.pointer, self.at)
        if isinstance(self.data, str):
            raise LabError(f"{self.name} is {self.data}")
        if not 0 <= index < self.count:
            raise LabError(f"{self.name} has no element {index}")
        size = len(self.data) // self.count
        return replace(
            self._part(index * size, size),
            name=f"[{index}]",
            type="",
            expression=f"{self.expression}[{index}]",
            counts=self.counts[1:],
            layout=self.layout if self.counts[1:] or not self.layout else self.layout.element,
        )

    def field(self, name: str) -> "CVariable":
        """Return the field called `name`. Raises LabError if there is none."""
        if isinstance(self.data, str):
            raise LabError(f"{self.name} is {self.data}")
        found = next((each for each in self.fields if each.name == name), None)
        if found is None:
            raise LabError(f"{self.expression} has no field {name}")
        layout = found.layout
        part = replace(
            self._part(found.offset, layout.size),
            name=name,
            type=layout.declaration(name),
            expression=f"{self._operand}.{name}",
            kind=layout.kind,
            counts=layout.counts,
            target=layout.pointed_kind,
            layout=layout,
        )
        return _bit_field(part, self.data, *found.bits) if found.bits else part

    @property
    def has_pointee(self) -> bool:
        """Whether the variable is a pointer to a value of a known type, and not a null pointer."""
        return bool(self.pointer and self.layout and self.layout.pointee and self.layout.pointee.size)

    def pointee(self) -> "CVariable | None":
        """Return the value that a pointer points to; None if `has_pointee` is false."""
        if not self.has_pointee:
            return None
        return replace(self.element(0), name=f"*{self.name}", expression=f"*{self._operand}")

    @property
    def _operand(self) -> str:
        """The variable's expression as an operand of `[]` or `.`: in parentheses if it starts with `*`."""
        return f"({self.expression})" if self.expression.startswith("*") else self.expression

    def _part(self, at: int, size: int) -> "CVariable":
        """Return this variable with only `size` of its bytes, from the offset `at` on."""
        assert not isinstance(self.data, str)
        return replace(
            self,
            data=self.data[at : at + size],
            address=None if self.address is None else self.address + at,
            put=functools.partial(_put_part, self.put, self.data, at) if self.put else None,
        )

    def _pointed(self, index: int, pointer: int, at: "Callable[[CVariable, int, int], CVariable]") -> "CVariable":
        """Return element `index` of the memory that a pointer points to. Raises LabError if the type of the element is unknown.

        index: the index of the element, which may be negative; pointer: the address in the pointer; at: the attribute `at`, which isn't None
        """
        layout = self.layout.pointee if self.layout else None
        size = layout.size if layout else int(self.target[1:] or 0) // 8
        if not size:
            raise LabError(f"{self.name} points to nothing of a known type")
        blank = replace(
            self,
            name=f"[{index}]",
            type=layout.declaration() if layout else "",
            expression=f"{self._operand}[{index}]",
            kind=layout.kind if layout else self.target,
            counts=layout.counts if layout else [],
            target=layout.pointed_kind if layout else "",
            layout=layout,
        )
        return at(blank, (pointer + index * size) % _ADDRESSES, size)

    def set(self, text: str) -> None:
        """Set the variable to the number in a text. Raises LabError if the variable can't be changed, or if the text isn't a valid number."""
        if self.put is None or not self.can_change:
            raise LabError(f"{self.name} can't be changed")
        bits = int(self.kind[1:])
        self.put(read_number(text, bits).to_bytes(bits // 8, "little"))


def c_variables(instant: Instant, frame: Frame) -> tuple[list[CVariable], list[CVariable]]:
    """Return two lists: the local variables of a frame's function, and the global variables.

    If several local variables in scope have the same name, only the one in the innermost block is returned.
    """
    inside, names, shared = frame.call.inside, dict[str, TypedVariable](), dict[str, TypedVariable]()
    for each in instant.program.variables:
        variable = each.variable
        if not variable.function:
            shared[variable.name] = each
        elif variable.function == frame.name and any(first <= inside < end for first, end in variable.scopes):
            names[variable.name] = each
    return [[_placed(each, instant, frame) for each in found.values()] for found in (names, shared)]  # type: ignore[return-value]


def find_variable(instant: Instant, frame: Frame, name: str) -> CVariable | None:
    """Return the variable called `name` in a frame; None if there is none."""
    return next((each for found in c_variables(instant, frame) for each in found if each.name == name), None)


def number_at(instant: Instant, address: int, kind: str) -> CVariable:
    """Return the number at an address of memory, as a variable. kind: the kind of the number, such as `i32` (see `typed_text`)

    If the memory can't be read, the methods of the variable that return the number raise LabError.
    """
    blank = CVariable(f"the number at {address:#x}", "", "", kind, [], "")
    return _in_memory(instant, blank, address, int(kind[1:]) // 8)


def _placed(typed: TypedVariable, instant: Instant, frame: Frame) -> CVariable:
    """Return a variable of the debug data with its bytes in a frame, or with the reason why they are unknown."""
    variable, layout = typed
    blank = CVariable(
        variable.name,
        variable.declaration,
        variable.name,
        layout.kind if layout else variable.element,
        layout.counts if layout else variable.counts,
        "",
        target=variable.target,
        layout=layout,
        at=functools.partial(_in_memory, instant),
    )
    place = next((it for it in variable.locations if it.first <= frame.call.inside < it.end), None)
    if place is None:
        return replace(blank, data=OPTIMIZED_OUT)
    if place.kind == "untold":
        return replace(blank, data=UNSUPPORTED)
    if place.kind == "vector":
        return _in_vector_register(blank, instant, frame, place.register)
    base = frame.call.stack if place.register == FRAME else frame.call.registers[place.register]
    if base is None:
        return replace(blank, data=CHANGED)
    address = (base + (int(place.offset, 16) if place.kind != "register" else 0)) % _ADDRESSES
    size = layout.size if layout else 0
    if place.kind == "memory":
        return _mask(_in_memory(instant, blank, address, size))
    put = (
        functools.partial(_put_register, instant, place)
        if place.kind == "register" and frame.call.is_innermost
        else None
    )
    return replace(
        blank, data=address.to_bytes(8, "little")[:size], put=put if blank.kind and not blank.counts else None
    )


def _in_memory(instant: Instant, blank: CVariable, address: int, size: int) -> CVariable:
    """Return the variable `blank` with `size` bytes from an address on, or without bytes if the memory can't be read."""
    guest = instant.program.guest
    answers = guest.ask(f"peek {address:x} 1", f"peek {address + max(1, size) - 1:x} 1") if address < 1 << 48 else []
    if not answers or not all(isinstance(each, Memory) for each in answers):
        return replace(blank, data=UNREADABLE, address=address)

    def put(data: bytes) -> None:
        for command, answer in zip(pokes(address, data), guest.ask(*pokes(address, data))):
            if isinstance(answer, Refused):
                raise LabError(explain_refusal(f"{guest.user} {command}", answer)[-1])

    return replace(blank, data=guest.peek(address, size), address=address, put=put)


def _in_vector_register(blank: CVariable, instant: Instant, frame: Frame, register: int) -> CVariable:
    """Return the variable `blank` with the bytes of vector registers. register: the number of the first register

    If the debug data has no vector type for the variable, the vector type in force determines its elements.
    """
    if not frame.call.is_innermost:
        return replace(blank, data=CHANGED)
    v, layout = bytes(instant.registers.v[register * REGISTER_BYTES :]), blank.layout
    if layout and layout.is_vector and layout.kind and layout.size <= len(v):
        return _mask(replace(blank, data=v[: layout.size]))
    control = instant.registers.control
    size = REGISTER_BYTES * (1 if control.vtype >> 63 else max(1, int(control.lmul)))
    width = 8 if control.vtype >> 63 else control.sew
    return replace(blank, kind=f"u{width}", counts=[len(elements_in(v[:size], width))], data=v[:size])


def _mask(variable: CVariable) -> CVariable:
    """Return a variable of a mask type with one element for each bit, and any other variable unchanged."""
    if not variable.layout or not variable.layout.is_mask or isinstance(variable.data, str):
        return variable
    bits = elements_in(variable.data, 1)
    return replace(variable, kind="u8", counts=[len(bits)], data=bytes(bits), address=None, put=None, layout=None)


def _bit_field(part: CVariable, data: bytes, first: int, count: int) -> CVariable:
    """Return a bit field, which has no address and can't be changed.

    part: the field without its value; data: the bytes of the structure; first: the number of the field's first bit; count: the number of bits
    """
    number = int.from_bytes(data, "little") >> first & (1 << count) - 1
    kind = f"{part.kind[:1]}{count}" if part.kind else ""
    return replace(part, kind=kind, data=number.to_bytes(8, "little"), address=None, put=None)


def _put_register(instant: Instant, place: Location, data: bytes) -> None:
    """Write a number to a scalar register. A number of less than 64 bits is sign-extended, as the ABI requires."""
    value = int.from_bytes(data, "little", signed=True) % _ADDRESSES
    guest = instant.program.guest
    guest.ask(f"set x{place.register} {value:x}")


def _put_part(put: Callable[[bytes], None], whole: bytes, at: int, data: bytes) -> None:
    """Write bytes to a part of a variable.

    put: replaces all bytes of the variable; whole: the variable's present bytes; at: the offset of the part; data: the part's new bytes
    """
    put(whole[:at] + data + whole[at + len(data) :])


def _string(data: bytes) -> str:
    """Return a C string in quotation marks, up to its zero byte. A long string is cut off."""
    text = data.partition(b"\0")[0]
    shown = "".join(_letters(text[:_LETTERS]))
    return f'"{shown}"' + "…" * (len(text) > _LETTERS)


def _letters(text: bytes) -> Iterator[str]:
    """Yield the characters of a string, each escaped as in C if necessary."""
    for byte in text:
        special = {10: "\\n", 9: "\\t", 34: '\\"', 92: "\\\\"}.get(byte)
        yield special or (chr(byte) if 32 <= byte < 127 else f"\\x{byte:02x}")
