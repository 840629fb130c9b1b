"""Rows of a stopped program for a client: scopes of a frame, and the variables, registers and elements in them."""

import functools
from collections.abc import Callable, Iterator, Sequence
from dataclasses import dataclass

from .. import LabError
from ..assembler.commands import explain_refusal
from ..console.show import ROUNDING, both_names
from ..guest.changes import vtype_text
from ..guest.guest import Guest
from ..instructions.accesses import REGISTER_BYTES
from ..machine.answers import Memory, Refused, elements_in
from .c_variables import CVariable, c_variables
from .instants import Frame, Instant
from .operands import last_items
from .values import number_text, read_number
from .vectors import VectorGroup, groups

LOCALS, GLOBALS, SCALARS = "Locals", "Globals", "Scalar registers"
STATE, VECTORS, LAST = "Vector state", "Vector registers", "Last instruction"


@dataclass(frozen=True)
class Item:
    """A row that a client shows for a register, an element, a variable or an expression.

    name, value, type: the texts that the client shows in the row; the type may be ""
    expression: an expression that has the row's value, which the client can evaluate again; "" if there is none
    children: returns the rows below this row; None if a row of this kind has none. The arguments are the index of the first row to return,
        the number of rows (0 for all from the first on), and whether numbers are written only in hexadecimal.
    count: the number of rows below this row, if their names are indices such as `[3]`; otherwise 0
    address: the first address of the memory that the client can open from this row. For a pointer, or a register with an address, this is
        the address in it; for any other variable, it is the variable's own address. None if there is no such memory.
    change: sets the value to the number in a text, and raises LabError if that isn't possible; None if the value can't be changed
    place: the address and the number of bytes of the memory that contains the value itself; None if the value isn't in memory
    """

    name: str
    value: str
    type: str = ""
    expression: str = ""
    children: "Callable[[int, int, bool], list[Item]] | None" = None
    count: int = 0
    address: int | None = None
    change: Callable[[str], None] | None = None
    place: tuple[int, int] | None = None


@dataclass(frozen=True)
class Scope:
    """A scope of a frame.

    hint: the kind of the scope in the protocol's words, or ""
    items: returns the rows of the scope, with the same arguments as `Item.children`
    is_costly: whether the rows take time to read, so that clients request them only if the user opens the scope
    """

    name: str
    hint: str
    items: Callable[[int, int, bool], list[Item]]
    is_costly: bool = False


def scopes_of(instant: Instant, frame: Frame) -> list[Scope]:
    """Return the scopes of a frame.

    Only the innermost frame has scopes of vector registers, since a called function doesn't preserve them for its caller.
    """
    found = list[Scope]()
    own, shared = c_variables(instant, frame)
    if instant.program.variables:
        found.append(Scope(LOCALS, "locals", _all(lambda is_hex: [variable_item(each, is_hex) for each in own])))
    if frame.call.is_innermost:
        found.append(Scope(STATE, "registers", _all(lambda is_hex: [*_vector_state(instant)])))
        found.append(Scope(VECTORS, "registers", _all(lambda _: [group_item(each) for each in groups(instant)])))
    found.append(Scope(SCALARS, "registers", _all(lambda is_hex: [*_scalars(instant, frame, is_hex)])))
    if frame.call.is_innermost:
        found.append(Scope(LAST, "", _all(lambda _: _last(instant)), is_costly=True))
    if shared:
        found.append(Scope(GLOBALS, "", _all(lambda is_hex: [variable_item(each, is_hex) for each in shared])))
    return found


def _all(make: Callable[[bool], list[Item]]) -> Callable[[int, int, bool], list[Item]]:
    """Return a function that returns a range of the rows of a scope, with the same arguments as `Item.children`.

    make: returns all rows of the scope; its argument is whether numbers are written only in hexadecimal
    """
    return lambda start, count, is_hex: make(is_hex)[start : start + count if count else None]


def send(guest: Guest, *commands: str) -> None:
    """Send commands that change the machine. Raises LabError if one is refused."""
    for command, answer in zip(commands, guest.ask(*commands)):
        if isinstance(answer, Refused):
            raise LabError(explain_refusal(f"{guest.user} {command}", answer)[-1])


def _scalars(instant: Instant, frame: Frame, is_hex: bool) -> Iterator[Item]:
    """Yield the rows of the program counter and of the scalar registers. A scalar register's row has both names, such as `x10/a0`."""
    guest, pc = instant.program.guest, frame.call.address

    def set_pc(text: str) -> None:
        send(guest, f"setpc {read_number(text, 64):x}")

    is_own = frame.call.is_innermost
    mapped = _mapped(guest, [value for value in frame.call.registers if value is not None])
    yield Item("pc", f"{pc:#x}", expression="pc", address=pc, change=set_pc if is_own else None)
    for number, value in enumerate(frame.call.registers):
        name = f"x{number}"
        change = functools.partial(set_scalar, guest, number) if is_own and number else None
        if value is None:
            yield Item(both_names(name), "unknown: a called function may have changed it")
        else:
            text = number_text(value, 64, is_hex)
            address = value if value in mapped else None
            yield Item(both_names(name), text, expression=name, address=address, change=change)


def _mapped(guest: Guest, values: Sequence[int]) -> set[int]:
    """Return the values that are addresses of mapped memory."""
    addresses = [value for value in dict.fromkeys(values) if value < 1 << 48]
    answers = guest.ask(*(f"peek {address:x} 1" for address in addresses))
    return {address for address, answer in zip(addresses, answers) if isinstance(answer, Memory)}


def set_scalar(guest: Guest, number: int, text: str) -> None:
    """Set scalar register x`number` to the number in a text. Raises LabError."""
    send(guest, f"set x{number} {read_number(text, 64):x}")


def _vector_state(instant: Instant) -> Iterator[Item]:
    """Yield the rows of the vector type, the other vector control registers, the policy, and the mask in v0."""
    control, policy = instant.registers.control, instant.program.guest.session.policy[instant.program.guest.user]
    yield Item("vtype", f"{vtype_text(control.vtype)}  ({control.vtype:#x})", expression="vtype")
    yield Item("vl", f"{control.vl}  (of {control.vlmax})", expression="vl")
    yield Item("vstart", f"{control.vstart}", expression="vstart")
    yield Item("vxrm", f"{control.vxrm}  ({ROUNDING[control.vxrm]})", expression="vxrm")
    yield Item("vxsat", f"{control.vxsat}", expression="vxsat")
    yield Item("policy", policy)
    bits = elements_in(bytes(instant.registers.v[:REGISTER_BYTES]), 1)[: control.vl]
    yield Item(
        "v0.mask", "".join(map(str, bits)) or "no elements", type="mask of elements 0 to vl - 1, the first one first"
    )


def group_item(group: VectorGroup) -> Item:
    """Return the row of a group of vector registers, with the rows of its elements below it."""

    def elements(start: int, count: int, is_hex: bool) -> list[Item]:
        stop = min(start + count if count else len(group.values), len(group.values))
        return [_element_item(group, index, is_hex) for index in range(start, stop)]

    return Item(group.name, group.text(), group.type, group.expression, elements, len(group.values))


def _element_item(group: VectorGroup, index: int, is_hex: bool) -> Item:
    """Return the row of an element. After the value, it has the element's text in `group.outcomes`, if there is one."""
    value, outcome = number_text(group.values[index], group.width, is_hex), group.outcomes.get(index, "")
    change = functools.partial(group.change, index) if group.change else None
    text = f"{value}  {outcome}".rstrip()
    return Item(f"[{index}]", text, expression=f"{group.expression}[{index}]", change=change)


def variable_item(variable: CVariable, is_hex: bool) -> Item:
    """Return the row of a C variable. Below it are the elements of an array, the fields of a structure, or the target of a pointer."""

    def elements(start: int, count: int, is_hex: bool) -> list[Item]:
        return [variable_item(each, is_hex) for each in variable.elements(start, count)]

    def fields(is_hex: bool) -> list[Item]:
        return [variable_item(variable.field(each.name), is_hex) for each in variable.fields]

    def pointee(is_hex: bool) -> list[Item]:
        pointed = variable.pointee()
        return [variable_item(pointed, is_hex)] if pointed else []

    children: Callable[[int, int, bool], list[Item]] | None = elements if variable.count else None
    if variable.fields:
        children = _all(fields)
    elif variable.has_pointee:
        children = _all(pointee)
    return Item(
        variable.name,
        variable.text(is_hex),
        variable.type,
        variable.expression if variable.is_known else "",
        children,
        variable.count,
        variable.pointer if variable.pointer is not None else variable.address,
        variable.set if variable.can_change else None,
        variable.place,
    )


def _last(instant: Instant) -> list[Item]:
    """Return the rows about the instruction that was executed last: its meaning, and its operands with the reason for each element."""
    rows: Sequence[tuple[str, str, VectorGroup | None]] = last_items(instant)
    return [group_item(group) if group else Item(name, text) for name, text, group in rows]
