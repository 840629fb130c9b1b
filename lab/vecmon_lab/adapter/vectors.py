"""Groups of vector registers under the vector type, and the register groups of operands."""

import functools
from collections.abc import Callable, Mapping, Sequence
from dataclasses import dataclass, field

from .. import LabError
from ..assembler.commands import explain_refusal
from ..guest.changes import vtype_text
from ..guest.guest import Guest
from ..instructions.accesses import REGISTER_BYTES
from ..machine.answers import ControlRegisters, Refused, elements_in
from ..meanings.instruction import ExecutedInstruction
from ..page.build.texts import LANGUAGE, read_texts
from .instants import Instant
from .values import read_number

REGISTERS = 32
_SHOWN = 16  # elements in the text of a group


@dataclass(frozen=True)
class VectorGroup:
    """Vector registers whose elements are numbered as one group.

    name: the names of the registers, such as `v8` or `v8-v11`; for an operand, its role in the instruction comes first
    expression: the name of the first register
    type: the type of the elements, as a text for the user
    width: the width of an element, in bits; values: the unsigned values of the elements
    outcomes: texts by the index of an element: the element's outcome in the last instruction, or that the element is in the tail. An
        element without such a text is missing.
    change: sets an element to a number. The arguments are the element's index, and the number as text. None if the elements can't be changed.
    is_result: whether the group is the destination of the last instruction
    """

    name: str
    expression: str
    type: str
    width: int
    values: Sequence[int]
    outcomes: Mapping[int, str] = field(default_factory=dict)
    change: Callable[[int, str], None] | None = None
    is_result: bool = False

    def text(self) -> str:
        """Return the first elements in hexadecimal digits, as the monitor's `vreg` writes them, but from element 0 on."""
        count = _SHOWN * 4 if self.width == 1 else _SHOWN
        shown = [f"{value:0{max(1, self.width // 4)}x}" for value in self.values[:count]]
        return ("" if self.width == 1 else " ").join(shown) + " …" * (len(self.values) > count)


def outcome_text(outcome: str) -> str:
    """Return the text that pages show for the outcome of an element. outcome: such as `tail`"""
    return read_texts(LANGUAGE)[f"outcome.{outcome}"]


def group_name(register: int, size: int) -> str:
    """Return the name of a group, such as `v8` or `v8-v11`. register: the number of the first register; size: the number of registers"""
    return f"v{register}" if size == 1 else f"v{register}-v{register + size - 1}"


def groups(instant: Instant) -> list[VectorGroup]:
    """Return all vector registers, in groups under the vector type. Under vill, each register is a group of bytes."""
    size = _group_size(instant.registers.control)
    return [group_at(instant, register) for register in range(0, REGISTERS, size)]


def group_at(instant: Instant, register: int) -> VectorGroup:
    """Return the group that begins at a register under the vector type. Raises LabError if the register is inside another group."""
    control, v = instant.registers.control, bytes(instant.registers.v)
    is_typed, size = not control.vtype >> 63, _group_size(control)
    if register % size:
        first = register // size * size
        raise LabError(f"v{register} is in the group {group_name(first, size)} under {vtype_text(control.vtype)}")
    width = control.sew if is_typed else 8
    values = elements_in(v[register * REGISTER_BYTES : (register + size) * REGISTER_BYTES], width)
    kind = vtype_text(control.vtype) if is_typed else "bytes, since vtype is vill"
    tail = range(control.vl, len(values)) if is_typed else range(0)
    change = functools.partial(_set_element, instant.program.guest, register, width)
    outcomes = dict.fromkeys(tail, outcome_text("tail"))
    return VectorGroup(group_name(register, size), f"v{register}", kind, width, values, outcomes, change)


def operand_groups(executed: ExecutedInstruction, before: bytes, after: bytes) -> list[VectorGroup]:
    """Return the register groups of an instruction's operands: destinations as they are after it, sources as they were before it.

    before, after: the bytes of v0 to v31 before and after the instruction
    """
    found = list[VectorGroup]()
    for each in executed.groups:
        is_result = each.role == "destination"
        data, outcomes = (after, executed.results) if is_result else (before, executed.outcomes)
        for number in range(each.groups):
            register = each.register + number * each.size
            values = elements_in(data[register * REGISTER_BYTES : (register + each.size) * REGISTER_BYTES], each.width)
            own = outcomes if is_result or each.role in ("element", "data") else ()
            texts = {index: outcome_text(outcome) for index, outcome in enumerate(own[: len(values)])}
            name = f"{each.role} {group_name(register, each.size)}"
            kind = f"elements of {each.width} bit{'s' * (each.width > 1)}"
            found.append(VectorGroup(name, f"v{register}", kind, each.width, values, texts, is_result=is_result))
    return found


def _group_size(control: ControlRegisters) -> int:
    """Return the number of registers in a group: LMUL, but at least 1, and 1 under vill."""
    return 1 if control.vtype >> 63 else max(1, int(control.lmul))


def _set_element(guest: Guest, register: int, width: int, index: int, text: str) -> None:
    """Set an element of a group to the number in a text. Raises LabError.

    register: the group's first register; width: the width of an element, in bits; index: the index of the element
    """
    size = width // 8
    number, at = register + index * size // REGISTER_BYTES, index * size % REGISTER_BYTES
    data = bytearray(guest.vectors()[number])
    data[at : at + size] = read_number(text, width).to_bytes(size, "little")
    command = f"vset v{number} {data.hex()}"
    (answer,) = guest.ask(command)
    if isinstance(answer, Refused):
        raise LabError(explain_refusal(f"{guest.user} {command}", answer)[-1])
