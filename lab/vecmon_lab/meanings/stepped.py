"""Why a register of a guest has its value after the last stepped instruction."""

import functools
from collections.abc import Callable, Sequence

from .. import LabError
from ..guest.changes import Retired, Change, Registers, Stepper
from ..guest.guest import Guest
from ..instructions.accesses import LINE_BYTES, is_fault_only_first, vector_instruction
from ..instructions.words import LOAD, LOAD_FP
from ..machine.answers import ControlRegisters, Memory
from .executed import Before
from .why import NO_STEP, Explanation, Reason


def why_stepped(stepper: Stepper, name: str, element: int | None = None) -> Reason:
    """Return why a register, or an element of a vector register, has its value after the last stepped instruction.

    Raises LabError as `Explanation.why` does, and if nothing was stepped. name, element: as in `Explanation.why`
    """
    if stepper.last is None:
        raise LabError(NO_STEP)
    before, retired = stepper.last
    return explanation_of(stepper.guest, before, stepper.registers.control, retired).why(name, element)


class Step:
    """An instruction that was stepped: its address, word and text, its changes, and why registers have their values after it."""

    def __init__(self, guest: Guest, before: Registers, after: ControlRegisters, retired: Retired) -> None:
        self.pc, self.word, self.text = retired.pc, retired.word, retired.text
        self.changes: Sequence[Change] = retired.changes
        self._explanation: Callable[[], Explanation] = lambda: explanation_of(guest, before, after, retired)
        if retired.word & 0x7F in (LOAD, LOAD_FP) and retired.text and retired.stop is None:
            made = self._explanation()  # before later steps change memory
            self._explanation = lambda: made

    def __str__(self) -> str:
        return f"{self.pc:x} {self.text}: {' '.join(map(str, self.changes))}".rstrip(": ")

    def why(self, name: str, element: int | None = None) -> Reason:
        """Return why a register, or an element of a vector register, has its value after this step. As `Explanation.why`."""
        return self._explanation().why(name, element)


def explanation_of(guest: Guest, before: Registers, after: ControlRegisters, retired: Retired) -> Explanation:
    """Return the reasons for the values that registers have after an instruction.

    Memory is read from the guest during this call, after the instruction: a load hasn't changed memory, and the bytes that a store
    wrote aren't needed. Raises LabError if the instruction can't be fetched, is illegal or has no formula.

    before: the registers before the instruction; after: the control registers after it; retired: the instruction
    """
    if not retired.text:
        raise LabError(f"no instruction can be fetched at {retired.pc:#x}, so nothing was changed")
    stop, word = retired.stop, retired.word
    fault = stop.value if stop and stop.kind == "fault" else -1
    instruction = vector_instruction(word, before.control.vtype)
    end = 1 << 64  # the end of the bytes that a fault-only-first load has read
    if instruction and is_fault_only_first(word) and after.vl < before.control.vl:
        end = before.x[word >> 15 & 31] + after.vl * ((word >> 29) + 1) * instruction.operands[0].eew // 8

    @functools.cache
    def line(number: int) -> bytes | None:
        (reply,) = guest.ask(f"peek {number * LINE_BYTES:x} {LINE_BYTES}")
        return reply.data if isinstance(reply, Memory) else None

    def read(address: int, length: int) -> bytes | None:
        if address == fault or address >= end:
            return None
        parts = [line(number) for number in range(address // LINE_BYTES, (address + length - 1) // LINE_BYTES + 1)]
        return None if None in parts else b"".join(filter(None, parts))[address % LINE_BYTES :][:length]

    has_ones = guest.session.policy[guest.user] == "ones"
    state = Before(
        retired.pc, word, before.x, before.control, bytes(before.v), has_ones, read, lambda at, _: at != fault
    )
    return Explanation(state)
