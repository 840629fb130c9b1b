"""The state of a stopped program: its registers, its frames, and the last instruction."""

from collections.abc import Callable, Sequence
from dataclasses import dataclass
from functools import cached_property

from .. import LabError
from ..guest.changes import Registers, Retired
from ..guest.guest import Guest
from ..guest.source_lines import Copy
from ..instructions.accesses import vector_instruction
from ..machine.answers import Memory, ScalarRegisters, ControlRegisters, Stop
from ..meanings.executed import Before
from ..meanings.instruction import End, ExecutedInstruction, executed_instruction
from ..meanings.stepped import explanation_of
from ..meanings.why import Explanation
from .program import Line, Program
from .unwinding import CallFrame

ILLEGAL = 2  # the cause of a fault at an illegal instruction


@dataclass(frozen=True)
class Frame:
    """A frame of the client's call stack: a function, or an inlined copy of a function.

    call: the function, or the function that contains the copy; name: the name of the function or the copy, or "" if it is unknown
    line: the source line at which the function or the copy is; None if it is unknown
    """

    call: CallFrame
    name: str
    line: Line | None


@dataclass(frozen=True)
class LastInstruction:
    """The instruction that was executed last, or that caused a fault.

    pc: its address; text: its canonical text; before: the registers before it
    executed: its operands and the outcomes of its elements; None if it isn't a vector instruction
    explanation: the reasons for the values of registers after it; None if it caused a fault, or has no formula
    """

    pc: int
    text: str
    before: Registers
    executed: ExecutedInstruction | None
    explanation: Explanation | None


class Instant:
    """The state of a program at a stop. After the program has moved or was changed, a new instant is necessary."""

    def __init__(self, program: Program, stop: Stop | None, is_due: Callable[[], bool]) -> None:
        """stop: the machine's stop if the program stopped by itself; otherwise None; is_due: returns whether the client wants long work to end"""
        self.program, self._stop, self._is_due = program, stop, is_due

    @cached_property
    def registers(self) -> Registers:
        """The scalar, vector and vector control registers."""
        return _registers(self.program.guest)

    @cached_property
    def calls(self) -> Sequence[CallFrame]:
        """The functions that are executing or waiting, the innermost first."""
        guest = self.program.guest

        def peek(address: int) -> int | None:
            (answer,) = guest.ask(f"peek {address:x} 8") if 0 <= address < 1 << 48 else (None,)
            return int.from_bytes(answer.data, "little") if isinstance(answer, Memory) else None

        frames = self.program.call_frames
        return frames.walk(guest.pc, self.registers.x, peek, lambda address: guest.word_at(address)[0])

    @cached_property
    def frames(self) -> Sequence[Frame]:
        """The frames, the innermost first. The inlined copies around a function's next instruction come before the function itself."""
        return [frame for call in self.calls for frame in self._frames_of(call)]

    def _frames_of(self, call: CallFrame) -> list[Frame]:
        inside, source = call.inside & ~3, self.program.symbols.source
        line, found = self.program.line(inside), list[Frame]()
        copies: Sequence[Copy] = source.copies_at(inside)
        for copy in copies:
            found.append(Frame(call, copy.name, line))
            if not copy.called:
                break
            file, _, number = copy.called.rpartition(":")
            line = Line(file, int(number))
        if not copies or copies[-1].called:
            found.append(Frame(call, self.program.place(inside).partition("+")[0], line))
        return found

    @cached_property
    def last(self) -> LastInstruction | None:
        """The instruction that was executed last, or that caused a fault; None if none was executed. Raises LabError if it can't be found."""
        guest, stop = self.program.guest, self._stop
        if stop and stop.kind == "fault":
            return self._last(guest, self.registers, "illegal" if stop.cause == ILLEGAL else "fault")
        with self.program.timeline.before(self._is_due) as earlier:
            return self._last(earlier, _registers(earlier), "ran") if earlier else None

    def _last(self, earlier: Guest, before: Registers, end: End) -> LastInstruction:
        """Return the last instruction, which is at the program counter of `earlier`.

        earlier: the guest in the state before the instruction, or the present guest after a fault. Its memory has the instruction even if the
            program has overwritten the instruction since.
        before: the registers of `earlier`; end: how the instruction ended
        """
        guest, now, pc = self.program.guest, self.registers, earlier.pc
        word, text = earlier.word_at(pc)
        executed, explanation = None, None
        if vector_instruction(word, before.control.vtype):
            state = Before(pc, word, before.x, before.control, bytes(before.v), False)
            executed = executed_instruction(state, now.control, bytes(now.v), end)
        if end == "ran":
            try:
                explanation = explanation_of(guest, before, now.control, Retired(pc, word, text, [], None))
            except LabError:  # an instruction without a formula
                pass
        return LastInstruction(pc, text, before, executed, explanation)


def _registers(guest: Guest) -> Registers:
    """Return the registers of a guest, and update the guest's program counter."""
    scalars, control = guest.query("regs", ScalarRegisters), guest.query("vcsr", ControlRegisters)
    guest.pc = scalars.pc
    return Registers(scalars.x, control, bytearray(b"".join(guest.vectors())))
