"""Movements of a program forwards: it runs, or is stepped by lines or instructions, into calls, over them, or out of a function."""

from collections.abc import Callable, Sequence

from .. import LabError
from ..guest.jumps import is_call, is_return, jump_target, may_jump
from ..guest.source_lines import Copy
from ..machine.answers import Stop
from .halts import Halt, Halts
from .program import Line
from .unwinding import CallFrame

BLOCK_WORDS = 16  # the most instructions that are executed at once


class Forwards:
    """Moves a program forwards.

    Each movement except `go_on` returns the halt that ended it early; None if the movement was completed. A movement raises Paused if the
    client wants the program to stop, or has gone.
    """

    def __init__(self, halts: Halts, frames: Callable[[], Sequence[CallFrame]]) -> None:
        """frames: returns the call stack at the program counter, the innermost function first"""
        self._halts, self._frames = halts, frames
        self._words = dict[int, int]()  # words by address, as they were when the step began

    def go_on(self) -> Halt:
        """Run the program until it halts, and return the halt.

        The machine may stop where the program doesn't halt, such as at a breakpoint whose condition is false. After each such stop, and when a
        request arrives, the client's requests are answered, and the program runs on.
        """
        while True:
            stop = self._halts.timeline.go(self._halts.client.has_requests)
            if stop and (halt := self._halts.at_stop(stop)):
                return halt
            self._halts.attend()

    def _step_once(self) -> Halt | None:
        """Execute one instruction. Return the halt if the program halts at or after this instruction; None if the movement may go on."""
        self._halts.attend()
        stop = self._halts.timeline.step()
        return self._halts.at_stop(stop) if stop else self._halts.here()

    def step_call(self, is_over: bool) -> Halt | None:
        """Execute one instruction. is_over: whether the function that a call instruction calls is executed as well, up to its return"""
        pc = self._halts.guest.pc
        return self._pass_call() if is_over and is_call(self._halts.guest.word_at(pc)[0]) else self._step_once()

    def _pass_call(self) -> Halt | None:
        """Execute a call instruction and the called function, up to the instruction after the call."""
        return self.run_to(self._halts.guest.pc + 4, self._halts.stack())

    def run_to(self, address: int, stack: int) -> Halt | None:
        """Run to an address. Return None there; if the program halts first, or at a breakpoint at this address, return the halt.

        stack: the least value of the stack pointer at the end. If the program reaches the address with a lower stack pointer, it is in a
        deeper call, and runs on.
        """
        is_new = address not in self._halts.breakpoints.addresses
        if is_new and not self._halts.breakpoints.has_room:
            return self._step_to(address, stack)
        self._halts.guest.ask(*[f"break {address:x}"] * is_new)
        try:
            while True:
                stop = self._halts.timeline.go(self._halts.client.has_requests)
                if stop and self._is_at(stop, address):
                    if halt := self._halts.here():
                        return halt
                    if self._halts.stack() >= stack:
                        return None
                elif stop and (halt := self._halts.at_stop(stop)):
                    return halt
                self._halts.attend()
                self._halts.guest.ask(
                    *[f"break {address:x}"] * is_new
                )  # again, since the client may have changed breakpoints
        finally:
            if address not in self._halts.breakpoints.addresses:
                self._halts.guest.ask(f"unbreak {address:x}")

    def _is_at(self, stop: Stop, address: int) -> bool:
        return stop.kind == "break" and stop.pc == address and not self._halts.timeline.hit

    def _step_to(self, address: int, stack: int) -> Halt | None:
        """Move as `run_to` does, but by single steps, since the machine has no room for another breakpoint."""
        while True:
            if halt := self._step_once():
                return halt
            if self._halts.guest.pc == address and self._halts.stack() >= stack:
                return None

    def step_line(self, is_over: bool) -> Halt | None:
        """Execute instructions up to another source line, or only one if the present instruction has no source line.

        A function without source lines that is called is executed up to its return.

        is_over: whether all other functions that are called are executed up to their return as well, and inlined copies up to their end
        """
        start, copies = self._halts.line(), [copy.number for copy in self._copies()]
        self._words.clear()
        while True:
            if halt := self._step_part(is_over, start):
                return halt
            line = self._halts.line()
            if start is None or line not in (None, start) and not (is_over and self._is_within(copies, start)):
                return None

    def _step_part(self, is_over: bool, line: Line | None) -> Halt | None:
        """Execute a part of a step: a call up to its return, one instruction, or several successive instructions of a line.

        is_over: whether all called functions are executed up to their return; otherwise only those without source lines
        line: the source line of the present instruction; None if it has none
        """
        pc = self._halts.guest.pc
        if is_call(self._word(pc)) and (is_over or self._calls_unknown(pc)):
            return self._pass_call()
        count = 0 if line is None or self._halts.timeline.watches else self._straight(pc, line)
        if count < 1:
            return self._step_once()
        self._halts.attend()
        stop, _ = self._halts.guest.execute(count)
        return self._halts.at_stop(stop) if stop else self._halts.here()

    def _straight(self, pc: int, line: Line) -> int:
        """Return the number of instructions from the address `pc` on that can be executed at once, at most BLOCK_WORDS.

        All of them belong to `line`. They end after the first instruction that may jump, and before the first breakpoint, call or instruction
        of another line.
        """
        for count in range(1, BLOCK_WORDS + 1):
            address = pc + 4 * count
            if may_jump(self._word(address - 4)) or address in self._halts.breakpoints.addresses:
                return count
            if self._halts.program.line(address) != line or is_call(self._word(address)):
                return count
        return BLOCK_WORDS

    def _word(self, address: int) -> int:
        """Return the word at an address as it was when the step began; 0 if there is no memory."""
        if address not in self._words:
            listed = self._halts.program.words(range(address, address + 4 * BLOCK_WORDS, 4))
            self._words |= {at: word.word for at, word in listed.items()}
            self._words.setdefault(address, 0)
        return self._words[address]

    def _copies(self) -> Sequence[Copy]:
        return self._halts.program.symbols.source.copies_at(self._halts.guest.pc)

    def _is_within(self, copies: Sequence[int], line: Line) -> bool:
        """Return whether the program is in an inlined copy of a function that the line calls where the step started.

        copies: the numbers of the inlined copies in which the step started, and of the function around them, the innermost first
        line: the source line at which the step started
        """
        now = self._copies()
        called = [inner.called for inner, outer in zip(now, now[1:]) if [outer.number] == copies[:1]]
        return called == [f"{line.file}:{line.number}"]

    def _calls_unknown(self, pc: int) -> bool:
        """Return whether the call instruction at `pc` calls a function without source lines; False if a register has the called address."""
        target = jump_target(pc, self._word(pc))
        return target is not None and self._halts.program.line(target) is None

    def step_out(self) -> Halt | None:
        """Run until the present function has returned, or the present inlined copy has ended. Raises LabError in the outermost function."""
        copies = self._copies()
        if copies and copies[0].called:
            return self._leave_copy(copies[0].number)
        frames = self._frames()
        if len(frames) > 1:
            return self.run_to(frames[1].address, frames[0].stack or 0)
        if self._halts.program.call_frames.covers(self._halts.guest.pc):
            raise LabError("this is the outermost function, and no function waits for it")
        while not is_return(self._halts.guest.word_at(self._halts.guest.pc)[0]):
            if halt := self.step_call(True):
                return halt
        return self._step_once()

    def to_line(self) -> Halt | None:
        """Leave instructions without a source line in a function that has source lines.

        If the present instruction is such an instruction, execute instructions up to one that has a source line, or until the function has
        returned. Otherwise do nothing, and return None.
        """
        function, stack = self._halts.program.place(self._halts.guest.pc).partition("+")[0], self._frames()[0].stack
        if function not in self._halts.program.symbols.source.functions or stack is None:
            return None
        while self._halts.line() is None and self._halts.stack() < stack:
            if halt := self._step_part(True, None):
                return halt
        return None

    def _leave_copy(self, number: int) -> Halt | None:
        """Execute instructions, and calls up to their return, until the program is outside an inlined copy. number: the copy's number"""
        while True:
            if halt := self.step_call(True):
                return halt
            if number not in [copy.number for copy in self._copies()]:
                return None
