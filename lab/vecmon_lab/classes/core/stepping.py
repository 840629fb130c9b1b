"""Run or step a seat's program: by instructions or lines of the source, into calls, over them, or out of a function.

The last instruction is executed by a single step, so that the state before it is known.
"""

from collections.abc import Callable, Sequence
from functools import partial

from ...assembler.commands import refusal_on_pages
from ...compilers.compiled import CompiledProgram
from ...guest.jumps import is_call, is_return
from ...machine.answers import Listing, Position, Refused, ScalarRegisters, Word, read
from .bad_request import BadRequest
from .request_fields import StepKind
from .requests import LinesRequest
from .seats import Seat
from .shared_machine import Answers, SharedMachine
from .steps import Steps, Turn

# The most blocks of code that one step executes: within a line, and over calls or out of a function.
LINE_BLOCKS, CALL_BLOCKS = 256, 1024
BLOCK_WORDS = 16  # the most instructions in a block
MAX_LINES = 1000  # the most lines that `step_until` steps through
LEAVES = "bje"  # first letters of scalar instructions that may branch, jump or call: bne, jal, ecall

_SP = 2  # the number of the stack pointer


def run(machine: SharedMachine, seat: Seat) -> Steps[None]:
    """Let a seat's program run. Raises BadRequest if there is none, or it runs already.

    `go` passes a breakpoint at the program counter. So a program that hasn't executed anything, and has a breakpoint there, isn't
    started: it is shown as stopped by the breakpoint.
    """
    _check_stopped(seat)
    if seat.condition == "Ready" and int(seat.state["pc"], 16) in seat.display.watch_set.breaks:
        seat.stop_at_breakpoint()
        return
    yield from execute_line(machine, seat, "go")


def step(machine: SharedMachine, seat: Seat, kind: StepKind, by_lines: bool, count: int) -> Steps[None]:
    """Step a seat's program `count` times, or up to a stop or a breakpoint.

    kind: into calls, over calls, or out of the function; by_lines: whether to step by lines of the source
    Raises BadRequest if there is no stopped program, no line to step, or no room in the seat's share of the script.
    """
    _check_stopped(seat)
    if kind == "into" and not by_lines:
        if count > 1 and not (yield from execute_line(machine, seat, f"step {count - 1}")):
            return
        yield from execute_line(machine, seat, "step 1")
        return
    for _ in range(count):
        if by_lines or kind == "out" or _calls_at_pc(seat):
            goes_on = yield from _walk(machine, seat, kind, by_lines)
        else:
            goes_on = yield from execute_line(machine, seat, "step 1")
        if not goes_on:
            return


def step_until(machine: SharedMachine, seat: Seat, line: int) -> Steps[None]:
    """Step a seat's program by lines, into calls, until the program counter is in a line, or up to a stop or a breakpoint.

    line: the number of the line. Raises BadRequest as `step` does, and if MAX_LINES steps don't reach the line.
    """
    _check_stopped(seat)
    for _ in range(MAX_LINES):
        if not (yield from _walk(machine, seat, "into", by_lines=True)):
            return
        if seat.loaded.program and seat.loaded.program.line_at(int(seat.state["pc"], 16)) == line:
            return
    advice = "set a breakpoint (F9), and run"
    raise BadRequest(f"The program went through {MAX_LINES:,} lines, but not through line {line}: {advice}.")


def _check_stopped(seat: Seat) -> None:
    """Raise BadRequest if a seat has no stopped program."""
    if seat.state["run"] == "absent":
        raise BadRequest("there is no program: assemble or compile a source first")
    if seat.state["run"] == "running":
        raise BadRequest("the program already runs: stop it first")


def execute_line(machine: SharedMachine, seat: Seat, line: str) -> Steps[bool]:
    """Execute a line of a seat's user; return whether more steps may follow. Raises BadRequest if the machine refuses the line.

    line: without the user's digit
    """
    answers: Answers = []
    yield from machine.lines(seat, LinesRequest([line]), answers)
    parts = [f"{seat.digit} {part}" for part in answers[0]]
    if isinstance(read(parts), Refused):
        raise BadRequest(refusal_on_pages(f"{seat.digit} {line}", parts))
    return _goes_on(machine, seat, parts)


def _goes_on(machine: SharedMachine, seat: Seat, answer: Sequence[str]) -> bool:
    """Return whether an answer to a step shows neither a stop nor the address of a breakpoint."""
    place = read(answer)
    return isinstance(place, Position) and place.pc not in seat.display.watch_set.breaks


def _calls_at_pc(seat: Seat) -> bool:
    """Return whether the next instruction calls a function."""
    line = seat.state["code"].get(seat.state["pc"], "")
    return bool(line) and is_call(int(line[:8], 16))


def _walk(machine: SharedMachine, seat: Seat, kind: StepKind, by_lines: bool) -> Steps[bool]:
    """Step to the next line, over a call, or out of a function. Return whether more steps may follow.

    kind: into calls, over calls, or out of the function; by_lines: whether to step by lines of the source
    """
    if by_lines and seat.loaded.program is None:
        raise BadRequest("only a program of a source can step a line")
    blocks = LINE_BLOCKS if kind == "into" else CALL_BLOCKS
    machine.check_share(seat, [f"{seat.digit} step {BLOCK_WORDS}"] * blocks)
    walk = _Walk(machine, seat, kind, _line_finder(seat) if by_lines else None)
    yield Turn(partial(walk.execute, blocks), seat)
    if walk.has_last:
        return (yield from execute_line(machine, seat, "step 1"))
    return walk.is_complete


def _line_finder(seat: Seat) -> Callable[[int], int]:
    """Return a function that returns the number of an address's line in the source, or 0 if it has none."""
    if seat.loaded.program is None or isinstance(seat.loaded.program, CompiledProgram):
        return seat.loaded.program.line_at if seat.loaded.program else lambda address: 0
    lines = {statement.address: statement.line for statement in seat.loaded.program.statements}
    return lambda address: lines.get(address, 0)


class _Walk:
    """Steps of a program, block by block, to the next line, over a call, or out of a function.

    has_last: whether only the last instruction remains, which a single step executes
    is_complete: whether the program has reached the end of the walk without a stop or a breakpoint
    """

    def __init__(
        self, machine: SharedMachine, seat: Seat, kind: StepKind, line_at: Callable[[int], int] | None
    ) -> None:
        """line_at: returns the number of an address's line; None for a walk by instructions, which ends after a call or a return"""
        self._machine, self._seat, self._kind, self._line_at = machine, seat, kind, line_at
        self.has_last, self.is_complete, self._started = False, False, 0
        self._behind: tuple[
            int, int
        ] | None = None  # the call to step over: its return address, and the least stack pointer there

    def execute(self, blocks: int, turn: Turn) -> None:
        """Execute at most `blocks` blocks in a turn at the machine, up to the end of the walk."""
        pc = int(self._seat.state["pc"], 16)
        self._started = self._line_at(pc) if self._line_at else 0
        for _ in range(blocks):
            words = self._block(pc)
            last = words[-1]
            if self._is_last(last):
                self.has_last = len(words) == 1 or self._step(turn, len(words) - 1) is not None
                return
            stack = self._stack() if self._passes(last) else 0
            place = self._step(turn, len(words))
            if place is None:
                return
            if self._passes(last):
                self._behind = last.address + 4, stack
            elif self._is_end(last, place):
                self.is_complete = True
                return
            pc = place

    def _block(self, pc: int) -> Sequence[Word]:
        """Return the instructions from `pc` on, up to the first one that may jump, or the first one after which the walk may end."""
        listing = read(self._machine.session.look(f"{self._seat.digit} dis {pc:x} {BLOCK_WORDS}"))
        words = listing.words if isinstance(listing, Listing) and listing.words else [Word(pc, 0, "none")]
        ends = (
            number for number, word in enumerate(words, 1) if word.text[0] in LEAVES or self._stops_at(word.address + 4)
        )
        return words[: next(ends, len(words))]

    def _stops_at(self, address: int) -> bool:
        """Return whether the walk may end at an address: at a breakpoint, at another line, or after a call."""
        if address in self._seat.display.watch_set.breaks or self._behind and address == self._behind[0]:
            return True
        return self._is_other_line(address)

    def _is_other_line(self, address: int) -> bool:
        if self._line_at is None or self._behind or self._kind == "out":
            return False
        return self._line_at(address) not in (0, self._started)

    def _is_last(self, word: Word) -> bool:
        """Return whether an instruction can't jump, and is the last one of the walk."""
        behind = word.address + 4
        return word.text[0] not in LEAVES and (
            self._is_other_line(behind) or behind in self._seat.display.watch_set.breaks
        )

    def _passes(self, word: Word) -> bool:
        """Return whether an instruction is a call to step over."""
        return self._behind is None and self._kind != "into" and is_call(word.word)

    def _is_end(self, last: Word, place: int) -> bool:
        """Return whether the walk ends at the address `place`, after the instruction `last`."""
        if self._behind:
            if place != self._behind[0] or self._stack() < self._behind[1]:
                return False
            self._behind = None
            return self._kind == "over" and (self._line_at is None or self._is_other_line(place))
        if self._kind == "out":
            return is_return(last.word)
        return self._is_other_line(place)

    def _stack(self) -> int:
        """Return the stack pointer; 0 if it can't be read."""
        registers = read(self._machine.session.look(f"{self._seat.digit} regs"))
        return registers.x[_SP] if isinstance(registers, ScalarRegisters) else 0

    def _step(self, turn: Turn, count: int) -> int | None:
        """Step `count` instructions. Return the program counter after them, or None at a stop or a breakpoint."""
        (answer,) = self._machine.do(turn, f"{self._seat.digit} step {count}")
        place = read(answer)
        return place.pc if isinstance(place, Position) and _goes_on(self._machine, self._seat, answer) else None
