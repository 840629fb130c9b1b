"""Run a guest's program so that each of its calls has room for its output, and report unsupported calls.

The machine's output buffer holds 1,024 bytes, and a call that finds less room than it needs writes less. A run reads the
output after a few slices, and less often if the program writes little. If the buffer is full, a call may have written too
little. Then the run goes back to where the output was last read, stops before each following ECALL, and reads the output
there. If that isn't possible, because breakpoints are missing or the program writes its own code, it reads the output after
every seven instructions.
"""

import sys
from collections.abc import Callable, Sequence
from typing import TYPE_CHECKING

from ..instructions.calls import unsupported_call
from ..machine.answers import Addresses, Granted, Output, Position, ScalarRegisters, Stop, read
from ..machine.session import TOGETHER
from .calls import Code

if TYPE_CHECKING:
    from .guest import Guest

OUTPUT_BYTES, WRITE_BYTES = 1024, 256  # the size of the buffer; the most bytes that a call writes
MAX_BREAKPOINTS = 16  # a user's limit
MAX_LOOKS = 1000  # times that the registers are read at uncertain calls
MAX_SLICES, MAX_TICKS = 1000, 1_000_000  # slices of one line; ticks between two reads of the output
LITTLE_BYTES, MUCH_BYTES = 256, 512  # up to LITTLE_BYTES of output, the next read is later; above MUCH_BYTES, earlier
CALLS_OF_A_SLICE = (
    256  # the number of stops at calls that count as one slice; OUTPUT_BYTES of output count as one as well
)

SAFE_STEPS = 7
"""A number of instructions whose calls always have room in an empty buffer. A call that writes more than a byte leaves a value
other than 1, the file, in a0. So another instruction is between it and the next call, and four calls write at most 1,024 bytes.
"""

Report = Callable[[int, str], object]
"""A function that is called with the address of an unsupported call, and a sentence about the call."""


def unreported(pc: int, sentence: str) -> None:
    """Do nothing about an unsupported call. This is the `report` of a run that repeats another run, which has reported the calls."""


class Reporter:
    """Prints each sentence about a program once, on standard error."""

    def __init__(self, place: Callable[[int], str] = lambda address: "") -> None:
        """place: returns the place of an address relative to a symbol, or "" if there is none"""
        self._place, self._printed = place, set[str]()

    def __call__(self, pc: int, sentence: str) -> None:
        """Print a sentence about the instruction at an address, unless it was printed before."""
        if sentence not in self._printed:
            self._printed.add(sentence)
            where = f"{pc:x} {self._place(pc)}".rstrip()
            print(f"vecmon-lab: {where}: {sentence}", file=sys.stderr, flush=True)


class Runner:
    """Runs a guest's program in slices.

    report: is called with the address of each unsupported call and a sentence about it
    looks_left: how many more times the registers may be read at uncertain calls
    has_exact_ticks: whether the program has used exactly the ticks that were counted; False once a slice has ended before a call
    """

    def __init__(self, guest: "Guest", report: Report) -> None:
        self.report = report
        self._guest, self._code = guest, Code()
        self.has_exact_ticks = True
        self.looks_left = MAX_LOOKS
        self._stops_at_calls = self._is_stepping = False
        self._places: Sequence[int] = ()  # ECALLs with breakpoints that aren't the user's
        self._breaks: Sequence[int] = ()  # the user's breakpoints
        self._calls = self._bytes = 0  # stops at calls, and bytes of output, since the last slice was counted

    def go(self, slices: int | None, is_interrupted: Callable[[], bool]) -> Stop | None:
        """Run the program to a stop, and return the stop; None after a number of slices, or after an interruption.

        A slice that ends before a call counts no ticks. CALLS_OF_A_SLICE such slices, or OUTPUT_BYTES of output, count as one slice.

        slices: the most slices to run; None for no limit; is_interrupted: is called between slices
        """
        guest = self._guest
        self._breaks, at_once, stop = guest.query("breaks", Addresses).addresses, 1, None
        guest.pc = guest.query("state", Position).pc
        self._code.update(guest)
        self._choose_places()
        while slices != 0 and stop is None and not is_interrupted():
            self.look(guest.pc)
            size, pc = guest.session.size, guest.pc
            limit = at_once if slices is None else min(at_once, slices)
            stop, used, output = self._step_on() if self._is_stepping else self._run_on(limit)
            if len(output) == OUTPUT_BYTES and not self._is_stepping:
                self._go_back(size, pc)
                stop = None
                continue
            guest.emit_output(output)
            if stop and stop.kind == "break" and stop.pc in self._places:
                used, stop = used - 1 + self._count_call(len(output)), None
            if len(output) <= LITTLE_BYTES:
                at_once = min(2 * at_once, MAX_TICKS // guest.session.quantum)
            elif len(output) > MUCH_BYTES:
                at_once = max(1, at_once // 2)
            guest.ticks += used * guest.session.quantum
            slices = None if slices is None else max(0, slices - used)
            if stop is None:
                guest.on_pause()
        self._set_places(())
        return stop

    def pass_slices(self, number: int) -> tuple[Stop | None, bool]:
        """Run a number of slices, at most 1,000, without stops before calls. Return the stop or None, and True.

        If a call may have had too little room for its output, go back to the state before these slices, and return None and False.
        """
        guest = self._guest
        self._breaks, self._places = guest.query("breaks", Addresses).addresses, ()
        size, pc = guest.session.size, guest.pc
        stop, _, output = self._run_on(number)
        if len(output) == OUTPUT_BYTES:
            guest.go_back(size, pc)
            return None, False
        guest.emit_output(output)
        return stop, True

    def look(self, pc: int, x: Sequence[int] | None = None) -> None:
        """Report the next instruction if it is an unsupported call. pc: its address; x: the scalar registers; None to read them

        If `x` is given, the instruction must be an ECALL.
        """
        if self.looks_left and (x or pc in self._code.uncertain):
            self.looks_left -= 1
            sentence = unsupported_call(x or self._guest.query("regs", ScalarRegisters).x)
            if sentence:
                self.report(pc, sentence)
            if self.looks_left == 0 and self._places:
                self._choose_places()

    def has_uncertain(self) -> bool:
        """Return whether the program has an ECALL that may be an unsupported call."""
        self._code.update(self._guest)
        return self.looks_left > 0 and bool(self._code.uncertain)

    def _choose_places(self) -> None:
        """Set breakpoints at all ECALLs if the output is read before each call, and otherwise only at uncertain ECALLs."""
        places = self._code.places if self._stops_at_calls else self._code.uncertain if self.looks_left else ()
        free, own = MAX_BREAKPOINTS - len(self._breaks), [place for place in places if place not in self._breaks]
        self._is_stepping = self._is_stepping or self._stops_at_calls and len(own) > free
        self._set_places(() if self._is_stepping else own[:free])

    def _set_places(self, places: Sequence[int]) -> None:
        """Set breakpoints at these addresses, and remove the earlier ones that aren't the user's."""
        removed, added = set(self._places).difference(places), set(places).difference(self._places)
        commands = [
            *(f"unbreak {place:x}" for place in sorted(removed)),
            *(f"break {place:x}" for place in sorted(added)),
        ]
        self._guest.ask(*commands)
        self._places = places

    def _run_on(self, slices: int) -> tuple[Stop | None, int, bytes]:
        """Grant slices, at most this number. Return the stop that ended them or None, how many were used, and the output."""
        guest, used = self._guest, 0
        guest.ask("go")
        while used < slices:
            granted, stop = self._grant(min(MAX_SLICES, slices - used))
            used += granted
            if stop:
                break
        else:
            stop = self._halt()
        return stop, used, guest.query("out", Output).data

    def _grant(self, number: int) -> tuple[int, Stop | None]:
        """Grant slices, at most this number, to the running program. Return how many were used, and the stop that ended them or None."""
        granted = read(self._guest.session.do(f"* slices {number}"))
        assert isinstance(granted, Granted)
        if not granted.stops:
            return granted.slices, None
        ((_, stop),) = granted.stops
        self._guest.pc = stop.pc
        return granted.slices, stop

    def _halt(self) -> Stop | None:
        """Stop the running program, and return None. If its next slice would stop it at a breakpoint, grant this slice; return the stop."""
        breaks = {*self._breaks, *self._places}
        while breaks and self._guest.query("state", Position).pc in breaks:
            if stop := self._grant(1)[1]:
                return stop
        self._guest.pc = self._guest.query("stop", Position).pc
        return None

    def _step_on(self) -> tuple[Stop | None, int, bytes]:
        """Execute SAFE_STEPS instructions and read their output, several times. Return the same values as `_run_on`."""
        times = 1 if self._breaks else TOGETHER // 2
        answers = self._guest.ask(*[f"step {SAFE_STEPS}", "out"] * times)
        output = b"".join(answer.data for answer in answers if isinstance(answer, Output))
        stop = next((answer for answer in answers if isinstance(answer, Stop)), None)
        self._guest.pc = stop.pc if stop else self._guest.query("state", Position).pc
        if stop is None and self._guest.pc in self._breaks:
            stop = Stop("break", self._guest.pc)
        return stop, self._count_call(len(output)), output

    def _count_call(self, size: int) -> int:
        """Count a stop at a call. Return the number of slices, 0 or 1, that it uses up. size: the call's output in bytes"""
        self.has_exact_ticks = False
        self._calls, self._bytes = self._calls + 1, self._bytes + size
        if self._calls < CALLS_OF_A_SLICE and self._bytes < OUTPUT_BYTES:
            return 0
        self._calls = self._bytes = 0
        return 1

    def _go_back(self, size: int, pc: int) -> None:
        """Go back to the state when the script had `size` bytes, and read the output more often from then on.

        pc: the program counter in this state
        """
        self._guest.go_back(size, pc)
        self._stops_at_calls, self._is_stepping = True, self._stops_at_calls
        self._choose_places()
