"""Run, step or move back the console's program, and show the changes."""

import itertools
import re
import threading
from collections.abc import Collection, Iterable, Iterator, Sequence

from .. import LabError
from ..assembler.commands import explain_refusal
from ..guest.changes import NAMES, Retired, Change, Stepper
from ..guest.guest import Guest
from ..instructions.accesses import REGISTER_BYTES
from ..instructions.reasons import describe_stop
from ..machine.answers import Addresses, Position, Refused, ProgramState, Stop, read
from ..replay.timeline import Timeline
from ..replay.watches import Watch
from .conditions import REGISTERS, Conditions
from .names import DIGITS, VECTORS, Names, state_of
from .show import Screen, change_rows, change_text

MAX_ROWS = 6  # the most rows that show the changes by a run


class Execution:
    """Executes a user's program up to a stop, a breakpoint whose condition holds, or an interrupt, and prints the changes.

    interrupt: an event that Ctrl-C sets; changes: rows that show the changes by the last run
    has_mask: whether v0 is the mask of the last instruction, if it was stepped
    """

    def __init__(self, guest: Guest, stepper: Stepper, screen: Screen, names: Names, conditions: Conditions) -> None:
        self.interrupt = threading.Event()
        self.changes: list[str] = []
        self.has_mask = False
        self._guest, self._stepper, self._screen = guest, stepper, screen
        self._names, self._conditions = names, conditions
        self._timeline = Timeline(guest, lambda advance: screen.report(advance.sentence))

    def run(self) -> None:
        """Run the program to its next stop, or until Ctrl-C."""
        self._tell_run(self._go())

    def until(self, places: Sequence[str]) -> None:
        """Run the program to its next stop, to one of these addresses, or until Ctrl-C."""
        _, errors = self._guest.ask("stop", "breaks")
        there = errors.addresses if isinstance(errors, Addresses) else ()
        numbers = {place: int(place, 16) if re.fullmatch(DIGITS, place) else -1 for place in places}
        new = [place for place, address in numbers.items() if address not in there]
        lines = [f"{self._guest.user} break {place}" for place in new]
        try:
            for line in lines:
                answer = read(self._guest.session.do(line))
                if isinstance(answer, Refused):
                    self._screen.say(*explain_refusal(line, answer), kind="refused")
                    return
            stop = self._go(numbers.values())
        finally:
            self._guest.ask(*(f"unbreak {place}" for place in new))
        is_there = stop is not None and stop.kind == "break" and stop.pc in (numbers[place] for place in new)
        self._tell_run(None if is_there else stop)

    def until_changed(self, name: str) -> None:
        """Step to the next instruction that changes a register, and print it with its changes. Stop earlier as `step` does.

        name: the register, in `REGISTERS` or `VECTORS`
        """
        self._guest.ask("stop")
        self.look()
        before = self._value(name)
        for retired in self._stepped(itertools.count()):
            if self._value(name) != before:
                self._tell_step(retired)
                break
        self.show_place()

    def step(self, number: int) -> None:
        """Step a number of instructions, and print each with its changes. Stop earlier at a breakpoint, a stop or Ctrl-C."""
        for retired in self._stepped(range(number)):
            self._tell_step(retired)
        self.show_place()

    def back(self, number: int) -> None:
        """Go back a number of instructions."""
        self._guest.ask("stop")
        is_there = self._timeline.back(number, self.interrupt.is_set)
        if is_there is False:
            self._screen.say("This is the start: there is nothing before.")
        if is_there is None:
            self._screen.say("Interrupted: the program stays here.")
        self._tell_changes()

    def back_to_write(self, digits: str) -> None:
        """Go back to the last instruction that changed bytes in memory. If there is none, stay at the current instruction.

        digits: the address of the first byte, in hexadecimal digits. If a symbol is there, the bytes are those of the symbol; otherwise
            they are 8 bytes
        """
        address, symbols = int(digits, 16) if re.fullmatch(DIGITS, digits) else -1, self._names.symbols
        sizes = (symbols.sizes.get(name, 0) for name, at in symbols.addresses.items() if at == address)
        if not 0 <= address < 1 << 48:
            raise LabError(f"{digits} is no address of memory")
        self._guest.ask("stop")
        self._timeline.watches = [Watch("watch", address, max(sizes, default=0) or 8)]
        try:
            is_there = self._timeline.back_to_halt_if_any((), self.interrupt.is_set)
        finally:
            self._timeline.watches = []
        if is_there is None:
            self._screen.say("Interrupted: the program stays here.")
        if is_there is False:
            self._screen.say(
                f"No earlier instruction has changed {self._names.place(address)}; the program stays here."
            )
            self.show_place()
            return
        if is_there:
            self._timeline.back()
        self._tell_changes()

    def look(self) -> list[Change]:
        """Read all registers again if the program is stopped, and return the changes."""
        return self._stepper.look() if state_of(self._guest)[0] == "stopped" else []

    def show_place(self) -> None:
        """Print the next instruction."""
        run, pc = state_of(self._guest)
        if run == "stopped":
            line, text = self._names.symbols.line(pc), self._stepper.fetch(pc)[1]
            self._screen.say(f"=> {self._names.place(pc)}  {text}" + (f"  ({line})" if line else ""))

    def _go(self, addresses: Collection[int] = ()) -> Stop | None:
        """Run the program, and return its stop; None after Ctrl-C.

        A breakpoint stops the program if its condition holds, or if it is at one of `addresses`.
        """
        self._guest.ask("stop")  # it may have gone on in slices of the operator's
        while True:
            stop = self._guest.go(None, self.interrupt.is_set)
            if stop is None or stop.kind != "break" or stop.pc in addresses or self._conditions.hold(stop.pc):
                return stop
            if self.interrupt.is_set():
                return None

    def _stepped(self, numbers: Iterable[int]) -> Iterator[Retired]:
        """Step an instruction for each number, and yield it. Stop at a breakpoint, after Ctrl-C, or if the program stops, and print why.

        numbers: start with 0; a breakpoint at the first instruction is ignored
        """
        breaks = self._guest.query("breaks", Addresses).addresses
        for number in numbers:
            pc, is_interrupted = self._guest.pc, self.interrupt.is_set()
            if is_interrupted or number and pc in breaks and self._conditions.hold(pc):
                self._screen.say(describe_stop(ProgramState("stopped" if is_interrupted else "break", pc)))
                return
            retired = self._stepper.step()
            self.has_mask = retired.text.endswith("v0.t")
            if retired.stop:
                self._screen.say(self._guest.explain(retired.stop))
                return
            yield retired

    def _tell_run(self, stop: Stop | None) -> None:
        """Print why the program stopped, and what has changed since the run began."""
        self._screen.say(self._guest.explain(stop) if stop else describe_stop(Position("stopped", self._guest.pc)))
        self._tell_changes()

    def _tell_changes(self) -> None:
        """Print the changes since the registers were last read, and the next instruction."""
        self.has_mask = False
        self.changes = rows = self._change_rows(self.look())
        if len(rows) > MAX_ROWS:
            rows = [*rows[: MAX_ROWS - 1], f"      and {len(rows) - MAX_ROWS + 1} rows more: see changes"]
        self._screen.say(*rows, kind="changed")
        self.show_place()

    def _tell_step(self, retired: Retired) -> None:
        """Print an instruction that was stepped, with its changes."""
        self._screen.say(f"   {self._names.place(retired.pc)}  {retired.text}")
        self._screen.say(*self._change_rows(retired.changes), kind="changed")

    def _change_rows(self, changes: Sequence[Change]) -> list[str]:
        """Return rows of changes: scalar and control registers share rows; each vector register and memory have their own."""
        rows = list[str]()
        for _, group in itertools.groupby(changes, lambda change: (type(change), getattr(change, "register", 0))):
            rows += change_rows(map(change_text, group), self._screen.width)
        return rows

    def _value(self, name: str) -> object:
        """Return the value that a register had when the registers were last read. name: in `REGISTERS` or `VECTORS`"""
        registers = self._stepper.registers
        if name in VECTORS:
            return bytes(registers.v[VECTORS[name] * REGISTER_BYTES :][:REGISTER_BYTES])
        return registers.values()[NAMES.index(REGISTERS[name])]
