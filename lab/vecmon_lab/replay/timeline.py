"""A guest that goes back to earlier states of its run, and to instructions that access watched memory, for gdb and the console.

When the guest goes back, it forgets the later states. `History` finds the way; this module moves the guest, and runs it forward.
"""

import contextlib
from collections.abc import Callable, Iterator, Sequence

from ..guest.guest import MAX_STEPS, Guest
from ..guest.runner import MAX_SLICES, OUTPUT_BYTES, SAFE_STEPS
from ..machine.answers import Addresses, Position, Stop
from .control import Advance, Control, Interrupted, never
from .history import Halts, History
from .intervals import MAX_TICKS
from .recorded import Halt, Search
from .watches import Watch, accessed
from .whole_script import Replay, WholeScript

FEW = 16  # instructions that execute on the machine itself before the recorder runs
# Ticks of the recorder's shortest and of its first search. The output of the shortest one fits into the buffer.
MIN_TICKS, FIRST_TICKS = 4, 256
# Largest number of ticks with a log of all instructions, and without one.
LOGGED_TICKS, SEARCHED_TICKS = 1 << 20, 1 << 24
GROWTH = 8  # factor between the ticks of two successive searches

Report = Callable[[Advance], object]
"""Is given the progress of work that takes more than two seconds."""


class Timeline:
    """The states of a guest's run. The guest itself has the last state.

    watches: watched memory. `go`, `step`, `back` and `back_to_halt` stop at an instruction that accesses or changes it, before the
    instruction executes. When they go back, they stop after such an instruction. gdb expects this for RISC-V.
    hit: the watched memory at which the last of these calls stopped; None if it stopped for another reason
    run: the guest's run, with the saved states from which a replay may start
    """

    def __init__(self, guest: Guest, report: Report = lambda advance: None) -> None:
        """report: is called with the progress of a search or replay after two seconds, and every two seconds after that"""
        self.watches = list[Watch]()
        self.hit: Watch | None = None
        self.run = WholeScript(guest)
        self._guest, self._report = guest, report
        self._history: History[Replay] = History(self.run)

    def go(self, is_interrupted: Callable[[], bool]) -> Stop | None:
        """Run the program to a stop, or to an instruction that accesses or changes watched memory.

        Returns the stop; None if the run is interrupted before it stops.
        """
        breaks = self._breaks()
        for _ in range(FEW if self.watches else 1):  # gdb steps past a breakpoint in this way
            if (stop := self.step()) or self._guest.pc in breaks:
                return stop or Stop("break", self._guest.pc)
        if not self.watches:
            return self._guest.go(None, is_interrupted)
        try:
            return self._go_far(breaks, self._control(is_interrupted, "searching for an access"))
        except Interrupted:
            self._guest.pc = self._guest.query("state", Position).pc
            return None

    def step(self) -> Stop | None:
        """Execute one instruction, unless it may access or change watched memory. Return the stop, or None if the instruction executed."""
        word = self._guest.word_at(self._guest.pc)[0] if self.watches else 0
        self.hit = accessed(self.watches, self._guest, word)
        stop = Stop("break", self._guest.pc) if self.hit else self._guest.step()
        self._guest.empty_buffer()
        return stop

    def count(self, is_interrupted: Callable[[], bool] = never) -> int:
        """Return the number of instructions since the first state. Raises LabError and Interrupted."""
        self.run.control = self._control(is_interrupted, "counting instructions")
        count = self._history.count(is_interrupted)
        if count is None:
            self._history.cancel()
            raise Interrupted
        return count

    def at(self, number: int, is_interrupted: Callable[[], bool] = never) -> bool | None:
        """Go back to the state after the run's first `number` instructions. Returns and raises as `back` does."""
        try:
            return self.back(self.count(is_interrupted) - number, is_interrupted)
        except Interrupted:
            return None

    def back(self, number: int = 1, is_interrupted: Callable[[], bool] = never) -> bool | None:
        """Go back by a number of instructions; return True.

        If fewer instructions have executed, the guest goes to the first state, and False is returned. If the call is interrupted, the guest
        doesn't move, and None is returned. Raises LabError.
        """
        before, self.hit = self._watched_values(), None
        is_there = self._go_back(number, is_interrupted)
        if is_there and self.watches:
            word, now = self._guest.word_at(self._guest.pc)[0], self._watched_values()
            changed = next((watch for watch in before if before[watch] != now[watch]), None)
            if hit := changed or accessed([each for each in self.watches if each not in now], self._guest, word):
                self._guest.step()
                self.hit = hit
        return is_there

    @contextlib.contextmanager
    def before(self, is_interrupted: Callable[[], bool] = never) -> Iterator[Guest | None]:
        """Yield a guest on a separate session, in the state before the last instruction; the timeline's guest doesn't move.

        Yields None if no instruction was executed, or if the search is interrupted. Raises LabError.
        """
        self.run.control = self._control(is_interrupted, "going back")
        replay = None if self.run.is_at_start else self._history.at(-1, is_interrupted)
        if replay is None:
            self._history.cancel()
            yield None
            return
        try:
            yield replay.guest
        finally:
            replay.close()

    def back_to_halt(self, breaks: Sequence[int], is_interrupted: Callable[[], bool]) -> bool | None:
        """Do the same as `back_to_halt_if_any`, but go back to the start of the run, and return False, if there is no such place."""
        is_there = self.back_to_halt_if_any(breaks, is_interrupted)
        if is_there is False and not self.run.is_at_start:
            self.run.control = Control()
            self._take_over(self._history.at(0, never))
        return is_there

    def back_to_halt_if_any(self, breaks: Sequence[int], is_interrupted: Callable[[], bool]) -> bool | None:
        """Go back to the last breakpoint, or to the state after the last instruction that accesses or changes watched memory.

        breaks: the addresses of breakpoints

        Returns whether there is such a place; None if the search is interrupted. The guest moves only if there is such a place. Raises
        LabError.
        """
        self.hit, self.run.control = None, self._control(is_interrupted, "searching backwards")
        found = self._history.last_halt(Halts(frozenset(breaks), tuple(self.watches)), is_interrupted)
        if found is None:
            self._history.cancel()
            return None
        if found.state is None:
            return False
        self._take_over(found.state)
        self.hit = found.watch
        return True

    def _go_back(self, number: int, is_interrupted: Callable[[], bool]) -> bool | None:
        """Do the same as `back`, without regard to watched memory. In the first state, changes that lines have made there aren't undone."""
        self.run.control = self._control(is_interrupted, "going back")
        if number <= 0 or self.run.is_at_start:
            return number <= 0
        replay = self._history.at(-number, is_interrupted)
        if replay is None:
            self._history.cancel()
            return None
        end = self._history.end
        self._take_over(replay)
        return end is None or number <= end

    def _take_over(self, replay: Replay | None) -> None:
        """Move the guest to an earlier state."""
        assert replay is not None
        self.run.take_over(replay)

    def _go_far(self, breaks: Sequence[int], control: Control) -> Stop | None:
        """Do the same as `go` for a program with watched memory. The recorder determines how far the program may run.

        breaks: the addresses of breakpoints. Raises Interrupted.
        """
        is_logged, ticks, passed = any(each.kind != "watch" for each in self.watches), FIRST_TICKS, 0
        is_near = True  # whether a halt may be near, so that the program is stepped to it
        while True:
            control.advance(passed, 0)
            search = Search(self.run.present(), self.watches, breaks, control)
            if is_logged or is_near:
                is_over, stop = self._go_near(search, ticks, breaks)
                if is_over:
                    return stop
                end, is_passed = ticks, True
            else:
                done, changes, _ = search.first_change(ticks)
                end = min([done.ticks, ticks, *(change.ticks for change in changes)])
                stop, is_passed = self._pass_ticks(end - MAX_TICKS, control)
                if stop:
                    return stop
                is_logged = not is_passed
            passed += end
            self.run.save_if_due()
            is_near = end < ticks or not is_passed
            near, most = self._guest.session.quantum + 2 * MAX_TICKS, LOGGED_TICKS if is_logged else SEARCHED_TICKS
            ticks = near if is_near else min(GROWTH * ticks, most)

    def _go_near(self, search: Search, ticks: int, breaks: Sequence[int]) -> tuple[bool, Stop | None]:
        """Run the program for a number of ticks, or to the first halt or stop.

        Returns whether there was a halt or a stop, and the stop to report. The second is None if there is nothing to report.
        """
        guest = self._guest
        done, halts, written = search.first(ticks)
        end = done.instructions - (isinstance(done.end, Stop) and done.end.kind == "exit")
        before = [Halt(halt.number - 1, halt.watch) for halt in halts]
        first = min(before or [Halt(end, None)], key=lambda halt: halt.number)
        self.hit = first.watch
        # a system call may find less room in this buffer than in the recorder's
        guest.pass_over(first.number, MAX_STEPS if written <= OUTPUT_BYTES else SAFE_STEPS)
        if halts or guest.pc in breaks:
            return True, Stop("break", guest.pc)
        if isinstance(done.end, Stop):
            return True, self.step()
        return False, None

    def _pass_ticks(self, ticks: int, control: Control) -> tuple[Stop | None, bool]:
        """Run the program in whole slices for at most a number of ticks.

        Returns its stop (None if it didn't stop), and whether the output buffer had room for all output. Raises Interrupted.
        """
        left, at_once = max(0, ticks) // self._guest.session.quantum, MAX_SLICES
        while left:
            control.check()
            number = min(left, at_once)
            stop, is_passed = self._guest.runner.pass_slices(number)
            if stop or not is_passed and number == 1:
                return stop, is_passed
            left -= number if is_passed else 0
            at_once = at_once if is_passed else max(1, number // 4)
            self.run.save_if_due()
        return None, True

    def _breaks(self) -> Sequence[int]:
        """The addresses of breakpoints."""
        return self._guest.query("breaks", Addresses).addresses

    def _watched_values(self) -> dict[Watch, bytes]:
        """The contents of memory that is watched for changes."""
        changes = [watch for watch in self.watches if watch.kind == "watch"]
        return {watch: self._guest.peek(watch.address, watch.length) for watch in changes}

    def _control(self, is_interrupted: Callable[[], bool], what: str) -> Control:
        """Return a control that ends work if it is interrupted, and reports its progress. what: a description of the work"""

        def report(done: int, whole: int) -> None:
            self._report(Advance(what, done, whole if whole > done else 0))

        return Control(is_interrupted, report)
