"""The history of a program: the state after any number of its instructions, and the places where it would halt.

The pages, the console, gdb and all other ways to go back use this module. At instruction 0 the program has been loaded, and
nothing has been executed. A history searches the stretches of a run: `OwnLines` is the run of one user among others, and
`WholeScript` is the run of a machine's only user.
"""

from collections.abc import Callable, Generator, Sequence
from dataclasses import dataclass
from functools import partial
from typing import Generic, Protocol, TypeVar

from .. import LabError
from .control import Interrupted
from .watches import Watch

NO_PROGRAM = "there is no program to go back in"

IsDue = Callable[[], bool]
"""Returns whether a call should end without its result, since a user interrupts it, or other work comes first."""
Parts = Generator[None, None, None]
"""Work in parts: a caller may pause, or drop it, after each one."""
Result = TypeVar("Result")
State = TypeVar("State")
OfState = TypeVar("OfState", covariant=True)


class NoWayBack(LabError):
    """The history has no states before some place; the text says why."""


class Stretch(Protocol):
    """Consecutive instructions. count: their number; None until they are counted"""

    count: int | None


@dataclass(frozen=True)
class Halts:
    """The places where a program halts.

    breaks: addresses; the program halts before an instruction there
    watches: watched memory; the program halts at an instruction that accesses or changes it
    """

    breaks: frozenset[int] = frozenset()
    watches: tuple[Watch, ...] = ()


@dataclass(frozen=True)
class Found(Generic[OfState]):
    """The result of a backward search for a halt.

    state: the state at the halt; None if there is no halt
    watch: the watched memory that the halting instruction accesses or changes; None if the halt is at a breakpoint
    """

    state: OfState | None
    watch: Watch | None


class Run(Protocol[OfState]):
    """The instructions that a program has executed since it was loaded, in stretches.

    A place in the run is the index of a stretch and an offset, which is a number of the stretch's instructions. In the methods, `place` is only
    the index of the stretch.

    limit: the largest number of instructions of a way back
    too_far: the text of the error for a longer way back
    needs_counts: whether a stretch can be executed again only if all stretches before it are counted
    """

    limit: int
    too_far: str
    needs_counts: bool

    @property
    def number(self) -> int:
        """The number of times that the run has started anew."""

    @property
    def stretches(self) -> Sequence[Stretch]:
        """The stretches up to the present. Lines that set registers or memory precede the first instruction of a stretch."""

    @property
    def percent(self) -> int:
        """The finished part of the current work in percent."""

    def count(self, place: int, most: int) -> Parts:
        """Count the instructions of a stretch, and set its `count`, which may stay None if there are more than `most`.

        Raises LabError and Interrupted, and so do `state`, `first_halt` and `last_halt`.
        """

    def state(self, place: int, offset: int) -> Generator[None, None, OfState]:
        """Return the state after `offset` instructions of a stretch."""

    def first_halt(self, place: int, offset: int, halts: Halts) -> Generator[None, None, int | None]:
        """Return the first offset of a stretch above `offset` at which the program halts; None if there is none.

        The program halts before the instruction at this offset executes.
        """

    def last_halt(self, place: int, halts: Halts) -> Generator[None, None, tuple[int, Watch | None] | None]:
        """Return the last offset of a stretch at which the program halts, and the watched memory; None if there is no halt.

        For a breakpoint, this is the offset of the instruction that has the breakpoint, with None for the watched memory. For an access to
        watched memory, it is the offset after the instruction that accesses or changes the memory. A breakpoint at the end of the stretch
        doesn't count, since the program is there now, or the next stretch starts there.
        """

    def close(self) -> None:
        """End the run's machines, and drop its saved states."""


class History(Generic[State]):
    """The states of a run.

    A call works until `is_due` returns true, and then returns None. The same call, made again, continues this work. A different
    call, an error or `cancel` drops the work.
    """

    def __init__(self, run: Run[State]) -> None:
        self._run = run
        self._work: Generator[None, None, object] | None = None
        self._wanted: object = None
        self._number = 0  # the run to which the current work belongs
        self._found: tuple[object, int] | None = None  # the last result of `next_halt`, with the arguments of that call

    @property
    def end(self) -> int | None:
        """The number of instructions of the run up to the present; None until all of them are counted."""
        counts = [stretch.count for stretch in self._run.stretches]
        return sum(count for count in counts if count is not None) if None not in counts else None

    def count(self, is_due: IsDue) -> int | None:
        """Return the number of instructions up to the present; None if `is_due` ends the work before. Raises as `at` does."""
        return self._drive("count", self._counted, is_due)

    def at(self, count: int, is_due: IsDue) -> State | None:
        """Return the state after `count` instructions; None if `is_due` ends the work before.

        A negative number counts from the end. A number outside 0 to `end` gives the first or the last state. If lines set registers or memory
        between these instructions and the next one, the state is the one after these lines. Raises NoWayBack, and errors of a session.
        """
        return self._drive(("at", count), partial(self._at, count), is_due)

    def next_halt(self, count: int, halts: Halts, is_due: IsDue) -> int | None:
        """Return the next number of instructions above `count` at which the program halts, or the end.

        The program halts before an instruction that has a breakpoint, and before one that accesses or changes watched memory. Returns None
        if `is_due` ends the work before. A call with the arguments of the last call returns the last result at once. Raises as `at` does.
        """
        if self._found and self._found[0] == (count, halts, self._run.number, self.end):
            return self._found[1]
        found = self._drive(("next", count, halts), partial(self._next_halt, count, halts), is_due)
        if found is not None:
            self._found = (count, halts, self._run.number, self.end), found
        return found

    def last_halt(self, halts: Halts, is_due: IsDue) -> Found[State] | None:
        """Return the last state before the present at which the program halts.

        This state is at a breakpoint, or after an instruction that accesses or changes watched memory. Returns None if `is_due` ends the
        work before. Raises as `at` does.
        """
        return self._drive(("last", halts), partial(self._last_halt, halts), is_due)

    def cancel(self) -> None:
        """Drop the work of a call that `is_due` ended."""
        if self._work:
            self._work.close()
        self._wanted = self._work = None

    def close(self) -> None:
        """End the run's machines, and drop its saved states."""
        self.cancel()
        self._run.close()

    def _drive(self, wanted: object, work: Callable[[], Generator[None, None, Result]], is_due: IsDue) -> Result | None:
        """Continue the current work until it is finished, or until `is_due` returns true. Return the work's result; None if it isn't finished.

        wanted: identifies the work; a different value than before starts the work anew
        work: starts the work
        """
        if self._wanted != wanted or self._number != self._run.number or self._work is None:
            self.cancel()
            self._wanted, self._work, self._number = wanted, work(), self._run.number
        try:
            while True:
                next(self._work)
                if is_due():
                    return None
        except StopIteration as end:
            self._wanted = self._work = None
            result: Result = end.value
            return result
        except Interrupted:
            self.cancel()
            return None
        except NoWayBack:
            self.cancel()
            raise
        except BaseException:
            self.close()
            raise

    def _count(self, place: int, most: int) -> Generator[None, None, int]:
        """Return the number of instructions of a stretch, which is counted first if necessary. Raises NoWayBack if it is above `most`."""
        stretch = self._run.stretches[place]
        if stretch.count is None:
            yield from self._run.count(place, most)
        if stretch.count is None:
            raise NoWayBack(self._run.too_far)
        return stretch.count

    def _counted(self) -> Generator[None, None, int]:
        """Count all stretches; return the number of all instructions."""
        total = 0
        for place, _ in enumerate(self._run.stretches):
            total += yield from self._count(place, self._run.limit - total)
            self._check_limit(total)
        return total

    def _check_limit(self, count: int) -> None:
        """Raise NoWayBack if this number of instructions is above the limit of a way back."""
        if count > self._run.limit:
            raise NoWayBack(self._run.too_far)

    def _at(self, count: int) -> Generator[None, None, State]:
        """Return the state after a number of instructions."""
        if not self._run.stretches:
            raise NoWayBack(NO_PROGRAM)
        if count < 0 and not self._run.needs_counts:
            place, offset = yield from self._find_from_end(-count)
        else:
            end = yield from self._counted()
            place, offset = self._find(max(0, end + count) if count < 0 else min(count, end))
        return (yield from self._run.state(place, offset))

    def _find(self, count: int) -> tuple[int, int]:
        """Return the last place, as a stretch and an offset, before which `count` instructions have executed. All stretches are counted."""
        found, start = (0, 0), 0
        for place, stretch in enumerate(self._run.stretches):
            if start > count:
                break
            found, start = (place, count - start), start + (stretch.count or 0)
        return found

    def _find_from_end(self, number: int) -> Generator[None, None, tuple[int, int]]:
        """Return the last place that is `number` instructions before the present; the first place if there are fewer instructions."""
        passed = 0
        for place in reversed(range(len(self._run.stretches))):
            count = yield from self._count(place, self._run.limit)
            self._check_limit(min(number, passed + count))
            if number <= passed + count:
                return place, passed + count - number
            passed += count
        return 0, 0

    def _next_halt(self, count: int, halts: Halts) -> Generator[None, None, int]:
        """Return the next number of instructions at which the program halts, or the end."""
        end = yield from self._counted()
        place, offset = self._find(min(count, end))
        start = min(count, end) - offset
        for number, stretch in enumerate(self._run.stretches[place:], place):
            if stretch.count and stretch.count > offset:
                found = yield from self._run.first_halt(number, offset, halts)
                if found is not None:
                    return start + found
            start, offset = start + (stretch.count or 0), 0
        return end

    def _last_halt(self, halts: Halts) -> Generator[None, None, Found[State]]:
        """Return the last halt before the present."""
        passed = 0
        for place in reversed(range(len(self._run.stretches))):
            count = yield from self._count(place, self._run.limit)
            found = yield from self._run.last_halt(place, halts)
            if found:
                offset, watch = found
                return Found((yield from self._run.state(place, offset)), watch)
            passed += count
            self._check_limit(passed)
        return Found(None, None)
