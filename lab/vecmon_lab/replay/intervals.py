"""The instructions of a user's program in intervals, derived from the lines of a script. In an interval, no other program ran."""

from collections.abc import Iterable, Sequence
from dataclasses import dataclass

from ..checkpoints.machine_state import User, follow_line, pages_of
from ..machine.answers import Granted, Position, Refused, read
from ..machine.lines import words_of
from ..machine.session import Session

MAX_TICKS = 256  # of one instruction: a load or store of 256 elements (e8, m8) takes the most


@dataclass
class Interval:
    """Consecutive instructions, between which no line wrote registers or memory.

    start: the size in bytes of the start of the script that brings a machine to the first instruction
    count: the number of instructions; None if slices executed them and they aren't counted yet
    ticks: the ticks of the slices that executed the instructions, which is an upper bound of the ticks that the instructions take
    breaks: the addresses of the user's breakpoints at the start, which are also those during the slices
    has_stopped: whether the program stopped by itself after the last instruction
    continues: whether the interval follows the one before it, and no line wrote registers or memory between them
    maps: the number of `map` commands of the user before the interval
    """

    start: int
    count: int | None
    ticks: int = 0
    breaks: frozenset[int] = frozenset()
    has_stopped: bool = False
    continues: bool = False
    maps: int = 0

    @property
    def work(self) -> int:
        """The cost of executing the interval: its number of instructions, or its ticks if that is larger or the count is unknown."""
        return max(self.count or 0, self.ticks)


class Intervals:
    """The intervals of a user since the user's machine started, derived from the lines of a script and their answers.

    size: the number of bytes of the script that `follow` has taken up
    number: the number of times that the user's machine started
    """

    def __init__(self, user: int, quantum: int) -> None:
        self.size = self.number = 0
        self.intervals = list[Interval]()
        self._user, self._quantum = str(user), quantum
        self._users = dict[str, User]()
        self._has_others = False
        self._breaks = frozenset[int]()
        self._is_written = True  # whether a line has written registers or memory since the last interval
        self._is_running = False

    @property
    def is_alone(self) -> bool:
        """Whether this user is present, and no other user has ever been."""
        return self._user in self._users and not self._has_others

    @property
    def work(self) -> int:
        """The cost of all intervals, in instructions or ticks."""
        return sum(interval.work for interval in self.intervals)

    def user(self, session: Session, interval: Interval | None = None) -> User:
        """Return the user's image and pages at the start of an interval, or the present ones if `interval` is None."""
        now = self._users[self._user]
        user = User(now.image, now.maps[: interval.maps if interval else None], now.has_area)
        user.pages = dict(pages_of(user, session.images))
        return user

    def follow(self, line: str, answer: Sequence[str]) -> None:
        """Take up the next line of the script and its answer."""
        reply, words = read(answer), words_of(line)
        if line[0] == "*" and isinstance(reply, Granted) and self._is_running:
            ends = [stop.kind for user, stop in reply.stops if user == self._user]
            self._is_running = not ends
            self._slices(reply.slices * self._quantum, bool(ends) and ends != ["outfull"])
        elif line[0] != "*" and not isinstance(reply, Refused):
            follow_line(self._users, line)
            self._has_others |= line[0] != self._user
            if line[0] == self._user:
                self._add_command(words[0], words[1:], reply.number if isinstance(reply, Position) else 0)
        self.size += len(line) + 1

    def split(self) -> None:
        """End the current interval, and start a new one that continues it. The program is stopped."""
        self._begin(None).continues = len(self.intervals) > 1

    def join(self, size: int) -> None:
        """Join an interval with the previous interval that it continues, if slices executed both of them or neither.

        size: the number of bytes of the script before the interval
        """
        place = next((number for number, it in enumerate(self.intervals) if it.start == size), 0)
        second, first = self.intervals[place], self.intervals[place - 1]
        if place == 0 or not second.continues or (first.count is None) != (second.count is None):
            return
        if first.count is not None and second.count is not None:
            first.count += second.count
        first.ticks += second.ticks
        first.has_stopped = second.has_stopped
        del self.intervals[place]

    def cut(self, place: int, intervals: Iterable[Interval], size: int, breaks: Iterable[int]) -> None:
        """Replace the intervals from index `place` on, because the script was replaced by one of `size` bytes.

        intervals: the new intervals; breaks: the addresses of the user's breakpoints at the end of the new script
        """
        self.intervals[place:] = intervals
        self.size, self._breaks, self._is_written, self._is_running = size, frozenset(breaks), False, False

    def _add_command(self, command: str, words: Sequence[str], done: int) -> None:
        """Add a user's accepted command.

        words: the command's arguments; done: the number of instructions that a `step` executed
        """
        match command:
            case "step" if done or words == ["1"]:
                self._steps(done)
            case "step":
                self._slices(int(words[0]) * MAX_TICKS, True)
            case "go" | "stop":
                self._is_running = command == "go"
            case "break":
                self._breaks |= {int(words[0], 16)}
            case "unbreak":
                self._breaks -= {int(words[0], 16)}
            case "enter" | "load" | "leave":
                self.intervals, self._breaks, self._is_written, self._is_running = [], frozenset(), True, False
                self.number += 1
            case "set" | "vset" | "setpc" | "poke" | "asm" | "map" | "policy":
                self._is_written = True

    def _steps(self, done: int) -> None:
        """Add instructions that a `step` executed."""
        last = self._last()
        if last is None or last.count is None and last.ticks > 0:
            last = self._begin(0)
        last.count = (last.count or 0) + done

    def _slices(self, ticks: int, has_stopped: bool) -> None:
        """Add slices. ticks: the number of ticks of all of them; has_stopped: whether the program stopped by itself during the slices"""
        last = self._last()
        if ticks == 0:
            return
        if last is None or last.count is not None or last.has_stopped or last.breaks != self._breaks:
            last = self._begin(None)
        last.ticks += ticks
        last.has_stopped = has_stopped

    def _last(self) -> Interval | None:
        """Return the last interval; None if there is none, or if a line has written registers or memory since."""
        return self.intervals[-1] if self.intervals and not self._is_written else None

    def _begin(self, count: int | None) -> Interval:
        """Start an interval, and return it. It replaces the last interval if that has no instructions.

        count: the interval's first number of instructions; None for an interval whose instructions slices execute
        """
        if self.intervals and self.intervals[-1].work == 0:
            self.intervals.pop()
        maps = len(self._users[self._user].maps)
        self.intervals.append(Interval(self.size, count, 0, self._breaks, maps=maps))
        self._is_written = False
        return self.intervals[-1]
