"""The lines at a machine before its server started, and the part of them that its seats receive."""

from collections import Counter, deque
from collections.abc import Iterator, Mapping, Sequence
from itertools import chain, islice

from ...machine.answers import first_word, is_empty_output
from ...machine.lines import DIGITS, command_of, words_of
from ...machine.session import Session
from .live import is_servers
from .seat_log import LOG_ENTRIES
from .seats import Seats, may_change

Numbered = tuple[int, str, str]
"""A line with its number and its answer, which has newlines between its lines."""

_BEGINNINGS = {"entered", "left", "loaded"}  # first words of answers after which a user's machine is new
_TURNS = {"running", "break", "ebreak", "outfull", "exit", "fault"}  # first words of answers that replace the last stop
_PLACES = {"map", "poke", "asm", "break", "unbreak"}  # commands that name places of memory
_GRANTS = {"* slices", "* run"}  # commands that grant slices


class History:
    """The lines of a script that determine what seats show. A script may have a million lines, so most of them are only counted.

    For each seat, the history stores its last lines, the line with its last stop, and those lines since its machine began
    that name places of memory or collect output.
    """

    def __init__(self, set_up: int, stops: Mapping[str, str]) -> None:
        """set_up: the number of lines at the start that set the machine up as an earlier script left it

        stops: the last stops of users after these lines, by digit (`Seats.stops`)
        """
        self._set_up, self._stops, self._count = set_up, stops, 0
        self._lines: Counter[str] = Counter()  # the lines after the set-up, and how often each was executed
        self._last = {digit: deque[Numbered](maxlen=LOG_ENTRIES) for digit in f"{DIGITS}*"}
        self._turns: dict[str, Numbered] = {}
        self._output = {digit: deque[Numbered](maxlen=LOG_ENTRIES) for digit in DIGITS}
        self._places: dict[str, list[Numbered]] = {digit: [] for digit in DIGITS}

    def add(self, lines: Sequence[str], answers: Sequence[str]) -> None:
        """Record the next lines and their answers."""
        first, last = max(0, self._set_up - self._count), self._last
        block = zip(range(self._count, self._count + len(lines)), lines, answers)
        for done in islice(block, first):
            self._add_set_up(done)
        for done in block:
            if first_word(done[2]) == "stepped":  # the most frequent answer
                last[done[2][0]].append(done)
            else:
                self._add(done)
        self._count += len(lines)
        self._lines.update(lines[first:])

    def _add(self, done: Numbered) -> None:
        """Record a line that comes after the lines that set the machine up."""
        _, line, answer = done
        digit = line[0]
        if digit == "*":
            for stop in answer.split("\n")[:-1]:
                if first_word(stop) != "outfull":  # a program without an end fills its buffer again and again
                    self._last[stop[0]].append(done)
                self._turns[stop[0]] = done
            self._last[digit].append(done)
            return
        if is_servers(line):
            if not is_empty_output(answer):
                self._output[digit].append(done)
            return
        self._last[digit].append(done)
        word = first_word(answer)
        if word in _BEGINNINGS:
            self._places[digit] = [done]
            self._output[digit].clear()
            self._turns[digit] = done
        elif word in _TURNS:
            self._turns[digit] = done
        elif word == "out":
            self._output[digit].append(done)
        elif command_of(line) in _PLACES:
            self._places[digit].append(done)

    def _add_set_up(self, done: Numbered) -> None:
        """Record a line that sets the machine up. It is stored only if it names a place of memory that the seat watches."""
        _, line, answer = done
        digit = line[0]
        if first_word(answer) in _BEGINNINGS:
            self._places[digit] = []
        if digit in self._places:
            self._places[digit].append(done)

    def restore(self, seats: Seats, session: Session) -> None:
        """Bring new seats to the state after the lines. session: the machine that has executed the lines"""
        for digit, stop in self._stops.items():
            execution = seats.users[digit].execution
            execution.stop, execution.has_started = stop, True
        self.tell(seats)
        stops = [(f"{digit} state", [f"{digit} {seats.users[digit].execution.stop}"]) for digit in self._stopped(seats)]
        seats.take(seats.look(session, stops, DIGITS))

    def _stopped(self, seats: Seats) -> Iterator[str]:
        """Return the digits of users whose programs stopped by themselves, and who have changed nothing since."""
        for digit in DIGITS:
            number = self._turns[digit][0] if digit in self._turns else -1
            later = [done for done in self._last[digit] if done[0] > number and not is_servers(done[1])]
            has_changed = any(may_change(line, answer.split("\n")) for _, line, answer in later)
            if seats.users[digit].execution.stop and not has_changed:
                yield digit

    def tell(self, seats: Seats) -> None:
        """Pass the recorded lines to new seats, and count the bytes of the script that each seat has used."""
        for _, line, answer in chain(*self._places.values()):
            seats.follow(line, answer.split("\n"))
        stored = {done[0]: done for done in chain(self._turns.values(), *self._last.values(), *self._output.values())}
        for number in sorted(stored):
            _, line, answer = stored[number]
            seats.observe(line, answer.split("\n"), is_reported=command_of(line) not in _GRANTS)
        used = Counter[str]()
        for line, times in self._lines.items():
            payer = "".join(words_of(line)[1:2]) if command_of(line) == "* run" else line[0]
            used[payer] += 0 if is_servers(line) else times * (len(line) + 1)
        for seat in seats.users.values():
            seat.used = used[seat.digit]
