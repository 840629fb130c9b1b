"""The histories of all users of a machine, which follow the lines of its script."""

from collections.abc import Callable, Sequence

from ..machine.answers import Granted, read
from ..machine.lines import DIGITS, is_look, words_of
from ..machine.session import Session
from .history import History
from .own_lines import Instant, OwnLines


class UserHistory(History[Instant]):
    """The history of one user of a machine. run: the run of the user's program, which receives the user's lines"""

    def __init__(self, run: OwnLines) -> None:
        super().__init__(run)
        self.run = run


class Histories:
    """The histories of a machine's users, by digit."""

    def __init__(self, quantum: int, opening: Callable[[], Session]) -> None:
        """opening: opens a session on a new machine with the same images and quantum"""
        self.users = {digit: UserHistory(OwnLines(digit, quantum, opening)) for digit in DIGITS}
        self._shares = Shares()

    def follow(self, line: str, answer: Sequence[str]) -> None:
        """Take up the next line of the script and its answer."""
        if line[0] != "*":
            if not is_look(line):
                self._follow_users(line, answer)
            return
        granted = read(answer)
        if isinstance(granted, Granted):
            running = {digit for digit, history in self.users.items() if history.run.legs.is_running}
            stops = dict(granted.stops)
            for digit, slices in self._shares.of(line, granted, running).items():
                self.users[digit].run.legs.grant(slices, stops.get(digit))

    def _follow_users(self, line: str, answer: Sequence[str]) -> None:
        history = self.users[line[0]]
        number = history.run.number
        history.run.legs.follow(line, answer)
        if history.run.number != number:
            history.close()

    def set_up(self, is_on: bool) -> None:
        """Note that lines of a checkpoint follow (`is_on` is true), or that they have ended."""
        for history in self.users.values():
            history.run.legs.set_up(is_on)

    def close(self) -> None:
        """End all private machines."""
        for history in self.users.values():
            history.close()


class Shares:
    """The number of slices that each user is granted. Turns go round among the users whose programs run."""

    def __init__(self) -> None:
        self._last: str | None = DIGITS[-1]  # the user of the last turn; None if unknown

    def of(self, line: str, granted: Granted, running: set[str]) -> dict[str, int | None]:
        """Return the number of slices that an operator's line grants to each user, by the user's digit.

        A number is None if it is unknown: if several programs ran and one of them stopped, or if the user of the last turn is unknown.

        granted: the answer to the line
        running: the digits of the users whose programs ran before the line
        """
        words = words_of(line)
        if not granted.slices or not running:
            return {}
        if words[0] == "run":
            return {words[1]: granted.slices}
        if len(running) == 1:
            (self._last,) = running
            return {self._last: granted.slices}
        rounds, rest = divmod(granted.slices, len(running))
        if granted.stops or rest and self._last is None:
            self._last = None
            return dict.fromkeys(running)
        place = DIGITS.index(self._last or DIGITS[0]) + 1
        order = [digit for digit in DIGITS[place:] + DIGITS[:place] if digit in running]
        self._last = order[rest - 1] if self._last else None
        return {digit: rounds + (place < rest) for place, digit in enumerate(order)}
