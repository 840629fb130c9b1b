"""Earlier states of the programs of a machine's seats, found by replays on private machines."""

import time
from collections.abc import Callable, Mapping, Sequence

from ... import LabError
from ...machine.session import Session
from ...replay.histories import Histories, UserHistory
from ...replay.history import Halts, IsDue
from .bad_request import BadRequest
from .moments import Budget, HistoryView, PastResult, moment_at
from .seats import Seat
from .steps import Replay, Steps, TakeSeat

REPLAY_SECONDS = 0.2  # the time of one part of a replay
NO_PAST = "there is no earlier state: the program runs, or there is none"


class Past:
    """The histories of a machine's users.

    budgets: the budgets of replays, by the user's digit; a user without a budget may replay without a limit
    replay_pause: called when a part of a replay starts; returns a function that reports whether the time of this part is over
    """

    def __init__(self, quantum: int, open_machine: Callable[[], Session]) -> None:
        """quantum: ticks of a slice; open_machine: returns a new machine with the images of the present one"""
        self._histories = Histories(quantum, open_machine)
        self.budgets: Mapping[str, Budget] = {}
        self.replay_pause: Callable[[], IsDue] = _pause
        self._restored = 0  # the number of lines that `follow_restored` has recorded

    def follow(self, line: str, answer: Sequence[str]) -> None:
        """Record an executed line and its answer."""
        self._histories.follow(line, answer)

    def follow_restored(self, set_up: int, lines: Sequence[str], answers: Sequence[str]) -> None:
        """Record the next lines that an earlier server has executed, and their answers.

        set_up: the number of lines at the start of the script that set the machine up
        """
        for line, answer in zip(lines, answers):
            if self._restored in (0, set_up):
                self._histories.set_up(self._restored < set_up)
            self._restored += 1
            self._histories.follow(line, answer.split("\n"))
        self._histories.set_up(self._restored < set_up)

    def view(self, seat: Seat) -> HistoryView:
        """Return the number of a seat's history, and its end, if that is known."""
        history = self._histories.users[seat.digit]
        end = history.end
        return {"number": history.run.number} if end is None else {"number": history.run.number, "end": end}

    def moment(self, seat: Seat, at: int, to_break: bool) -> Steps[PastResult]:
        """Return an earlier state of a seat's program, or the progress of the replay that finds it.

        at: the number of instructions before the state; to_break: whether to return instead the first state after it that is at a breakpoint

        Raises BadRequest if there is no stopped program, if the seat's budget is used up, or if the replay fails.
        """
        yield TakeSeat()
        if seat.state["run"] != "stopped":
            raise BadRequest(NO_PAST)
        history, budget = self._histories.users[seat.digit], self.budgets.get(seat.digit)
        found, executed = list[PastResult](), history.run.executed
        if budget:
            budget.check()
        try:
            yield Replay(lambda: found.append(self._moment(seat, history, at, to_break)))
        except LabError as error:
            raise BadRequest(str(error)) from error
        finally:
            if budget:
                budget.spend(history.run.executed - executed)
        return found[0]

    def close(self) -> None:
        """End the private machines."""
        self._histories.close()

    def _moment(self, seat: Seat, history: UserHistory, at: int, to_break: bool) -> PastResult:
        """Execute a part of a replay. Return the moment, or the progress if the time of the part is over before the moment is found."""
        is_due = self.replay_pause()
        if to_break:
            place = history.next_halt(at, Halts(frozenset(seat.display.watch_set.breaks)), is_due)
            if place is None:
                return {"number": history.run.number, "percent": history.run.percent}
            at = place
        return moment_at(seat, history, at, is_due)


def _pause() -> IsDue:
    """Return a function that reports whether REPLAY_SECONDS have passed since this call."""
    start = time.monotonic()
    return lambda: time.monotonic() - start > REPLAY_SECONDS
