"""Earlier states of a seat's program, found by executing the seat's lines again on a private machine."""

import copy
import time
from collections.abc import Callable, Sequence
from typing import NotRequired, TypedDict

from ...machine.answers import Answer, Position
from ...page.register_groups import RegisterGroups
from ...page.state import State, WatchSet, add_last_instruction, look_at
from ...replay.histories import UserHistory
from ...replay.history import IsDue
from ...replay.own_lines import Instant
from .bad_request import BadRequest
from .execution import Condition, condition_after, output_blocks
from .seats import Seat

SHARE = 500_000_000  # instructions that a seat's replays may execute at once
REFILL = 5_000_000  # instructions by which the rest of the share grows each second


class HistoryView(TypedDict):
    """The history of a seat's program.

    number: the number of the history; another program has a history with another number
    end: the number of instructions that the program has executed; missing until they are counted
    """

    number: int
    end: NotRequired[int]


class Moment(TypedDict):
    """An earlier state of a program.

    at: the number of instructions before this state; end: the number of instructions before the present state
    state, before: this state, and the state before its last instruction, both without the names of the source and without breakpoints
    condition: the condition of the machine in this state
    """

    at: int
    end: int
    state: State
    before: State
    condition: Condition


class PastResult(TypedDict):
    """A moment, or the progress of the replay that finds it. Another request for the same moment continues the replay.

    number: the number of the history; moment: the moment; missing if it is the present
    percent: the progress of the replay; missing if the replay is complete
    text, language: the source in the machine, if the seat's source differs from it
    """

    number: int
    moment: NotRequired[Moment]
    percent: NotRequired[int]
    text: NotRequired[str]
    language: NotRequired[int]


class Budget:
    """The number of instructions that a seat's replays may still execute. It starts at `share`, and each second it grows, up to `share`."""

    def __init__(self, share: int = SHARE, refill: int = REFILL, now: Callable[[], float] = time.monotonic) -> None:
        """share: the largest number of instructions; refill: the instructions that are added each second; now: returns the time in seconds"""
        self._share, self._refill, self._now = share, refill, now
        self._left, self._since = float(share), now()

    def check(self) -> None:
        """Raise BadRequest if the budget is used up."""
        now = self._now()
        self._left = min(self._share, self._left + self._refill * (now - self._since))
        self._since = now
        if self._left <= 0:
            seconds = 1 + int((self._share / 10 - self._left) / self._refill)
            raise BadRequest(f"going back has used up this seat's share of the processor: try again in {seconds} s")

    def spend(self, instructions: int) -> None:
        """Subtract instructions that were executed. The rest of the budget may become negative."""
        self._left -= instructions


def moment_at(seat: Seat, history: UserHistory, at: int, is_due: IsDue) -> PastResult:
    """Return the moment after `at` instructions, or the progress of the replay if the time is over before the moment is found.

    at: if it is negative, it counts back from the end; is_due: returns whether the time is over

    The result has no moment if `at` is the present or later. Raises LabError if the replay fails.
    """
    number, end = history.run.number, history.count(is_due)
    if end is None:
        return {"number": number, "percent": history.run.percent}
    at = max(0, end + at) if at < 0 else at
    if at >= end:
        return {"number": number}
    earlier = history.at(max(0, at - 1), is_due)
    if earlier is None:
        return {"number": number, "percent": history.run.percent}
    watch_set = copy.deepcopy(seat.display.watch_set)
    watch_set.groups = RegisterGroups()  # the copied groups are those at the present program counter
    before = _state_of(earlier, watch_set, {"run": "absent"})
    state = before
    instant: Instant | None = earlier
    if at > 0:
        instant = history.at(at, _never)
        assert instant is not None
        state = _state_of(instant, watch_set, before, _answers(instant))
    assert instant is not None
    if at == 0 or instant.is_written:
        state.pop("instruction", None)
    elif "instruction" in state:
        add_last_instruction(state, before)
    if instant.output:
        state["outputs"] = output_blocks({}, instant.output.hex())
    moment: Moment = {
        "at": at,
        "end": end,
        "state": seat.display.with_rows(state),
        "before": seat.display.with_rows(before),
        "condition": condition_after(instant.stop, has_started=at > 0),
    }
    return {"number": number, "moment": moment}


def _never() -> bool:
    return False


def _answers(instant: Instant) -> Sequence[Answer]:
    """Return the answers to the step that led to an instant."""
    pc = instant.guest.query("state", Position).pc
    return [Position("stepped", pc, 1), *([instant.stop] if instant.stop else [])]


def _state_of(instant: Instant, watch_set: WatchSet, before: State, answers: Sequence[Answer] = ()) -> State:
    """Return the state at an instant.

    before: the state before this one; answers: the answers to the step that led to the instant
    """
    state = look_at(instant.guest, watch_set, before, answers)
    state.pop("output", None)
    state.pop("breaks", None)
    return state
