"""The status of a seat's program, for the teacher's table: its kind, numbers that belong to it, and a text."""

import time
from dataclasses import dataclass, field
from typing import Literal, NotRequired, TypedDict

from ...instructions.reasons import has_elements
from ...machine.answers import Stop, read
from ...page.state import State
from ...page.build.texts import page_text

StatusKind = Literal[
    "none", "problems", "running", "paused", "breakpoint", "ebreak", "ended", "output", "fault", "limit"
]


class SeatStatus(TypedDict):
    """The status of a seat's program.

    kind: `none` without a program; `problems` if the last source has mistakes and isn't in the machine; `paused` before an instruction;
        `breakpoint`, `ebreak`, `ended` or `fault` after a stop; `output` while the output buffer is full; `limit` if the server has
        stopped the program, since it ran too long, or since nobody looked at it
    text: the same in a few words
    count: the number of mistakes; exit: the exit status of the program
    instruction: the mnemonic of the instruction at the program counter, if it is known
    element: the index of the element at which a vector access faults
    """

    kind: StatusKind
    text: str
    count: NotRequired[int]
    exit: NotRequired[int]
    instruction: NotRequired[str]
    element: NotRequired[int]


STUCK_KINDS = ("problems", "fault", "limit")  # a student whose program has such a status may need help
_KINDS: dict[str, StatusKind] = {
    "break": "breakpoint",
    "ebreak": "ebreak",
    "outfull": "output",
}
_WORDS: dict[StatusKind, str] = {
    "none": page_text("status.not-begun"),
    "running": page_text("status.running"),
    "paused": page_text("status.paused"),
    "breakpoint": page_text("status.breakpoint"),
    "ebreak": page_text("status.ended"),
    "ended": page_text("status.ended"),
    "output": page_text("status.output"),
    "fault": page_text("status.fault"),
    "limit": page_text("status.limit"),
}
NO_STATUS: SeatStatus = {"kind": "none", "text": _WORDS["none"]}
LIMIT_STATUS: SeatStatus = {"kind": "limit", "text": _WORDS["limit"]}


@dataclass(eq=False)
class CurrentStatus:
    """The present status of a seat's program. since: when the status began, in seconds since 1970"""

    value: SeatStatus = field(default_factory=NO_STATUS.copy)
    since: float = field(default_factory=time.time)

    def set(self, value: SeatStatus) -> None:
        """Set the status from now on."""
        self.value, self.since = value, time.time()

    @property
    def is_stuck(self) -> bool:
        """Whether the student may need help."""
        return self.value["kind"] in STUCK_KINDS


def problems_status(count: int) -> SeatStatus:
    """Return the status after a source with mistakes. count: the number of mistakes"""
    form = "one" if count == 1 else "other"
    return {"kind": "problems", "text": page_text(f"status.problems.{form}", count=count), "count": count}


def status_of(state: State, last: str) -> SeatStatus:
    """Return the status of a program in a state. last: its last stop line, without the digit"""
    if state["run"] != "stopped":
        return {"kind": "running", "text": _WORDS["running"]} if state["run"] == "running" else NO_STATUS
    line = state["code"].get(state["pc"], "")
    word, name = int(line[:8], 16) if line else None, line[9:].partition(" ")[0]
    stop = read([f"1 {last}"]) if last else None
    if not isinstance(stop, Stop) or f"{stop.pc:x}" != state["pc"]:
        status = _status("paused", name)
    else:
        status = _stop_status(stop, word, state["vstart"], name)
    if name:
        status["instruction"] = name
    return status


def _stop_status(stop: Stop, word: int | None, vstart: int, name: str) -> SeatStatus:
    """Return the status after a stop.

    word, name: the word and the mnemonic of the instruction at the program counter; vstart: the value of vstart
    """
    if stop.kind == "exit":
        number = [page_text("status.exit", exit=stop.number)] if stop.number else []
        return {"kind": "ended", "text": " ".join([_WORDS["ended"], *number]), "exit": stop.number}
    if stop.kind != "fault":
        return {"kind": _KINDS[stop.kind], "text": _WORDS[_KINDS[stop.kind]]}
    if not has_elements(stop, word):
        return _status("fault", name)
    status = _status("fault", ", ".join([name, page_text("status.element", element=vstart)]))
    status["element"] = vstart
    return status


def _status(kind: StatusKind, place: str) -> SeatStatus:
    """Return the status of a program. place: describes the instruction at the program counter; "" if it is unknown"""
    return {"kind": kind, "text": ": ".join(filter(None, [_WORDS[kind], place]))}
