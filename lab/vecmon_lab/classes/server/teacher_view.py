"""The teacher's view of a class, and the wall's."""

from typing import NotRequired, TypedDict

from ...machine.session import SCRIPT_BYTES
from ...machine.answers import Run
from ...page.state import State
from ...exercises.check import CheckResult
from .checks import ExerciseTable, OfferedExercise
from ..core.languages import LANGUAGES
from ..core.progress import CheckFailure
from ..core.messages import Hand, SentNotice, SourceResult, SourceView, shown, source_view
from ..core.moments import HistoryView
from .room import Room
from ..core.seat_status import SeatStatus
from ..core.seats import Seat
from ..core.shared_machine import SEAT_BYTES
from ..core.student import Student
from .served_class import Class, Given
from .tab import Tab


class WallView(TypedDict):
    """The wall's view.

    seat: the name of the seat that the wall shows, or ""; stop: the seat's last stop line
    trouble: a text for a banner, or ""
    """

    seat: str
    state: NotRequired[State]
    stop: str
    trouble: str


class SeatView(TypedDict):
    """The teacher's view of a seat. Times are in seconds since 1970.

    tabs: the number of open tabs; active: the time when a tab of the seat made its last request; 0 if none has made one
    status: the status of the seat's program; since: the time when the status began
    line, answer: the last command, and the last line of an answer
    exercise: the name of the open exercise, or ""; exercise_since: the time when the student opened it; 0 if that is unknown
    stuck: whether the student may need help, for one of these reasons: the program has mistakes, has faulted or ran too long; the exercise has
        been open for 10 minutes and 3 tries have failed; the student has made no progress for 10 minutes
    stuck_since: the time at which this began; missing if `stuck` is false
    changed: whether the seat's source differs from its newest version
    used: the number of bytes of the script that the seat has used; hand: the student's raised hand; missing if no hand is up
    """

    name: str
    tabs: int
    active: int
    run: Run
    status: SeatStatus
    since: int
    exercise: str
    exercise_since: int
    changed: bool
    stuck: bool
    stuck_since: NotRequired[int]
    line: str
    answer: str
    used: int
    hand: NotRequired[Hand]


class ClockView(TypedDict):
    """The settings of a machine's clock, as in `Settings`."""

    on: bool
    slices: int
    ms: int
    limit: int


class MachineView(TypedDict):
    """The teacher's view of a machine.

    seats: the seats by digit; script, lines: the numbers of bytes and of lines of the last script; of: the most bytes of a script
    scripts: the number of scripts; digest: the SHA-256 of all answers
    restarts: the number of restarts of the machine's process; loss: the reason of the last restart, or ""
    """

    seats: dict[str, SeatView]
    clock: ClockView
    own_slices: bool
    script: int
    scripts: int
    of: int
    lines: int
    digest: str
    restarts: int
    loss: str
    trouble: str


class Outcome(TypedDict):
    """The work of a seat at its open exercise.

    tries: the number of tries; checking: whether an answer is being checked; told: the result of the last check
    """

    exercise: str
    tries: int
    checking: bool
    told: CheckResult


class TeacherView(TypedDict):
    """The teacher's view.

    class_title: the title of the class; machines: the machines by letter; share: the bytes of the script that a seat may use
    shoulder: the name of the observed seat, or ""; state, history, source: those of the observed seat
    caret: the number of the line in which the observed student typed last, or 0; problems: the problems of the last source that was built
    outcome: the work at the observed seat's open exercise
    wall: the name of the seat on the wall, or ""; address: the address of the class for students, or ""
    course: the exercises that may be turned on; exercises: the results by the exercise's name
    sent: the last messages by number, the oldest first; given: the last given source; missing if it can't be taken back
    unencrypted: whether codes travel unencrypted to other computers
    """

    class_title: str
    machines: dict[str, MachineView]
    share: int
    shoulder: str
    wall: str
    address: str
    course: list[OfferedExercise]
    exercises: dict[str, ExerciseTable]
    failures: list[CheckFailure]
    state: NotRequired[State]
    history: NotRequired[HistoryView]
    source: NotRequired[SourceView]
    caret: NotRequired[int]
    problems: NotRequired[SourceResult]
    outcome: NotRequired[Outcome]
    images: list[str]
    quantum: int
    languages: list[str]
    no_c: str
    unencrypted: bool
    sent: dict[str, SentNotice]
    given: NotRequired[Given]
    trouble: str


def wall_view(members: Class) -> WallView:
    """Return the wall's view, which has no codes, and nothing of other seats."""
    if members.wall is None:
        return {"seat": "", "stop": "", "trouble": ""}
    warning = members.rooms[members.wall.name[0]].warning
    return {
        "seat": members.wall.name,
        "state": shown(members.wall),
        "stop": members.wall.execution.stop,
        "trouble": warning,
    }


def teacher_view(members: Class, tab: Tab) -> TeacherView:
    """Return the teacher's view in a tab."""
    view: TeacherView = {
        "class_title": members.class_title,
        "machines": {letter: _machine_view(members, room) for letter, room in members.rooms.items()},
        "share": SEAT_BYTES,
        "images": list(members.store.images),
        "quantum": members.store.quantum,
        "trouble": " ".join(filter(None, [members.saving.warning, members.store.damage.summary])),
        "shoulder": tab.shoulder.name if tab.shoulder else "",
        "wall": members.wall.name if members.wall else "",
        "address": members.address,
        "languages": [language.name for language in LANGUAGES],
        "no_c": members.builds.no_c,
        "unencrypted": members.is_unencrypted,
        "course": members.checks.offered(),
        "exercises": members.checks.table(),
        "failures": members.checks.exercises.failures,
        "sent": members.notices.sent,
    }
    if tab.shoulder:
        student = members.students[tab.shoulder.name]
        view["state"], view["source"] = shown(tab.shoulder), source_view(
            student.source, tab.shoulder, student.exercises.titles
        )
        view["history"] = student.machine.past.view(tab.shoulder)
        view["caret"], view["problems"] = student.source.caret, student.problems
        if student.source.exercise in student.exercises.by_name:
            view["outcome"] = _outcome(student)
    if members.given:
        view["given"] = members.given
    return view


def _outcome(student: Student) -> Outcome:
    """Return the work of a student at the open exercise."""
    seat, exercise = student.seat.name, student.source.exercise
    progress = student.exercises.progress(seat, exercise)
    is_checked = student.exercises.busy.get(seat) == exercise
    return {"exercise": exercise, "tries": len(progress.tries), "checking": is_checked, "told": progress.last_result}


def _machine_view(members: Class, room: Room) -> MachineView:
    clock = room.clock.settings
    return {
        "seats": {seat.digit: _seat_view(members, seat) for seat in room.seats.users.values()},
        "clock": {"on": clock.on, "slices": clock.slices, "ms": clock.ms, "limit": clock.limit},
        "own_slices": room.own_slices,
        "script": room.session.size,
        "scripts": len(room.scripts.set_up),
        "of": SCRIPT_BYTES,
        "lines": room.session.lines,
        "digest": room.session.digest,
        "restarts": len(room.session.losses),
        "loss": "".join(room.session.losses[-1:]),
        "trouble": room.warning,
    }


def _seat_view(members: Class, seat: Seat) -> SeatView:
    source, stuck_since = members.students[seat.name].source, members.stuck.since(seat.name)
    view: SeatView = {
        "name": members.names.get(seat.name, ""),
        "tabs": sum(tab.who == seat.name for tab in members.tabs),
        "active": int(seat.active),
        "run": seat.state["run"],
        "status": seat.status.value,
        "since": int(seat.status.since),
        "exercise": source.exercise,
        "exercise_since": int(source.opened),
        "changed": source.has_changed,
        "stuck": stuck_since is not None,
        "line": seat.log.command,
        "answer": seat.log.answer,
        "used": seat.used,
    }
    if stuck_since is not None:
        view["stuck_since"] = int(stuck_since)
    if hand := members.hands.of(seat.name):
        view["hand"] = hand
    return view
