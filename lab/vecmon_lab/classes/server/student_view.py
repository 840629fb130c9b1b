"""The view of a student in a class, and the tables of seats and results that the teacher downloads."""

from collections.abc import Sequence

from ..core.names import as_csv, local_time
from ..core.student import ClassView, Student, StudentView, share_warning
from .served_class import Class


def student_view(members: Class, student: Student) -> StudentView:
    """Return what a student's page shows."""
    seat = student.seat
    room = members.rooms[seat.name[0]]
    own_warning = members.store.texts.warning_of(seat.name)
    others: ClassView = {
        "title": members.title,
        "class_title": "" if members.title else members.class_title,
        "name": members.names.get(seat.name, ""),
        "messages": members.notices.of(seat.name),
        "images": list(members.store.images),
        "clock": room.clock.settings.on,
        "own_slices": room.own_slices,
        "no_c": members.builds.no_c,
        "against": members.comparisons.names,
        "ready": not room.thread.rebuilding,
        "trouble": " ".join(filter(None, [room.warning, own_warning, share_warning(seat)])),
    }
    if hand := members.hands.of(seat.name):
        others["hand"] = hand
    windows = len({id(tab.page) for tab in members.tabs if tab.who == seat.name})
    if windows > 1:
        others["windows"] = windows
    if members.examples:
        others["examples"] = members.examples
    return student.view(others)


def seat_table(members: Class) -> bytes:
    """Return the names and the statuses of all seats, as CSV."""
    rows: list[Sequence[object]] = [("seat", "name", "state", "details", "since", "bytes of the script")]
    for seat in members.seats():
        name, since = members.names.get(seat.name, ""), local_time(seat.status.since)
        # "absent" could be read as the student's absence
        run = "no machine" if seat.state["run"] == "absent" else seat.state["run"]
        rows.append((seat.name, name, run, seat.status.value["text"], since, seat.used))
    return as_csv(rows)


def exercise_table(members: Class) -> bytes:
    """Return the results of seats in exercises, as CSV."""
    return as_csv(members.checks.rows(members.names))
