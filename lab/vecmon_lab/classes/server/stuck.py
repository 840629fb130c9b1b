"""Students of a class who may need help, and since when. Their programs, their tries and their progress show this."""

from collections import defaultdict
from collections.abc import Collection, Mapping

from ..core.progress import Exercises
from ..core.student import Student
from .headway import Headway
from .tab import Tab


class StuckStudents:
    """Finds the students who may need help."""

    def __init__(self, students: Mapping[str, Student], exercises: Exercises, tabs: Collection[Tab]) -> None:
        """students: the students by seat; tabs: the open tabs"""
        self._students, self._exercises, self._tabs = students, exercises, tabs
        self._headway = defaultdict[str, Headway](Headway)
        self._stuck: list[str] = []  # the seats at the last look

    def since(self, seat: str) -> float | None:
        """Return since when the student at a seat may need help, in seconds since 1970; None if the student isn't stuck."""
        student = self._students[seat]
        status, source = student.seat.status, student.source
        by_exercise = self._exercises.stuck_since(seat, source.exercise, source.opened)
        by_headway = self._headway[seat].stuck_since() if self._is_at_work(seat) else None
        times = (status.since if status.is_stuck else None, by_exercise, by_headway)
        return min((since for since in times if since is not None), default=None)

    def look(self) -> bool:
        """Record the progress of all students who work at an exercise, and update the list of stuck students. Return whether the list has changed."""
        for name, student in self._students.items():
            if not self._is_at_work(name):
                self._headway[name].restart()
                continue
            source = student.source
            best = self._exercises.progress(name, source.exercise).best
            pc = student.seat.state.get("pc", "")
            self._headway[name].follow(source.exercise, source.own.text, pc, best)
        before, self._stuck = self._stuck, [name for name in self._students if self.since(name)]
        return self._stuck != before

    def _is_at_work(self, seat: str) -> bool:
        """Return whether a seat has a tab, and its open exercise isn't solved."""
        exercise = self._students[seat].source.exercise
        is_open = exercise in self._exercises.by_name and not self._exercises.progress(seat, exercise).first
        return is_open and any(tab.who == seat for tab in self._tabs)
