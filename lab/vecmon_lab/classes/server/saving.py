"""Save a class regularly: the sources, and the notes on machines. Warn if the disk fails."""

import math
import time
from collections.abc import Callable, Iterable, Mapping
from dataclasses import asdict, replace

from ..core.student import Student
from .room import Room
from .store import Store
from .stored_files import Notes

COUNTS_SECONDS = 1.0  # between notes of a machine that only count more lines


class Saving:
    """Saves the sources of students and the notes on machines.

    warning: the reason why something isn't saved, for pages; "" if everything is saved
    """

    def __init__(
        self,
        store: Store,
        rooms: Mapping[str, Room],
        students: Mapping[str, Student],
        tell: Callable[[Iterable[str]], object],
    ) -> None:
        """rooms: the rooms by the letter of their machine; students: the students by seat; tell: called with the names of seats that have news"""
        self.warning = ""
        self._store, self._rooms, self._students, self._tell = store, rooms, students, tell
        self._saved: dict[str, tuple[Notes, float]] = {}  # by machine, the saved notes, and when they were saved
        self._troubles = dict[str, tuple[str, int]]()  # of machines: the warning, and how many writes have failed
        self._seat_warnings = dict[str, str]()

    def save(self, with_counts: bool) -> None:
        """Save all changes, and write the waiting lines of scripts if the disk was full.

        with_counts: whether to save notes that only count more lines; else these are saved once a second
        """
        for student in self._students.values():
            if student.save():
                self._tell([student.seat.name])
        for room in self._rooms.values():
            if not room.is_busy():
                self._save_machine(room, with_counts)

    def save_notes(self, letter: str, notes: Notes) -> bool:
        """Save the notes of a machine, and wait for the disk; return whether that succeeded."""
        return self._store.texts.write_now(f"{letter}.json", asdict(notes))

    def tell_warnings(self) -> None:
        """Send news to the pages whose warnings have changed."""
        if self._store.texts.warning != self.warning:
            self.warning = self._store.texts.warning
            self._tell([])
        warnings = {seat: warning for seat in self._students if (warning := self._store.texts.warning_of(seat))}
        if warnings != self._seat_warnings:
            self._tell({*warnings, *self._seat_warnings})
            self._seat_warnings = warnings

    def _save_machine(self, room: Room, with_counts: bool) -> None:
        """Write a machine's lines that wait for the disk, and then its notes."""
        file = room.scripts.file
        file.catch_up()
        trouble = (room.warning, file.failures)  # the count shows a trouble that came and went since the last look
        if trouble != self._troubles.get(room.letter, ("", 0)):
            self._troubles[room.letter] = trouble
            self._tell(room.seats.names())
        notes = room.notes()
        if file.is_saved and self._are_due(room.letter, notes, with_counts):
            self._store.texts.write(f"{room.letter}.json", asdict(notes))
            self._saved[room.letter] = notes, time.monotonic()

    def _are_due(self, letter: str, notes: Notes, with_counts: bool) -> bool:
        """Return whether to save notes, since they differ from the saved ones.

        Notes that differ only in counts are saved if `with_counts` is true, or COUNTS_SECONDS after the last save.
        """
        saved, since = self._saved.get(letter, (Notes(), -math.inf))
        with_counts = with_counts or time.monotonic() - since >= COUNTS_SECONDS
        counted = replace(notes, lines=saved.lines, answers=saved.answers, script=saved.script)
        return saved != (notes if with_counts else counted)
