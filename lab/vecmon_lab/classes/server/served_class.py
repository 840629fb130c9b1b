"""A class without the transport of messages: machines, students, codes and names from its folder, and the open tabs."""

import asyncio
import os
import pathlib
from collections.abc import Callable, Iterable, Sequence
from functools import partial
from typing import TypedDict

from ... import LabError
from ...assembler.assembly import FileReader
from .worker_pool import WorkerPool, exclusive
from .builds import Builds
from .checks import Checks
from ..core.codes import TEACHER, WALL
from .comparisons import Comparisons
from ..core.example_sources import ExampleSource
from .hands import Hands
from ..core.names import NAMES
from .notices import Notices
from ..core.bad_request import BadRequest
from .room import Room, RoomCalls
from .saving import Saving
from ..core.seats import Seat
from .stored_files import texts
from .script_file import script_name
from .store import Store
from .stuck import StuckStudents
from ..core.student import Student
from .tab import Tab


class Given(TypedDict):
    """The last source that was given to seats, while it can be taken back.

    seats: the names of the seats, none for all seats; replaced: the number of seats where it replaced another text
    """

    seats: list[str]
    replaced: int


class Class:
    """The machines of a class by letter, its students by seat, its codes and names, and the tabs that are open."""

    def __init__(
        self,
        store: Store,
        patience: float,
        progress: Callable[[str, int], object] = lambda letter, percent: None,
        clock: bool = True,
        has_spares: bool = False,
        exercises: Iterable[pathlib.Path] = (),
        builds: Builds | None = None,
    ) -> None:
        """Start the machines, and restore the state of each. Raises LabError if that fails.

        patience: seconds after which a silent process is replaced
        progress: is called with a machine's letter and the percentage of its script that is executed
        clock: whether the clock of a new machine is on; has_spares: whether each machine has a spare process
        exercises: folders of exercises; without any, the class has the exercises that it had before
        builds: compiles sources in C
        """
        self.has_spares, self.builds = has_spares, builds or Builds()
        self.comparisons = Comparisons(self.builds, store.program)
        self.store, self.codes = store, store.codes
        self.names = store.texts.read(NAMES, texts, "the names at the seats are lost")  # by seat
        self.notices = Notices(store.texts)
        self.hands = Hands(store.texts)
        self.title = ""  # of a page without a class
        self.class_title = store.folder.resolve().name
        self.examples: Sequence[ExampleSource] = ()  # of a page that starts without a source
        self.address = ""  # of the class for students, with a slash at its end
        self.is_unencrypted = False  # whether codes travel unencrypted to other computers
        self.wall: Seat | None = None  # the seat that the wall shows
        self.given: Given | None = None
        self.tabs: set[Tab] = set()
        self.rooms: dict[str, Room] = {}
        self.students: dict[str, Student] = {}
        self.saving = Saving(store, self.rooms, self.students, self.tell)
        makers, self._packers, self._packing = WorkerPool(1), WorkerPool(2), set[str]()
        self._assemblers = WorkerPool(max(1, (os.cpu_count() or 1) - 1))
        try:
            self.checks = Checks(store, exercises, self.tell, self.builds)
            self.stuck = StuckStudents(self.students, self.checks.exercises, self.tabs)
            for letter in store.machines:
                self._open_room(letter, patience, progress, clock, makers)
            store.accept_program()
        except BaseException:
            self.end()
            raise

    def _open_room(
        self, letter: str, patience: float, progress: Callable[[str, int], object], clock: bool, makers: WorkerPool
    ) -> None:
        """Start a machine, restore its state, and seat its students. Raises LabError if that fails."""
        notes = self.store.scripts.notes(letter)
        file = self.store.script_file(letter, len(notes.scripts))
        save = partial(self.saving.save_notes, letter)
        calls = RoomCalls(self.tell, self._watched, save, self.builds, makers, self._assemblers)
        self.rooms[letter] = room = Room(letter, self.store.session(patience), file, calls)
        room.set_clock({"on": clock})
        name = script_name(letter, len(notes.scripts))
        room.restore(notes, progress, lambda sentence: self.store.damage.report(f"{name}: {sentence}"))
        self._seat_students(room)

    def read_files(self, files: FileReader) -> None:
        """Let sources include files that `files` reads. For a page whose only user owns these files."""
        for room in self.rooms.values():
            room.files = files

    def end(self) -> None:
        """End the machines, and release the folder."""
        for room in self.rooms.values():
            room.end()
        self.store.close()

    def unsaved(self) -> list[str]:
        """Return sentences on unsaved files and scripts. After `end` the unsaved data is lost."""
        files = {letter: room.scripts.file for letter, room in self.rooms.items()}
        scripts = [f"machine {letter}: {file.warning}" for letter, file in files.items() if file.warning]
        return [*scripts, *self.store.texts.unsaved()]

    def save(self, with_counts: bool = True) -> None:
        """Save all changes, as far as the disk takes them. Send news to pages on stuck students and on unsaved files.

        with_counts: as in `Saving.save`
        """
        self.saving.save(with_counts)
        self.checks.save()
        if self.stuck.look():
            self.tell([])
        self.saving.tell_warnings()

    async def take_home(self, seat: str) -> bytes:
        """Return the archive that a student takes home. Raises LabError if the student has done nothing, or the archive is being made."""
        with exclusive(seat, self._packing, LabError("it is being made already")):
            self.save()
            await asyncio.to_thread(self.store.texts.flush)
            return await self._packers.run(
                "classes.server.take_home", f"{self.store.folder}", f"{self.store.program}", seat
            )

    def seat(self, name: str) -> Seat:
        """Return the seat of this name. Raises BadRequest if there is none."""
        return self.student(name).seat

    def student(self, name: str) -> Student:
        """Return the student at the seat of this name. Raises BadRequest if there is no such seat."""
        if name not in self.students:
            raise BadRequest("there is no such seat")
        return self.students[name]

    def room(self, machine: str) -> Room:
        """Return the room of a machine. machine: its letter. Raises BadRequest if there is no such machine."""
        if machine not in self.rooms:
            raise BadRequest("there is no such machine")
        return self.rooms[machine]

    def seats(self, names: Sequence[str] = ()) -> list[Seat]:
        """Return the seats of these names; all seats if no name is given. Raises BadRequest if there is no such seat."""
        return [self.seat(name) for name in names or self.students]

    def tell(self, names: Iterable[str]) -> None:
        """Wake the tabs of these seats, the teacher's, and the wall's if it shows one of the seats."""
        names = {TEACHER, *names}
        if self.wall and self.wall.name in names:
            names.add(WALL)
        for tab in self.tabs:
            if tab.who in names:
                tab.changed.set()

    def add_log_entry(self, seats: Iterable[Seat], sentence: str) -> None:
        """Add a sentence to the logs of seats."""
        for seat in seats:
            self.rooms[seat.name[0]].add_log_entry(seat, f"!{sentence}")

    def read_notice(self, seat: str, number: int) -> None:
        """Mark a message of the teacher's as read, in all tabs of a seat. Raises BadRequest."""
        self.notices.read(seat, number)
        self.tell([seat])

    def open_offer(self, seat: str, number: int) -> None:
        """Replace the source of a seat by the source that a message offers. Raises BadRequest if there is no such offer.

        number: the number of the message
        """
        self.students[seat].source.take_up(self.notices.open(seat, number))
        self.add_log_entry([self.seat(seat)], "You opened the teacher's source. Your own is kept, as a version.")

    def set_hand(self, seat: str, up: bool, text: str = "") -> None:
        """Raise a seat's hand with a text, or lower it."""
        if up:
            self.hands.up(seat, text)
        else:
            self.hands.down(seat)
        self.tell([seat])

    async def choose_exercises(self, names: Sequence[str]) -> None:
        """Set the exercises that students have, in this order. Raises BadRequest."""
        await self.checks.choose(names)
        for student in self.students.values():
            student.open_first()
        self.tell(self.students)

    def set_name(self, seat: str, name: str) -> None:
        """Save the name of the student at a seat; "" deletes it."""
        self.names = {each: stored for each, stored in (self.names | {seat: name}).items() if stored}
        self.store.texts.write(NAMES, self.names)
        self.tell([seat])

    async def renew(self, name: str) -> None:
        """Give a seat or the wall a new code, and close its tabs. Return once the code is on the disk, or the disk has failed."""
        self.codes.renew(name)
        for tab in self.tabs:
            tab.is_open = tab.is_open and tab.who != name
        self.store.texts.write("codes.json", self.codes.codes)
        await asyncio.to_thread(self.store.texts.flush)
        self.tell([name])

    def _seat_students(self, room: Room) -> None:
        """Restore a machine's students from the folder."""
        for seat in room.seats.users.values():
            student = Student(room.machine, seat, self.store.texts, self.checks.exercises, self.checks.begin)
            self.students[seat.name] = student
            if cause := student.restore():
                self.store.damage.report(cause)

    def _watched(self) -> set[str]:
        """Return the names of the seats that somebody watches: in a tab of the seat, in a tab of the teacher, or on the wall."""
        looked_at = {tab.who for tab in self.tabs} | {tab.shoulder.name for tab in self.tabs if tab.shoulder}
        return looked_at | ({self.wall.name} if self.wall and WALL in looked_at else set())
