"""The source of a seat: its present text, and the last versions of it. The folder of a class has them in these files:

A3.s: the present text, a second or two after it was typed
A3.written.s: the source in the machine, or an empty text; A3.written.json: its compiled form
A3.case: the case of an exercise that is tried with it, such as `doubles 1`, or an empty text
A3.exercise: the name of the open exercise, and when its student opened it, in seconds since 1970; version 1.0 wrote no time
drafts/A3.doubles.s: the source of an exercise; A3.s is a copy while the exercise is open
sources/A3.17.typed.s: version 17, with its reason: it was typed, written into memory, or given; its time is the file's
sources/A3.18.typed@doubles.s: version 18, of the exercise `doubles`

The file of a compiled source has the suffix .O2.c, which names its options, or .stock.s, in place of .s.
"""

import re
import time
from collections.abc import Sequence
from typing import TypedDict

from ... import LabError
from ...assembler.source import Program, read_source
from ...compilers.compiled import CompiledProgram, read_compiled_program
from ...compilers.debug import MAX_BYTES
from .languages import LANGUAGES, NUMBERS, SourceText
from .bad_request import BadRequest
from .text_store import TextStore

MADE, CASE, OPEN, DRAFTS = "written.json", "case", "exercise", "drafts"
MAX_VERSIONS, MAX_WINDOWS = 50, 8
TYPING_SECONDS = 30.0  # after which typed text becomes a version

Version = TypedDict("Version", {"number": int, "time": int, "why": str, "language": int, "exercise": str})
"""A version of a source: its number, its time in seconds since 1970, its reason (`typed`, `written` or `given`), the number of its
language, and its exercise, which is "" for a source without one."""


class SeatSource:
    """The source of one seat, for all its tabs.

    own: the present source; number: how often it has changed since the server began
    versions: the last versions, the oldest first
    exercise: the open exercise, whose source is `own`; "" for none. Each exercise has its own source.
    case: the exercise and the number of the case that is tried with the source in the machine; None without a case
    opened: when the student opened the exercise, in seconds since 1970; 0 before that, and if the time is unknown
    caret: the number of the line in which the student typed last; 0 if it is unknown
    is_given: whether the source is the teacher's
    has_free_program: whether a program without an exercise can be opened next to the exercises
    """

    has_free_program = False

    def __init__(self, name: str, store: TextStore) -> None:
        self._name, self._store, self.number = name, store, 0
        self.caret = 0
        self.is_given = False
        self._windows: dict[str, int] = {}  # numbers of versions, by windows whose text differs from the source
        self._unsaved: dict[int, SourceText] = {}  # versions by number
        self._left: dict[str, SourceText] = {}  # unsaved sources of exercises that aren't open
        self.versions = kept_versions(store, name)
        self.exercise, self.opened = kept_exercise(store, name)
        self.own = kept_source(store, self._place(self.exercise))
        self._saved = (self.exercise, self.opened, self.own)
        self.written = self._saved_written = kept_source(store, f"{name}.written")
        self.case = self._saved_case = kept_case(store, name)
        self._gift: tuple[
            SourceText, SourceText
        ] | None = None  # the teacher's last source, and the student's before it
        self._newest = self._newest_of(self.exercise)
        self._since = time.monotonic()  # when the text began to differ from the newest version

    @property
    def has_changed(self) -> bool:
        """Whether the source differs from its newest version."""
        return self.own.text not in ("", self._newest.text)

    @property
    def free_program(self) -> SourceText:
        """The program that belongs to no exercise; an empty source without one."""
        return self.own if not self.exercise else SourceText()

    def settle(self, exercises: Sequence[str]) -> None:
        """Open the first of a class's exercises, unless one of them is open already.

        exercises: their names. If no exercise is open and the first one has no source, the present source becomes its source.
        """
        if not exercises or self.exercise in exercises:
            return
        if self.exercise or kept_source(self._store, self._place(exercises[0])).text:
            self.open(exercises[0], is_students=False)
        else:
            self.exercise = exercises[0]

    def open(self, exercise: str, is_students: bool = True) -> None:
        """Open an exercise with its last source, or an empty one. The exercise that was open before keeps its source.

        exercise: its name; "" for the program without an exercise
        is_students: whether the student opens it. Otherwise `opened` is set only if the student had opened the previous exercise.
        """
        is_other = exercise != self.exercise
        if self.opened and is_other or not self.opened and is_students:
            self.opened = time.time()
        if not is_other:
            return
        if not self.exercise and self.own.text:
            self._add_version(self.own, "typed")
        self._left[self.exercise] = self.own
        left = self._left.pop(exercise, None) or kept_source(self._store, self._place(exercise))
        self.own = left if left.text else SourceText("", self.own.language)
        self.exercise, self.caret, self.number, self._gift = exercise, 0, self.number + 1, None
        self.is_given = False
        self._newest, self._since = self._newest_of(exercise), time.monotonic()

    def draft(
        self, source: SourceText, number: int, exercise: str = "", is_kept: bool = False, window: str = ""
    ) -> None:
        """Record a typed source. It becomes the seat's source, or only a version if the seat's source has changed since.

        number: the number of the seat's source when this one was typed
        exercise: the exercise for which it was typed, or "" for the open one; is_kept: whether it becomes a version in any case
        window: the name of its window if the window's text differs from the seat's source, else "". Such a window has one version.
        """
        exercise = exercise or self.exercise
        is_current = number == self.number and exercise == self.exercise
        if window and not is_current:
            self._keep_apart(source, exercise, window)
            return
        if window and self.own.text:
            self._add_version(self.own, "typed")
        if is_current:
            self._change(source)
        if source.text and (is_kept or not is_current):
            self._add_version(source, "typed", exercise)

    def _keep_apart(self, source: SourceText, exercise: str, window: str) -> None:
        """Make the text of a window a version, in place of the window's earlier version."""
        number = self._windows.get(window)
        for place, version in enumerate(self.versions):
            if (version["number"], version["exercise"], version["language"]) == (number, exercise, source.language):
                self.versions = [*self.versions]
                self.versions[place] = version.copy()
                self.versions[place]["time"] = int(time.time())
                self._unsaved[version["number"]] = source
                self._newest = self._newest_of(self.exercise)
                return
        before = self.versions
        self._add_version(source, "typed", exercise)
        if self.versions is not before:
            self._windows[window] = self.versions[-1]["number"]
        while len(self._windows) > MAX_WINDOWS:
            del self._windows[next(iter(self._windows))]

    def write(self, source: SourceText, number: int = -1) -> None:
        """Record a source that is written into memory. The seat's source becomes a version first, if it has changed since this one was typed.

        number: the number of the seat's source when this one was typed; -1 if it is unknown
        """
        if number != self.number and self.own != source and self.own.text:
            self._add_version(self.own, "typed")
        self._change(source)
        self._add_version(source, "written")

    def give(self, source: SourceText) -> bool:
        """Replace the source by one of the teacher's. The student's source becomes a version.

        Return whether the student's source had another text that wasn't empty.
        """
        before = self.own
        self.take_up(source)
        self._gift, self.is_given = (source, before), True
        return before.text not in ("", source.text)

    def take_up(self, source: SourceText) -> None:
        """Replace the source by one that the teacher offered; the student's source becomes a version.

        The teacher can't take such a source back.
        """
        self._add_version(self.own, "typed")
        self._change(source)
        self._add_version(source, "given")
        self._gift = None

    def take_back(self) -> bool:
        """Take the teacher's last source back, unless the student has changed it, and restore the student's earlier source.

        Return whether it is restored.
        """
        gift, self._gift = self._gift, None
        if gift is None or self.own != gift[0] or gift[0] == gift[1]:
            return False
        self._change(gift[1])
        self.is_given = True
        if gift[1].text:
            self._add_version(gift[1], "typed")
        return True

    def version(self, number: int) -> SourceText:
        """Return the source of a version. Raises BadRequest if there is none of this number."""
        for version in self.versions:
            if version["number"] == number:
                text = self._store.read_text(self._file(version))
                return self._unsaved.get(number) or SourceText(text, version["language"])
        raise BadRequest("there is no such version")

    def save(self, program: Program | None = None) -> bool:
        """Save all changes, as far as the disk takes them; return whether there is a new version.

        program: the program of the source in the machine; None without one
        """
        before = self.versions
        if self.own != self._newest and time.monotonic() - self._since >= TYPING_SECONDS:
            self._add_version(self.own, "typed")
        for exercise in [
            each for each, source in self._left.items() if write_source(self._store, self._place(each), source)
        ]:
            del self._left[exercise]
        own = (self.exercise, self.opened, self.own)
        if own != self._saved and self._write_own():
            self._saved = own
        if self.case != self._saved_case and self._store.write_text(f"{self._name}.{CASE}", _case_text(self.case)):
            self._saved_case = self.case
        if self.written != self._saved_written:
            reply = program.reply.decode("utf-8", "replace") if isinstance(program, CompiledProgram) else ""
            is_saved = self._store.write_text(f"{self._name}.{MADE}", reply)
            if is_saved and write_source(self._store, f"{self._name}.written", self.written):
                self._saved_written = self.written
        for version in self.versions:
            number = version["number"]
            if number in self._unsaved and self._store.write_text(self._file(version), self._unsaved[number].text):
                del self._unsaved[number]
        return self.versions is not before

    def _write_own(self) -> bool:
        """Save the source, and then the name of its exercise; return whether both succeeded."""
        is_written = write_source(self._store, self._place(self.exercise), self.own)
        if is_written and self.exercise:
            is_written = write_source(self._store, self._name, self.own)
            opened = f" {int(self.opened)}" if self.opened else ""
            return is_written and self._store.write_text(f"{self._name}.{OPEN}", f"{self.exercise}{opened}")
        return is_written

    def _place(self, exercise: str) -> str:
        """Return the name of the file of an exercise's source, without its suffix. exercise: "" for the source without an exercise"""
        return f"{DRAFTS}/{self._name}.{exercise}" if exercise else self._name

    def _newest_of(self, exercise: str) -> SourceText:
        """Return the newest version of an exercise; an empty source if there is none."""
        numbers = [version["number"] for version in self.versions if version["exercise"] == exercise]
        return self.version(numbers[-1]) if numbers else SourceText()

    def _change(self, source: SourceText) -> None:
        self.is_given = False
        if source != self.own:
            self._since = time.monotonic() if self.own == self._newest else self._since
            self.own, self.number = source, self.number + 1

    def _add_version(self, source: SourceText, why: str, exercise: str | None = None) -> None:
        """Add a version of an exercise, unless it equals the newest one. If there are too many versions then, drop the oldest.

        why: its reason: `typed`, `written` or `given`; exercise: None for the open exercise
        """
        exercise = self.exercise if exercise is None else exercise
        if source == (self._newest if exercise == self.exercise else self._newest_of(exercise)):
            return
        number = self.versions[-1]["number"] + 1 if self.versions else 1
        version = Version(number=number, time=int(time.time()), why=why, language=source.language, exercise=exercise)
        self.versions = [*self.versions, version]
        self._unsaved[number] = source
        self._newest = source if exercise == self.exercise else self._newest
        while len(self.versions) > MAX_VERSIONS:
            oldest, *self.versions = self.versions
            self._unsaved.pop(oldest["number"], None)
            self._store.remove(self._file(oldest))

    def _file(self, version: Version) -> str:
        why = f"{version['why']}@{version['exercise']}" if version["exercise"] else version["why"]
        return f"sources/{self._name}.{version['number']}.{why}.{LANGUAGES[version['language']].suffix}"


def kept_source(store: TextStore, name: str) -> SourceText:
    """Return the source that was saved last under a name, in any language; an empty source if there is none.

    name: the name of the file without its suffix
    """
    numbers = {f"{name}.{language.suffix}": number for number, language in enumerate(LANGUAGES)}
    found = [(when, numbers[file], file) for file, when in store.files(f"{name}.*") if file in numbers]
    if not found:
        return SourceText()
    _, language, file = max(found)
    return SourceText(store.read_text(file), language)


def write_source(store: TextStore, name: str, source: SourceText) -> bool:
    """Save a source under a name, and remove files of this name in other languages; return whether the source was saved.

    name: the name of the file without its suffix
    """
    is_written = store.write_text(f"{name}.{source.suffix}", source.text)
    for language in LANGUAGES if is_written else ():
        if language.suffix != source.suffix:
            store.remove(f"{name}.{language.suffix}")
    return is_written


def kept_versions(store: TextStore, seat: str) -> list[Version]:
    """Return the versions of a seat's source that were saved, the oldest first."""
    found = []
    for file, when in store.files(f"sources/{seat}.*"):
        parts = re.fullmatch(r"sources/\w+\.(\d{1,9})\.(typed|written|given)(?:@([\w-]+))?\.(.+)", file)
        if parts and parts[4] in NUMBERS:
            number, language, exercise = int(parts[1]), NUMBERS[parts[4]], parts[3] or ""
            found.append(Version(number=number, time=int(when), why=parts[2], language=language, exercise=exercise))
    return sorted(found, key=lambda version: version["number"])[-MAX_VERSIONS:]


def kept_exercise(store: TextStore, seat: str) -> tuple[str, float]:
    """Return the exercise that was open at a seat, or "", and when the student opened it, in seconds since 1970; 0 if that is unknown."""
    parts = re.fullmatch(r"([\w-]{1,40})(?: (\d{1,12}))?", store.read_text(f"{seat}.{OPEN}"), re.ASCII)
    return (parts[1], float(parts[2] or 0)) if parts else ("", 0.0)


def kept_case(store: TextStore, seat: str) -> tuple[str, int] | None:
    """Return the case that was tried at a seat, as its exercise and its number; None if no case was tried."""
    parts = re.fullmatch(r"([\w-]{1,40}) ([0-9]{1,4})", store.read_text(f"{seat}.{CASE}"), re.ASCII)
    return (parts[1], int(parts[2])) if parts else None


def _case_text(case: tuple[str, int] | None) -> str:
    """Return a case as the text of its file; "" without a case."""
    return f"{case[0]} {case[1]}" if case else ""


def kept_program(store: TextStore, seat: str) -> tuple[SourceText, Program]:
    """Return the saved source in a seat's machine, perhaps an empty one, and its program.

    Raises LabError if the program can't be read or assembled again.
    """
    source = kept_source(store, f"{seat}.written")
    try:
        if source.choice is None:
            return source, read_source(source.text)
        return source, read_compiled_program(store.read_text(f"{seat}.{MADE}").encode("utf-8"), MAX_BYTES)
    except LabError as error:
        raise LabError(f"{seat}.written.*: the source of the seat's machine isn't listed, since {error}") from error
