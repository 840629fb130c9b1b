"""The source of a page's seat.

A work is the source of an exercise, or a program that belongs to no exercise: the free program. A page saves these texts:

free/A1.s: the free program
A1.s: a copy of the work that is open
A1.exercise: the open exercise, and when it was opened; empty while the free program is open
A1.unsaved: the text in the editor, if the page closed before it was saved: JSON with text, language and exercise
A1.unsaved.PAGE: the text in the editor of a tab that couldn't save, since another tab did, and that was then closed or reloaded
"""

import json
import re
from collections.abc import Mapping, Sequence

from ..classes.core.languages import LANGUAGES, SourceText
from ..classes.core.progress import Start
from ..classes.core.sources import DRAFTS, OPEN, SeatSource, kept_source, write_source
from ..classes.core.text_store import TextStore

FREE, UNSAVED = "free", "A1.unsaved"


class PageSource(SeatSource):
    """A source as any seat has, with the free program as the exercise "", which can be opened like other exercises."""

    has_free_program = True

    def __init__(self, name: str, store: TextStore, starts: Mapping[str, Sequence[Start]] = {}) -> None:
        """store: has the saved texts; starts: the sources with which one can start each exercise"""
        super().__init__(name, store)
        self._starts = starts
        if not self.exercise and not self.own.text:
            self.own = kept_source(store, name)  # saved by version 2.0, or by a class without exercises

    @property
    def free_program(self) -> SourceText:
        """The source of the free program, also while an exercise is open."""
        return self.own if not self.exercise else self._left.get("") or kept_source(self._store, self._place(""))

    def settle(self, exercises: Sequence[str]) -> None:
        """Open the free program, unless the open exercise is one of `exercises` and the student has opened or tried it.

        Version 2.0 saved a free program as the source of the first exercise, although the student hadn't opened or tried that exercise.
        """
        exercise = self.exercise
        if exercise in exercises and (self.opened or self._has_tries(exercise)):
            self._free_first(exercises[0])
        elif exercise:
            self.exercise, self.opened = "", 0.0
            self._newest = self._newest_of("")
            if exercise in exercises:
                self._left[exercise] = SourceText()

    def _free_first(self, first: str) -> None:
        """Make the source of the first exercise the free program, if version 2.0 saved it there, and another exercise was opened later.

        Version 2.0 has no free program, and doesn't save whether the first exercise was opened. The exercise counts as opened if an answer
        to it was tried, or if its source has a line of one of its starts. Later versions save a free program, perhaps an empty one, before
        an exercise is opened.
        """
        source = kept_source(self._store, self._place(first))
        is_of_2_0 = not any(self._store.files(f"{self._place('')}.*"))
        if first == self.exercise or not is_of_2_0 or not source.text or self._has_tries(first):
            return
        if not any(_lines(source.text) & _lines(start["text"]) for start in self._starts.get(first, ())):
            self._left |= {"": source, first: SourceText()}

    def take_unsaved(self) -> None:
        """Take up the text that was in the editor when the page closed, unless a newer source of the same work is saved.

        The texts of tabs that couldn't save become versions.
        """
        self._take_waiting()
        text = self._store.read_text(UNSAVED)
        if not text:
            return
        if read := unsaved_source(text):
            source, exercise = read
            ((typed, _),) = [(when, name) for name, when in self._store.files(UNSAVED)]
            saved = max((when for _, when in self._store.files(f"{self._place(exercise)}.*")), default=0.0)
            if exercise == self.exercise and typed >= saved:
                self._change(source)
            elif source.text:
                self._add_version(source, "typed", exercise)
            self.save()
        self._store.remove(UNSAVED)

    def join(self, other: TextStore, exercises: Sequence[str]) -> None:
        """Take up the sources and versions of another tab.

        The other tab's versions are added to those of this page. A source of the other tab becomes a version if this page has the same work
        open. Otherwise, it replaces this page's source of the work, and the replaced source becomes a version.

        other: the texts that the other tab has changed since this page opened; exercises: the names of all exercises
        """
        theirs = PageSource(self._name, other)
        known = {(version["exercise"], self.version(version["number"])) for version in self.versions}
        for version in theirs.versions:
            source = theirs.version(version["number"])
            if (version["exercise"], source) not in known:
                self._add_version(source, version["why"], version["exercise"])
        for exercise in ["", *exercises]:
            source = kept_source(other, self._place(exercise))
            if source.text:
                self._join_source(source, exercise)
        if read := unsaved_source(other.read_text(UNSAVED)):
            self._join_source(*read)
        self._add_waiting(other)

    def _take_waiting(self) -> None:
        """Take up the texts in the editors of tabs that couldn't save, and remove them from the store."""
        if names := [name for name, _ in self._store.files(f"{UNSAVED}.*")]:
            self._add_waiting(self._store)
            self.save()
            for name in names:
                self._store.remove(name)

    def _add_waiting(self, store: TextStore) -> None:
        """Make versions of the texts in the editors of tabs that couldn't save, unless there are equal versions."""
        known = {(version["exercise"], self.version(version["number"])) for version in self.versions}
        for name in sorted(name for name, _ in store.files(f"{UNSAVED}.*")):
            read = unsaved_source(store.read_text(name))
            if not read or not read[0].text:
                continue
            source, exercise = read
            if (exercise, source) not in known and (exercise, source) != (self.exercise, self.own):
                self._add_version(source, "typed", exercise)
                known.add((exercise, source))

    def _join_source(self, source: SourceText, exercise: str) -> None:
        """Take up another tab's source of a work. exercise: the name of the exercise, or "" for the free program"""
        if exercise == self.exercise:
            if source != self.own:
                self._add_version(source, "typed", exercise)
            return
        own = self._left.get(exercise) or kept_source(self._store, self._place(exercise))
        if own.text and own != source:
            self._add_version(own, "typed", exercise)
        self._left[exercise] = source

    def _has_tries(self, exercise: str) -> bool:
        return any(True for _ in self._store.files(f"answers/{self._name}.{exercise}.*"))

    def _place(self, exercise: str) -> str:
        """Return the name of the text with a work's source, without its suffix."""
        return f"{DRAFTS}/{self._name}.{exercise}" if exercise else f"{FREE}/{self._name}"

    def _write_own(self) -> bool:
        """Save the source of the open work; return whether that succeeded."""
        is_written = super()._write_own()
        if self.exercise:
            return is_written
        is_written = is_written and write_source(self._store, self._name, self.own)
        return is_written and self._store.write_text(f"{self._name}.{OPEN}", "")


def _lines(text: str) -> set[str]:
    """Return the lines of a text that have at least two words. Lines such as `ret` are left out, since many sources have them."""
    return {" ".join(line.split()) for line in text.splitlines() if len(line.split()) > 1}


def unsaved_source(text: str) -> tuple[SourceText, str] | None:
    """Return the source in the text of A1.unsaved, and its exercise ("" for the free program); None if the text is damaged."""
    try:
        match json.loads(text):
            case {"text": str() as source, "language": int() as language, "exercise": str() as exercise}:
                if 0 <= language < len(LANGUAGES) and re.fullmatch(r"[\w-]{0,40}", exercise, re.ASCII):
                    return SourceText(source, language), exercise
    except (ValueError, RecursionError):
        pass
    return None
