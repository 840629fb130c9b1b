"""The contents of a class's folder, and its damage: a report that changes nothing and serves nothing."""

import pathlib
from collections.abc import Sequence

from ... import LabError
from ...machine.lines import DIGITS
from .checks import ANSWERS, EXERCISES, found_answers
from .hands import HANDS, raised_hands
from .stored_files import texts
from ..core.names import NAMES
from .notices import NOTICES, sent_notices
from ..core.sources import kept_program
from .store import Store


def folder_report(folder: pathlib.Path, program: pathlib.Path) -> tuple[Sequence[str], bool]:
    """Return a report on a class's folder as lines, and whether a file is damaged. Raises BadFolder and OSError.

    A server may serve the folder meanwhile. No script is executed. program: the program that would serve the class
    """
    store = Store(folder, program, is_reading=True)
    machines = [_machine(store, letter) for letter in store.machines]
    names, exercises = store.texts.read(NAMES, texts), store.texts.read(EXERCISES, texts)
    unread = sum(len(sent["to"]) - len(sent["read"]) for sent in store.texts.read(NOTICES, sent_notices).values())
    store.texts.read(HANDS, raised_hands)  # which reports damage
    for seat in (f"{letter}{digit}" for letter in store.machines for digit in DIGITS):
        try:
            kept_program(store.texts, seat)
        except LabError as error:
            store.damage.report(str(error))
    answers, versions = len(list(found_answers(store))), len(list(store.texts.files("sources/*")))
    changed = f"program: {program} isn't the one that served the class before: the next start compares its answers"
    changes = [changed] if store.has_new_program else []
    lines = [
        f"class: --quantum {store.quantum}; images: {', '.join(store.images) or 'none'}",
        *machines,
        *changes,
        f"exercises: {', '.join(exercises) or 'none'}; {ANSWERS}: {answers}; versions of sources: {versions}; names: {len(names)}; "
        f"unread messages: {unread}",
        *(f"lost: {sentence}" for sentence in store.damage.sentences),
        *(f"set aside before: {name}" for name, _ in sorted(store.texts.files("**/*.damaged*"))),
    ]
    return lines, bool(store.damage.sentences)


def _machine(store: Store, letter: str) -> str:
    """Return the report's line on a machine. Damage to its scripts is reported to the store."""
    notes = store.scripts.notes(letter)
    for number in range(1, len(notes.scripts) + 1):
        store.scripts.check(letter, number)
    lines = store.scripts.count_lines(letter, len(notes.scripts))
    if lines < notes.lines:
        store.damage.report(f"{letter}: the last script has {lines:,} lines, and had {notes.lines:,}")
    return f"machine {letter}: {len(notes.scripts)} scripts, {lines:,} lines in the last one"
