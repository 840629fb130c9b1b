"""The scripts of a class's machines in its folder, and the notes with the last one of each machine."""

import pathlib
from collections.abc import Iterator
from dataclasses import replace

from ...machine.session import recorded_lines
from .damage import Damage
from .folder_texts import FolderTexts
from .script_file import script_name
from .stored_files import SCRIPT_NAME, Notes

NEWLINE = b"\n"


class MachineScripts:
    """The scripts of machines, by letter and number. The first script of a machine has number 1; each starts where the last one ended."""

    def __init__(self, folder: pathlib.Path, texts: FolderTexts, damage: Damage) -> None:
        self._folder, self._texts, self._damage = folder, texts, damage

    def notes(self, machine: str) -> Notes:
        """Return a machine's notes. The last script that they name has all lines that set the machine up.

        Lost notes are derived from the scripts in the folder. If the last script has lost lines that set the machine up, it is dropped,
        and the script before it continues.
        """
        name = f"{machine}.json"
        is_there, notes = (self._folder / name).exists(), self._texts.read(name, Notes, "the clock is set anew")
        if not is_there or name in self._damage.files:
            last = max(1, *self.numbers(machine), 1)
            notes = replace(notes, scripts=[0] * last, lines=len(self._lines(machine, last)))
        scripts = list(notes.scripts)
        while len(scripts) > 1 and len(self._lines(machine, len(scripts))) < max(1, scripts[-1]):
            last_name = script_name(machine, len(scripts))
            self._damage.report(
                f"{last_name} has lost lines that set the machine up: it goes on as the script before left it"
            )
            scripts.pop()
        if len(scripts) < len(notes.scripts):
            lines = len(self._lines(machine, len(scripts)))
            notes = replace(notes, scripts=scripts, stops={}, lines=lines, answers="", script="")
        return notes

    def check(self, machine: str, number: int) -> None:
        """Report bytes at the end of a script that aren't lines. If they are more than one torn line, save a copy of the script first."""
        name = script_name(machine, number)
        data = (self._folder / name).read_bytes() if (self._folder / name).exists() else b""
        lines = recorded_lines(data)
        rest = data[len(lines) :]
        if not rest:
            return
        aside = self._damage.set_aside(name, data) if NEWLINE in rest else ""
        self._damage.report(
            f"{name} is damaged behind line {lines.count(NEWLINE):,}{aside}: the last {len(rest):,} bytes are lost"
        )

    def count_lines(self, machine: str, number: int) -> int:
        """Return the number of lines of a script before its damage."""
        return len(self._lines(machine, number))

    def parts(self, machine: str) -> Iterator[tuple[bytes, bytes]]:
        """Yield for each script of a machine the lines that set the machine up, and the answered lines after them."""
        notes = self.notes(machine)
        for number, start in enumerate(notes.scripts, 1):
            lines = self._lines(machine, number)
            end = notes.lines if number == len(notes.scripts) else len(lines)
            yield b"".join(lines[:start]), b"".join(lines[start:end])

    def numbers(self, machine: str) -> list[int]:
        """Return the numbers of a machine's scripts in the folder."""
        found = [SCRIPT_NAME.fullmatch(path.name) for path in self._folder.glob(f"{machine}.*script")]
        return [int(parts[2] or 1) for parts in found if parts]

    def _lines(self, machine: str, number: int) -> list[bytes]:
        """Return the lines of a script before its damage; an empty list if there is no such script."""
        path = self._folder / script_name(machine, number)
        return recorded_lines(path.read_bytes()).splitlines(keepends=True) if path.exists() else []
