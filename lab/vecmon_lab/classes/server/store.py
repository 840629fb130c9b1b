"""The folder of a class: its program and images, its codes, and each machine's script with its notes.

class.json: the digest (SHA-256) of the program that served the class last, the quantum, the images by name with their
    digests, the machines
codes.json: the code of each seat and of the teacher; names.json: the names of the students at the seats
A3.s, A3.written.s, sources/: a seat's present source, the source in its machine, and versions of its source
A.script, A.2.script ..: a machine's scripts; each begins where the script before ended
A.json: notes on the machine: the number of lines of each script that set it up, the number of answered lines of the last script,
    the digest of their answers, and the teacher's settings
images/NAME.elf: the images, as they were when the class began
journal.1, journal.2 ..: new contents of files above, until these are flushed to the disk
A.json.damaged: a damaged file, which was renamed
lock: held by the server that serves the class
"""

import contextlib
import pathlib
import re
import threading
from collections.abc import Mapping
from dataclasses import asdict, replace

from ...machine.program import digest_of
from ...machine.session import Session
from ..core.codes import LETTERS, Codes
from .class_images import ClassImages, check_image_names
from .damage import Damage
from .disk_files import sync_folder
from .durable import Flusher
from .folder_lock import BadFolder, FolderLock, is_served
from .folder_texts import FolderTexts
from .journal import JOURNAL, journaled, recover
from .machine_scripts import MachineScripts
from .script_file import ScriptFile
from .stored_files import SCRIPT_NAME, Facts, codes


class Store:
    """The folder of a class, which no other server has until `close`.

    program: the program that executes the class; has_new_program: whether another program served the class before
    images: the paths of the images by name; quantum: the ticks of a slice; machines: the letters of the machines
    codes: the codes of seats and the teacher
    damage: the damage that was found when the class was opened; texts: the small files; scripts: the scripts of the machines
    """

    def __init__(
        self,
        folder: pathlib.Path,
        program: pathlib.Path,
        images: Mapping[str, pathlib.Path] = {},
        quantum: int | None = None,
        machines: int | None = None,
        is_reading: bool = False,
    ) -> None:
        """Open a class, or begin one in a folder that is empty or missing.

        images, quantum, machines: the properties of a new class. If they are given for an existing class, it has to have these images
            and this quantum, and gets more machines if it has fewer.
        is_reading: whether the class is only read, also while a server has it
        Another program than before may continue a class: `ScriptFile.replay` compares its answers, then `accept_program` saves
        its digest. Raises BadFolder, OSError, and ProgramGone if the program refuses the images.
        """
        self.folder, self.program = folder, program
        self.damage = Damage(folder, is_reading)
        self._is_reading = is_reading
        self._lock: FolderLock | None = None
        self._flusher: Flusher | None = None
        if not is_reading:
            _make_folder(folder)
            self._lock = FolderLock(folder)
        try:
            if not is_reading:
                self.damage.sentences += recover(folder)
                self._flusher = Flusher(folder)
            changes = journaled(folder)[0] if is_reading and not is_served(folder) else {}
            self.texts = FolderTexts(folder, self.damage, self._flusher, changes)
            self.scripts = MachineScripts(folder, self.texts, self.damage)
            self._open(images, quantum, machines)
        except BaseException:
            self.close()
            raise

    def _open(self, images: Mapping[str, pathlib.Path], quantum: int | None, machines: int | None) -> None:
        """Read the facts with which the class started, or begin a class."""
        copies = ClassImages(self.folder, self.damage, self._is_reading)
        stored = self._stored_facts(copies, quantum, machines) if self.folder.is_dir() else Facts()
        if self._is_reading and not stored.program:
            raise BadFolder(f"{self.folder} has no class")
        if stored.program:
            facts = _continued(self.folder, stored, images, quantum, machines)
        else:
            facts = self._begin(copies, images, quantum, machines)
        self._facts, self._program_digest = facts, digest_of(self.program)
        self.has_new_program = facts.program != self._program_digest
        self.quantum = facts.quantum
        self.machines = LETTERS[: facts.machines]
        self.images = copies.restore(facts.images, images)
        stored_codes = self.texts.read("codes.json", codes, "all seats and the teacher have new codes")
        self.codes = Codes(self.machines, stored_codes)
        started: dict[str, Mapping[str, object]] = {"codes.json": self.codes.codes, "class.json": asdict(facts)}
        if not self._is_reading and not all(self.texts.write_now(name, value) for name, value in started.items()):
            raise BadFolder(self.texts.warning)

    def _stored_facts(self, copies: ClassImages, quantum: int | None, machines: int | None) -> Facts:
        """Return the facts with which the class started: from class.json or, if that is damaged, from the other files.

        Without a class, return facts with program "". Raises BadFolder if the files don't suffice.
        """
        name, is_there = "class.json", (self.folder / "class.json").exists()
        if self.texts.is_readable(name, Facts):
            return self.texts.read(name, Facts)
        numbers = {letter: self.scripts.numbers(letter) for letter in LETTERS}
        has_lines = any(self.scripts.count_lines(letter, each) for letter in LETTERS for each in numbers[letter])
        stored = self.texts.read_undamaged("codes.json", codes) if self.texts.is_readable("codes.json", codes) else {}
        if not has_lines and not (stored and is_there):
            if is_there:
                what = "no script has a line, and class.json and codes.json are damaged"
                raise BadFolder(f"{self.folder}: {what}: copy the folder back from a backup, or name another folder")
            return Facts()
        state = f"damaged{self.damage.set_aside(name)}" if is_there else "lost"
        self.damage.report(f"{name} is {state}: program, quantum and images are taken to be as they are now")
        seats = {seat[0] for seat in stored if re.fullmatch("[A-L][1-8]", seat)}
        limit = max(
            LETTERS.index(letter) + 1 for letter in LETTERS if letter in seats or numbers[letter] or letter == "A"
        )
        return Facts(digest_of(self.program), quantum or 100, max(limit, machines or 1), copies.digests())

    def _begin(
        self, copies: ClassImages, images: Mapping[str, pathlib.Path], quantum: int | None, machines: int | None
    ) -> Facts:
        """Begin a class; return the facts with which it starts."""
        check_image_names(images)
        with Session(self.program, images, quantum=quantum):
            pass  # the program takes them
        return Facts(digest_of(self.program), quantum or 100, machines or 1, copies.copy(images))

    def accept_program(self) -> None:
        """Save the digest of the present program in class.json, once its answers are compared. Raises BadFolder."""
        facts = replace(self._facts, program=self._program_digest)
        if self.has_new_program and not self.texts.write_now("class.json", asdict(facts)):
            raise BadFolder(self.texts.warning)

    def check_program(self) -> bool:
        """Return whether the program exists. Raises BadFolder if another program has replaced it, as an upgrade does."""
        try:
            if digest_of(self.program) == self._program_digest:
                return True
        except FileNotFoundError:
            return False
        raise BadFolder(f"the class has ended, since {self.program} is another program now: start the class again")

    def session(self, patience: float) -> Session:
        """Return a new machine of the class. patience: seconds after which a silent process counts as hung"""
        check, lock = self.check_program, threading.RLock
        return Session(self.program, self.images, quantum=self.quantum, patience=patience, check=check, lock=lock)

    def script_file(self, machine: str, number: int) -> ScriptFile:
        """Open a machine's script of this number, to append lines. Of a damaged script, only the lines before the damage are used."""
        self.scripts.check(machine, number)
        new_program = self.program if self.has_new_program else None
        return ScriptFile(self.folder, machine, number, self._flusher, new_program)

    def close(self) -> None:
        """Write all waiting changes to the disk, and release the folder."""
        if self._flusher:
            self._flusher.end()
        if self._lock:
            self._lock.release()


def _make_folder(folder: pathlib.Path) -> None:
    """Make a class's folder on the disk, unless it is there. Raises BadFolder if the folder has other files, and OSError."""
    folder.mkdir(mode=0o700, parents=True, exist_ok=True)
    if strangers := {path.name for path in folder.iterdir() if path.suffix != ".new"} - {"lock", "images"}:
        if not any(map(_is_of_class, strangers)):
            named = f"{min(strangers)} among them: name an empty folder, or one that isn't there"
            raise BadFolder(f"{folder} has no class, but other files, {named}")
    folder.chmod(0o700)
    with contextlib.suppress(OSError):  # a folder above that may not be read
        sync_folder(folder.parent)


def _is_of_class(name: str) -> bool:
    """Return whether a folder with a file of this name belongs to a class."""
    return name in ("class.json", "codes.json") or bool(SCRIPT_NAME.fullmatch(name) or JOURNAL.fullmatch(name))


def _continued(
    folder: pathlib.Path,
    stored: Facts,
    images: Mapping[str, pathlib.Path],
    quantum: int | None,
    machines: int | None,
) -> Facts:
    """Return the facts of a class that continues, with its present number of machines. Raises BadFolder if given options contradict them.

    stored: the facts with which the class started
    """
    if images and {name: digest_of(path) for name, path in images.items()} != stored.images:
        raise BadFolder(f"{folder} was begun with other images")
    if quantum not in (None, stored.quantum):
        raise BadFolder(f"{folder} was begun with --quantum {stored.quantum}")
    return replace(stored, machines=max(stored.machines, machines or 1))
