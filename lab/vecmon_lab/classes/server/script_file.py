"""The file of a machine's script, to which each line is appended before the machine executes it."""

import contextlib
import os
import pathlib
import threading
from collections.abc import Callable, Iterator

from ...machine.session import BadLine, Block, OutOfStep, Session, recorded_lines
from .disk_files import replace_file, sync_folder, write_all
from .durable import Flusher
from .folder_lock import BadFolder
from .stored_files import Notes


class ScriptFile:
    """A script on the disk. Each line is appended before the machine executes it, and flushed to the disk soon.

    If the disk is full, lines wait in memory and are written later; `warning` says so. For one thread at a time, except
    `sync`, which another thread may call.

    kept: the lines that the file had when it was opened; notes: the name of the file that counts the lines
    failures: the number of writes and flushes that failed
    """

    def __init__(
        self,
        folder: pathlib.Path,
        machine: str,
        number: int = 1,
        flusher: Flusher | None = None,
        new_program: pathlib.Path | None = None,
    ) -> None:
        """Open a machine's script of this number, and cut off bytes that are no lines.

        flusher: calls `sync` after changes; without one only `close` does
        new_program: the program, if another one has executed the lines
        """
        self._folder, self._machine, self._flusher = folder, machine, flusher
        self._new_program = new_program
        self._sync_turn, self._is_open, self._is_named = threading.Lock(), True, False
        self._writing = threading.Lock()  # protects the numbers of written bytes, which `sync` reads
        path = folder / script_name(machine, number)
        self._file = os.open(path, os.O_RDWR | os.O_CREAT, 0o600)
        self.kept = recorded_lines(path.read_bytes())
        self._path, self._write_trouble, self._sync_trouble = path, "", ""
        self.failures = 0
        self.notes = f"{machine}.json"
        self._waiting = bytearray()
        self._saved = len(self.kept)
        self._unflushed = bytearray()  # written since the last flush
        self._flushing = 0  # the offset up to which the file is being flushed
        self._is_doubtful = False  # whether a flush has failed since the last one that succeeded
        os.ftruncate(self._file, self._saved)

    def replay(self, session: Session, notes: Notes, lose: Callable[[str], object]) -> Iterator[Block]:
        """Execute the lines that the file had when it was opened; yield them in blocks with their answers.

        notes: have the number of answered lines, and the digest of their answers; later lines were written shortly before the server
            was killed
        lose: is called with a sentence if lines are missing, or have other answers than before
        Raises BadFolder if a line can't be executed, or if another program than before gives other answers.
        """
        *answered, later = self.kept.split(b"\n", notes.lines)
        if len(answered) < notes.lines:
            lose(
                f"it has {len(answered):,} lines, and had {notes.lines:,}: the last {notes.lines - len(answered):,} are lost"
            )
            later = b""
        try:
            yield from session.do_blocks(self.kept[: len(self.kept) - len(later)])
            if notes.answers and len(answered) == notes.lines and session.digest != notes.answers:
                if self._new_program:
                    raise BadFolder(
                        f"{self._new_program} isn't the program that served {self._folder} before, and machine "
                        f"{self._machine}'s script has other answers now: continue with the earlier program: "
                        f"VECMON=PATH vecmon-lab class {self._folder}"
                    )
                lose(
                    f"its first {notes.lines:,} lines are answered otherwise than before: it, or an image, was changed"
                )
            elif notes.script and len(answered) == notes.lines and session.script_digest != notes.script:
                lose(f"its first {notes.lines:,} lines were changed, and are answered as before")
            yield from session.do_blocks(later)
        except (BadLine, OutOfStep) as error:
            raise BadFolder(f"machine {self._machine} doesn't take its script: {error}") from error

    def successor(self, number: int, script: bytes) -> "ScriptFile":
        """Write the machine's script of this number to the disk, and return its file.

        Raises OSError, also if the folder was moved. Then this script continues, since a file at the old path would be lost.
        """
        if self._flusher:
            self._flusher.check_folder()
        replace_file(self._folder / script_name(self._machine, number), script)
        sync_folder(self._folder)
        return ScriptFile(self._folder, self._machine, number, self._flusher)

    def discard(self) -> None:
        """Close the file, and remove it, since another script continues."""
        self.close()
        with contextlib.suppress(OSError):
            os.unlink(self._path)

    @property
    def is_saved(self) -> bool:
        """Whether no line waits for the disk."""
        return not self._waiting

    @property
    def warning(self) -> str:
        """The reason why lines aren't saved; "" if all lines are saved."""
        return self._write_trouble or self._sync_trouble

    def append(self, line: str) -> None:
        """Append a line, without its newline."""
        self._waiting += line.encode("ascii") + b"\n"
        self.catch_up()

    def cut(self, size: int) -> None:
        """Remove the bytes after the first `size` ones, that is, lines that weren't executed."""
        del self._waiting[max(0, size - self._saved) :]
        if size < self._saved:
            os.ftruncate(self._file, size)
            with self._writing:
                del self._unflushed[max(0, len(self._unflushed) - (self._saved - size)) :]
                self._saved, self._flushing = size, min(self._flushing, size)
            self._flush_soon()

    def sync(self) -> None:
        """Flush appended lines to the disk, and the first time the file's name as well. Raises OSError, which `warning` also reports.

        After a failed flush the system counts the data as flushed, though it isn't. So the next call writes the data once more.
        """
        with self._sync_turn:
            if not self._is_open:
                return
            with self._writing:
                self._flushing = self._saved
            try:
                if self._is_doubtful:
                    self._write_again()
                os.fsync(self._file)
                if not self._is_named:
                    sync_folder(self._folder)
                self._is_named, self._is_doubtful, self._sync_trouble = True, False, ""
            except OSError as error:
                self._is_doubtful = True
                self._sync_trouble = f"the script isn't saved: {error.strerror}"
                self.failures += 1
                raise
            with self._writing:
                start = self._saved - len(self._unflushed)
                del self._unflushed[: max(0, self._flushing - start)]

    def _write_again(self) -> None:
        """Write the lines again that aren't flushed. Raises OSError."""
        with self._writing:
            write_all(self._file, bytes(self._unflushed), self._saved - len(self._unflushed))

    def close(self) -> None:
        """Flush and close the file."""
        for _ in range(2):  # after a failure all is written again
            with contextlib.suppress(OSError):
                self.sync()
                break
        with self._sync_turn:
            self._is_open = False
            os.close(self._file)

    def catch_up(self) -> None:
        """Write the lines that wait, if the disk takes them."""
        try:
            while self._waiting:
                with self._writing:
                    written = os.pwrite(self._file, self._waiting, self._saved)
                    self._saved += written
                    self._unflushed += self._waiting[:written]
                del self._waiting[:written]
                self._flush_soon()
            self._write_trouble = ""
        except OSError as error:
            self._write_trouble = f"the script isn't saved: {error.strerror}"
            self.failures += 1

    def _flush_soon(self) -> None:
        if self._flusher:
            self._flusher.flush_soon(self)


def script_name(machine: str, number: int) -> str:
    """Return the name of a machine's script. The first script has no number in its name."""
    return f"{machine}.script" if number == 1 else f"{machine}.{number}.script"
