"""Flushes that fail: as on Linux the system then counts the data as flushed, and it isn't on the disk. Nothing is lost."""

import errno
import os
import pathlib
import threading
import time
from typing import Any

import pytest

from support.disk import Disk
from vecmon_lab.classes.server import damage, disk_files, durable, folder_lock, journal, script_file
from vecmon_lab.classes.server.durable import Flusher
from vecmon_lab.classes.server.journal import Journal, recover
from vecmon_lab.classes.server.script_file import ScriptFile


@pytest.fixture
def disk(tmp_path: pathlib.Path, monkeypatch: pytest.MonkeyPatch) -> Disk:
    """A recorded disk, and no batches but those of the test."""
    own = Disk(tmp_path)
    for module in (damage, disk_files, durable, folder_lock, journal, script_file):
        monkeypatch.setattr(module, "os", own)
    monkeypatch.setattr(durable, "FLUSH_SECONDS", 1e6)
    monkeypatch.setattr(durable, "JOURNAL_SECONDS", 1e6)
    return own


def failing_once(disk: Disk, name: str) -> None:
    """Let the next flush of a file fail."""

    def fails(flushed: str) -> bool:
        if flushed == name:
            disk.failing = lambda _: False
        return flushed == name

    disk.failing = fails


def test_script_is_written_again(tmp_path: pathlib.Path, disk: Disk) -> None:
    """Lines of a flush that failed, and later ones; a line that was cut off isn't."""
    file = ScriptFile(tmp_path, "A")
    file.append("1 enter")
    file.sync()
    file.append("1 step 1")
    file.append("1 step 2")
    failing_once(disk, "A.script")
    with pytest.raises(OSError):
        file.sync()
    assert file.warning == "the script isn't saved: Input/output error" and file.failures == 1
    file.cut(len("1 enter\n1 step 1\n"))
    file.append("1 go")
    file.sync()
    assert disk.states(0, 0)[0]["A.script"] == b"1 enter\n1 step 1\n1 go\n" and not file.warning
    file.append("1 stop")
    file.close()
    assert disk.states(0, 0)[0]["A.script"] == b"1 enter\n1 step 1\n1 go\n1 stop\n"


def test_file_of_journal_is_written_again(tmp_path: pathlib.Path, disk: Disk) -> None:
    """Also if a later journal has newer contents of it."""
    flusher = Flusher(tmp_path)
    for number, text in enumerate((b"first", b"second")):
        flusher.replace("A.json", text)
        flusher.replace("B.json", b"other")
        flusher.flush()
        failing_once(disk, "A.json")
        with pytest.raises(OSError):
            flusher.shorten()
        assert len(list(tmp_path.glob("journal.*"))) == number + 1
    flusher.shorten()
    assert not list(tmp_path.glob("journal.*"))
    assert {"A.json": b"second", "B.json": b"other"}.items() <= disk.states(0, 0)[0].items()
    flusher.end()


def test_many_files_are_flushed_together(tmp_path: pathlib.Path, monkeypatch: pytest.MonkeyPatch) -> None:
    """16 at a time: after an hour a class of 30 has some 500, and its end waits for them on a slow disk."""
    turn, counts = threading.Lock(), [0, 0]  # that flush now, and at most

    class Slow:
        def __getattr__(self, name: str) -> Any:
            return getattr(os, name)

        def fsync(self, file: int) -> None:
            with turn:
                counts[0] += 1
                counts[1] = max(counts)
            time.sleep(0.02)
            with turn:
                counts[0] -= 1
            if os.readlink(f"/proc/self/fd/{file}").endswith("/A7.s"):
                raise OSError(errno.EIO, "Input/output error")

    own = Journal(tmp_path)
    own.append({f"A{number}.s": b"nop" for number in range(100)})
    for number in range(0, 100, 2):  # the others were removed since
        (tmp_path / f"A{number}.s").write_bytes(b"nop")
    (tmp_path / "A7.s").write_bytes(b"nop")
    own.switch()
    monkeypatch.setattr(journal, "os", Slow())
    with pytest.raises(OSError):
        own.flush_files(own.generations[0])
    assert own.generations[0].doubtful == {"A7.s"} and 2 <= counts[1] <= 16


def test_record_of_journal_is_written_again(tmp_path: pathlib.Path, disk: Disk) -> None:
    """A batch whose record isn't flushed is saved otherwise, and the next one as well."""
    flusher, left = Flusher(tmp_path), tmp_path.with_name("left")
    for number in range(3):
        flusher.replace("A.json", b"%d" % number)
        flusher.flush()
        failing_once(disk, f"journal.{number + 1}")
        flusher.replace("B.json", b"%d" % number)
        flusher.flush()
        assert not flusher.unsaved()
        folder = left / f"{number}"
        folder.mkdir(parents=True)
        for name, data in disk.states(0, 0)[0].items():
            (folder / name).write_bytes(data)
        recover(folder)
        assert [(folder / name).read_bytes() for name in ("A.json", "B.json")] == [b"%d" % number] * 2
    flusher.end()


def test_next_script_is_refused_in_moved_folder(tmp_path: pathlib.Path) -> None:
    """The script goes on in the moved folder, and nothing is made at the old path."""
    folder, moved = tmp_path / "class", tmp_path / "moved"
    folder.mkdir()
    flusher = Flusher(folder)
    file = ScriptFile(folder, "A", flusher=flusher)
    file.append("1 enter")
    folder.rename(moved)
    for is_there in (False, True):
        if is_there:
            folder.mkdir()
        with pytest.raises(FileNotFoundError, match="the class's folder was moved or removed"):
            file.successor(2, b"1 enter\n")
        assert [path.name for path in tmp_path.iterdir() if path.name == "class"] == ["class"] * is_there
    file.append("1 go")
    assert (moved / "A.script").read_bytes() == b"1 enter\n1 go\n" and not list(folder.iterdir())
    folder.rmdir()
    moved.rename(folder)
    file.successor(2, b"1 enter\n").close()
    assert (folder / "A.2.script").read_bytes() == b"1 enter\n"
    file.close()
    flusher.end()
