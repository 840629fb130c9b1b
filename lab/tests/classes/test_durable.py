"""Files that survive a power cut: the order in which a batch writes, flushes and renames them."""

import os
import pathlib
import time
from binascii import crc32
from collections.abc import Iterator
from typing import Any

import pytest

from support.class_tabs import SECONDS
from vecmon_lab.classes.server import disk_files, durable, journal
from vecmon_lab.classes.server.durable import FLUSH_SECONDS, Flusher
from vecmon_lab.classes.server.server import KEEP_SECONDS


class Recorded:
    """Takes the place of `os` in a module: which calls it makes, with the names of files."""

    def __init__(self) -> None:
        self.calls: list[str] = []
        self._names: dict[int, str] = {}

    def __getattr__(self, name: str) -> Any:
        return getattr(os, name)

    def open(self, path: pathlib.Path, *flags: int) -> int:
        file = os.open(path, *flags)
        self._names[file] = path.name
        return file

    def fsync(self, file: int) -> None:
        self.calls.append(f"fsync {self._names[file]}")

    def pwrite(self, file: int, data: bytes, place: int) -> int:
        call = f"write {self._names[file]}"
        self.calls += [call] if self.calls[-1:] != [call] else []  # each takes a few bytes
        return os.pwrite(file, data[:4], place)

    def replace(self, old: pathlib.Path, new: pathlib.Path) -> None:
        self.calls.append(f"rename {old.name} {new.name}")
        os.replace(old, new)

    def unlink(self, path: pathlib.Path) -> None:
        self.calls.append(f"remove {path.name}")
        os.unlink(path)


class Appended:
    """A file that was appended to."""

    notes = "A.json"

    def __init__(self, calls: list[str]) -> None:
        self.calls, self.fails = calls, False

    def sync(self) -> None:
        if self.fails:
            raise OSError(5, "Input/output error")
        self.calls.append("fsync A.script")


@pytest.fixture
def recorded(monkeypatch: pytest.MonkeyPatch) -> Iterator[Recorded]:
    """What `durable` calls; its thread flushes nothing by itself."""
    monkeypatch.setattr(durable, "FLUSH_SECONDS", 1e6)
    recorded = Recorded()
    for module in (disk_files, durable, journal):
        monkeypatch.setattr(module, "os", recorded)
    yield recorded


def test_batch_is_flushed_in_order(tmp_path: pathlib.Path, recorded: Recorded) -> None:
    (tmp_path / "old.s").touch()
    flusher = Flusher(tmp_path)
    flusher.remove("old.s")
    flusher.replace("A.json", b"first")
    flusher.replace("A.json", b"second")
    flusher.flush_soon(Appended(recorded.calls))
    assert flusher.waiting("A.json") == b"second" and flusher.waiting("else") is None
    with pytest.raises(FileNotFoundError):
        flusher.waiting("old.s")
    flusher.flush()
    folder = f"fsync {tmp_path.name}"
    assert recorded.calls == [
        "fsync A.script", "write journal.1", "fsync journal.1", folder, "write A.json.new", "rename A.json.new A.json",
        "remove old.s",
    ]  # fmt: skip
    assert (tmp_path / "A.json").read_bytes() == b"second" and flusher.waiting("A.json") is None
    recorded.calls.clear()
    flusher.replace("sources/A1.s", b"")
    flusher.end()
    record = ["write journal.1", "fsync journal.1", folder, "rename A1.s.new A1.s"]  # and the new folder's name
    files = ["fsync A.json", "fsync A1.s", folder, "fsync sources"]
    assert recorded.calls == [*record, *files, folder, "remove journal.1", folder]
    assert sorted(path.name for path in tmp_path.iterdir()) == ["A.json", "sources"]


def test_busy_class_takes_few_syncs(tmp_path: pathlib.Path, recorded: Recorded) -> None:
    """A second after it was acknowledged everything of 30 busy seats is on the disk, if one sync takes 10 ms.

    Something is acknowledged just after a batch has begun, and a draft is passed on up to 0.3 s later.
    """
    flusher, seats = Flusher(tmp_path), [f"{machine}{digit}" for machine in "ABCD" for digit in range(1, 9)][:30]
    scripts = [Appended(recorded.calls) for _ in "ABCD"]
    counts = []
    for number in range(1, 6):
        recorded.calls.clear()
        for script in scripts:
            flusher.flush_soon(script)
        for name in ("names.json", "hands.json", *(f"{machine}.json" for machine in "ABCD")):
            flusher.replace(name, b"%d" % number)
        for seat in seats:
            for name in (f"{seat}.s", f"sources/{seat}.{number}.typed.s", f"answers/{seat}.doubles.{number}.json"):
                flusher.replace(name, b"%d" % number)
        flusher.flush()
        saved = recorded.calls[: recorded.calls.index("write names.json.new")]
        counts.append(sum(call.startswith("fsync ") for call in saved))
    assert counts == [6, 5, 5, 5, 5]
    assert KEEP_SECONDS + FLUSH_SECONDS + 2 * max(counts) * 0.010 < 0.8
    flusher.end()


def test_notes_are_written_after_script(tmp_path: pathlib.Path, recorded: Recorded) -> None:
    flusher, script = Flusher(tmp_path), Appended(recorded.calls)
    script.fails = True
    flusher.replace("A.json", b"counts the lines")
    flusher.flush_soon(script)
    flusher.flush()
    assert recorded.calls == [] and not flusher.is_saved("A.json") and not list(tmp_path.iterdir())
    script.fails = False
    flusher.end()
    assert recorded.calls[0] == "fsync A.script" and (tmp_path / "A.json").exists()


@pytest.mark.parametrize("place", ["write", "fsync"])
def test_full_disk_takes_each_file_by_itself(
    tmp_path: pathlib.Path, monkeypatch: pytest.MonkeyPatch, place: str
) -> None:
    """Where a record has no room: the journals before end first, since a start would bring back their older contents."""
    monkeypatch.setattr(durable, "FLUSH_SECONDS", 1e6)
    flusher = Flusher(tmp_path)
    flusher.replace("A.json", b"first")
    flusher.flush()
    assert (tmp_path / "journal.1").exists()

    def refuse(*_: object) -> None:
        raise OSError(28, "No space left on device")

    with monkeypatch.context() as full:
        full.setattr(journal, "write_all" if place == "write" else "os", refuse if place == "write" else NoSync())
        flusher.replace("A.json", b"second")
        flusher.flush()
        assert (tmp_path / "A.json").read_bytes() == (b"second" if place == "write" else b"first")
    assert place == "fsync" or not [*tmp_path.glob("journal.1")]
    flusher.flush()
    assert not flusher.failures and (tmp_path / "A.json").read_bytes() == b"second"
    assert dict(journal.journaled(tmp_path)[0]).get("A.json", b"second") == b"second"
    flusher.end()
    assert [path.name for path in tmp_path.iterdir()] == ["A.json"]


class NoSync:
    """Takes the place of `os`: nothing is flushed."""

    def __getattr__(self, name: str) -> Any:
        return getattr(os, name)

    def fsync(self, file: int) -> None:
        raise OSError(5, "Input/output error")


def test_journal_is_recovered(tmp_path: pathlib.Path) -> None:
    """Records up to a torn one, in their order; other bytes than UTF-8; a name outside the folder isn't one."""
    first = journal.record_of({"A1.s": b"old", "sources/A1.1.s": b"\xff\0", "A2.s": b"x"})
    second = journal.record_of({"A1.s": b"new \xc3\xa9", "A2.s": None, "../out": b"x", "/tmp/out": b"x"})
    for size in range(len(second) + 1):
        folder = tmp_path / str(size)
        folder.mkdir()
        (folder / "A2.s").write_bytes(b"before")
        (folder / "journal.2").write_bytes(first + second[:size])
        (folder / "journal.1").write_bytes(journal.record_of({"A1.s": b"older", "A3.s": b"kept"}))
        assert journal.recover(folder) == []
        is_whole = size == len(second)
        found = {path.relative_to(folder).as_posix(): path.read_bytes() for path in folder.rglob("*") if path.is_file()}
        expected = {"A1.s": "new é".encode()} if is_whole else {"A1.s": b"old", "A2.s": b"x"}
        assert found == expected | {"sources/A1.1.s": b"\xff\0", "A3.s": b"kept"}
    assert not (tmp_path / "out").exists()


def test_damaged_journal_is_reported(tmp_path: pathlib.Path) -> None:
    """Records behind the damage aren't used: they may rest on it."""
    one, two, three = (journal.record_of({f"A{number}.s": b"text"}) for number in (1, 2, 3))
    (tmp_path / "journal.1").write_bytes(one + two.replace(b"text", b"tent") + three)
    sentence = f"journal.1 is damaged behind byte {len(one)}: changes of the last minute may be lost"
    assert journal.recover(tmp_path) == [sentence]
    assert sorted(path.name for path in tmp_path.iterdir()) == ["A1.s", "journal.1.damaged"]


@pytest.mark.parametrize(
    "text",
    [b"[1]", b"null", b"{", b'{"A2.s": 1}', b'{"A2.s": {"text": "new"}}', b'{"\xff": "x"}', b'{"a\\u0000b": "x"}']
    + [b"[" * 100_000, b'{"A2.s": "\\ud800"}', b'{"\\ud800": "x"}', b'{"A2.s": ' + b"9" * 5_000 + b"}"],
    ids=[*map(str, range(11))],
)
def test_record_of_another_form_is_set_aside(tmp_path: pathlib.Path, text: bytes) -> None:
    """As a later version may write it: its length and its sum are right, and it is the last one."""
    before = journal.record_of({"A1.s": b"text"})
    data = before + b"%08x %08x\n%s\n" % (len(text), crc32(text), text)
    (tmp_path / "journal.1").write_bytes(data)
    sentence = f"journal.1 is damaged behind byte {len(before)}: changes of the last minute may be lost"
    assert journal.recover(tmp_path) == [sentence]
    assert (tmp_path / "A1.s").read_bytes() == b"text" and (tmp_path / "journal.1.damaged").read_bytes() == data
    assert sorted(path.name for path in tmp_path.iterdir()) == ["A1.s", "journal.1.damaged"]


def test_thread_flushes_files(tmp_path: pathlib.Path) -> None:
    flusher, end = Flusher(tmp_path), time.monotonic() + SECONDS
    assert durable.FLUSH_SECONDS < 0.5
    flusher.replace("folder", b"")
    while flusher.waiting("folder") is not None:
        assert time.monotonic() < end
        time.sleep(0.01)
    flusher.replace("folder/file", b"")  # which can't be
    flusher.flush()
    assert flusher.failures["folder/file"].startswith("folder/file isn't saved: ")
    (tmp_path / "folder").unlink()
    flusher.end()
    assert not flusher.failures and (tmp_path / "folder" / "file").exists()


def test_moved_folder_is_left_alone(tmp_path: pathlib.Path, recorded: Recorded) -> None:
    """Another folder by the same path, as of a new class, isn't written; all is saved once the folder is back."""
    folder = tmp_path / "class"
    folder.mkdir()
    flusher = Flusher(folder)
    flusher.replace("A.json", b"first")
    flusher.flush()
    folder.rename(tmp_path / "elsewhere")
    sentence = "A.json isn't saved: the class's folder was moved or removed"
    for is_there in (False, True):
        if is_there:
            folder.mkdir()
            (folder / "journal.1").write_bytes(b"another class's")
        flusher.replace("A.json", b"second")
        flusher.flush()
        assert flusher.failures == {"A.json": sentence} and flusher.unsaved() == [sentence]
        with pytest.raises(OSError, match="was moved or removed"):
            flusher.shorten()
        assert folder.exists() == is_there
    assert [path.name for path in folder.iterdir()] == ["journal.1"]
    (folder / "journal.1").unlink()
    folder.rmdir()
    (tmp_path / "elsewhere").rename(folder)
    flusher.end()
    assert flusher.unsaved() == [] and (folder / "A.json").read_bytes() == b"second"
    assert [path.name for path in folder.iterdir()] == ["A.json"]


def test_failing_script_delays_its_notes_alone(tmp_path: pathlib.Path, recorded: Recorded) -> None:
    flusher, script = Flusher(tmp_path), Appended(recorded.calls)
    script.fails = True
    flusher.flush_soon(script)
    for name in ("A.json", "B.json", "B1.s"):
        flusher.replace(name, b"text")
    flusher.flush()
    assert sorted(path.name for path in tmp_path.glob("*.*")) == ["B.json", "B1.s", "journal.1"]
    assert flusher.unsaved() == ["A.json isn't saved"]
    script.fails = False
    flusher.end()
    assert flusher.unsaved() == [] and sorted(path.name for path in tmp_path.iterdir()) == ["A.json", "B.json", "B1.s"]
