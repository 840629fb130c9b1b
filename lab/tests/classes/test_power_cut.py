"""A power cut at any moment: whatever of the unflushed writes the disk has, the class opens, and has what is a second old."""

import functools
import json
import os
import pathlib
from collections.abc import Awaitable, Callable, Container
from dataclasses import dataclass, field
from types import SimpleNamespace

import pytest

from support.class_tabs import LOOP, SECONDS
from support.disk import Contents, Disk
from vecmon_lab.classes.server import checks, damage, disk_files, durable, folder_lock, journal, saving, script_file
from vecmon_lab.classes.core.languages import SourceText
from vecmon_lab.classes.core.live import is_servers
from vecmon_lab.classes.core.requests import LinesRequest
from vecmon_lab.classes.server.server import KEEP_SECONDS
from vecmon_lab.classes.server.folder_lock import BadFolder
from vecmon_lab.classes.server.script_file import script_name
from vecmon_lab.classes.server.store import Store
from vecmon_lab.classes.server.served_class import Class
from vecmon_lab.exercises.exercise import read_exercise

TICK, TICKS = 0.05, 96  # seconds, and their number
EVERY = round(KEEP_SECONDS / TICK)  # ticks between looks at unsaved data; the batch has it that many ticks later
RENEWED = 40  # ticks between new codes; each waits for the disk
SHORTENED = 30  # ticks between journals
DRAWS = 2  # states with some of the writes, at each moment
OPENED = 3  # one state in this number is opened
EXERCISE = pathlib.Path("doubles")


@dataclass
class Acknowledged:
    """How much of each kind the server has acknowledged: lines of A1, drafts of A2, names and codes of A3, tries of A1.

    There are as many messages to A4 and A5 as names; A4 has read its own.
    """

    lines: list[str] = field(default_factory=list)
    drafts: int = 0
    names: int = 0
    codes: list[str] = field(default_factory=list)
    tries: int = 0

    def copy(self) -> "Acknowledged":
        """As it is now."""
        return Acknowledged(list(self.lines), self.drafts, self.names, list(self.codes), self.tries)


@dataclass
class Cut:
    """A power cut: a state of the disk, and what was acknowledged a second before."""

    contents: Contents
    known: Acknowledged


class Lesson:
    """A class at work on a recorded disk, by a clock of its own; the thread that flushes is called by that clock, too."""

    def __init__(self, folder: pathlib.Path, program: pathlib.Path, disk: Disk) -> None:
        self.disk, self.now, self.done, self.cuts = disk, 0.0, Acknowledged(), list[Cut]()
        self._history = [(0.0, Acknowledged())]
        self.members = Class(Store(folder, program), SECONDS, clock=False, exercises=[EXERCISE])
        self.disk.before_each = self._cut

    async def work(self) -> None:
        """Gives lessons for some seconds."""
        acts: list[Callable[[], Awaitable[None]]] = [self._step, self._draft, self._step, self._rename, self._try]
        room = self.members.rooms["A"]
        await self._do(*LOOP)
        for tick in range(TICKS):
            self.now += TICK
            if tick % EVERY == 0:
                self.members.store.texts.flush()
                self.members.save(with_counts=False)
                self.disk.check()
            if tick % SHORTENED == 0:
                self.members.store.texts.shorten_journals()
            await acts[tick % len(acts)]()
            if tick % RENEWED == 0:
                await self._renew()
            if tick == TICKS // 2:
                await room.make_checkpoint()
                await room.begin_script()
            self._history.append((self.now, self.done.copy()))
        self.members.end()

    def _cut(self) -> None:
        """Keeps what a cut now may leave."""
        known = [done for when, done in self._history if when <= self.now - 1.0] or [Acknowledged()]
        self.cuts += [Cut(contents, known[-1]) for contents in self.disk.states(DRAWS, self.disk.operations)]

    async def _do(self, *lines: str) -> None:
        room = self.members.rooms["A"]
        await room.lines(room.seats.users["1"], LinesRequest(list(lines)), [])
        self.done.lines += [f"1 {line}" for line in lines]

    async def _step(self) -> None:
        await self._do(f"step {len(self.done.lines)}")

    async def _draft(self) -> None:
        source = self.members.students["A2"].source
        source.draft(SourceText(f"draft {self.done.drafts + 1}"), source.number)
        self.done.drafts += 1

    async def _rename(self) -> None:
        self.members.set_name("A3", f"Ada {self.done.names + 1}")
        self.done.names += 1
        self.members.notices.add(["A4", "A5"], f"message {self.done.names}")
        self.members.notices.read("A4", self.done.names)

    async def _renew(self) -> None:
        await self.members.renew("A3")
        self.done.codes.append(self.members.codes.codes["A3"])

    async def _try(self) -> None:
        self.members.checks.begin("A1", EXERCISE.name, SourceText("nop"))
        for task in list(self.members.checks._tasks):
            await task
        self.done.tries += 1


async def passing_check(*_: object) -> bytes:
    """The message of a check: this test checks no answers."""
    return json.dumps({"cases": [{"name": f"{number}", "passed": True} for number in range(5)]}).encode()


async def cuts_of(
    folder: pathlib.Path, program: pathlib.Path, monkeypatch: pytest.MonkeyPatch, flushes: bool
) -> list[Cut]:
    """The different states that cuts of a lesson leave; flushes: whether the disk does what `fsync` asks for."""
    for name in ("FLUSH_SECONDS", "JOURNAL_SECONDS"):
        monkeypatch.setattr(durable, name, 1e6)
    monkeypatch.setattr(saving, "COUNTS_SECONDS", 0.0)
    monkeypatch.setattr(checks.Checks, "_run", passing_check)
    monkeypatch.setattr(checks, "settled", lambda program, exercise: exercise)
    monkeypatch.setattr(checks, "read_exercise", functools.cache(read_exercise))  # a thousand classes open
    with monkeypatch.context() as recorded:
        disk = Disk(folder, flushes=flushes)
        for module in (damage, disk_files, durable, folder_lock, journal, script_file):
            recorded.setattr(module, "os", disk)
        lesson = Lesson(folder, program, disk)
        await lesson.work()
    # the last of equal states, by when most was acknowledged
    different = {
        json.dumps(sorted((name, data.hex()) for name, data in cut.contents.items())): cut for cut in lesson.cuts
    }
    return list(different.values())


def remove_others(folder: pathlib.Path, files: Container[pathlib.Path]) -> None:
    """Removes what isn't one of these files, nor a folder with some."""
    for path in sorted(folder.rglob("*"), reverse=True):
        if path.is_dir() and not any(path.iterdir()):
            path.rmdir()
        elif path.is_file() and path not in files:
            path.unlink()


def check(cut: Cut, folder: pathlib.Path, program: pathlib.Path) -> None:
    """Opens what a cut left, and compares it with what the server had acknowledged a second before.

    folder: a new one, or that of another cut, whose files with the same bytes stay; a new folder for each cut takes twice the time
    """
    remove_others(folder, {folder / name for name in cut.contents})
    for number, (name, data) in enumerate(cut.contents.items()):
        (folder / name).parent.mkdir(parents=True, exist_ok=True)
        if not (folder / name).exists() or (folder / name).read_bytes() != data:
            (folder / name).write_bytes(data)
        os.utime(folder / name, (number, number))
    members, known = Class(Store(folder, program), SECONDS), cut.known
    lines, last = list[str](), list[str]()
    for number, start in enumerate(members.rooms["A"].scripts.set_up, 1):
        path = folder / script_name("A", number)
        last = path.read_text().splitlines()[start:] if path.exists() else []
        lines += [line for line in last if not is_servers(line)]
    assert lines[: len(known.lines)] == known.lines
    log = [entry for entry in members.seat("A1").log.entries if entry[0] == ">"]
    assert log == [f">{line}" for line in last if line[0] == "1" and not is_servers(line)]
    assert int(members.students["A2"].source.own.text.removeprefix("draft ") or 0) >= known.drafts
    assert int(members.names.get("A3", "").removeprefix("Ada ") or 0) >= known.names
    for seat in ("A4", "A5"):
        messages = members.notices.of(seat)
        known_ones = [messages[f"{number}"] for number in range(1, known.names + 1)]
        assert [each["text"] for each in known_ones] == [f"message {number}" for number in range(1, known.names + 1)]
        assert {each["read"] for each in known_ones} <= {seat == "A4"}
    assert members.codes.codes["A3"] not in known.codes[:-1]
    if known.tries:
        assert len(members.checks.exercises.progress("A1", EXERCISE.name).tries) >= known.tries
    members.end()


@pytest.mark.asyncio
async def test_class_opens_after_every_power_cut(
    tmp_path: pathlib.Path, program: pathlib.Path, monkeypatch: pytest.MonkeyPatch
) -> None:
    cuts = await cuts_of(tmp_path / "class", program, monkeypatch, flushes=True)
    assert len(cuts) // OPENED >= 800
    for module in (disk_files, journal):
        monkeypatch.setattr(module, "os", SimpleNamespace(**vars(os) | {"fsync": lambda file: None}))
    for cut in cuts[::OPENED]:
        check(cut, tmp_path / "cut", program)


@pytest.mark.asyncio
async def test_missing_flush_is_detected(
    tmp_path: pathlib.Path, program: pathlib.Path, monkeypatch: pytest.MonkeyPatch
) -> None:
    """The test before can fail: without `fsync` acknowledged work is missing."""
    cuts = await cuts_of(tmp_path / "class", program, monkeypatch, flushes=False)
    with pytest.raises((AssertionError, BadFolder)):
        for cut in cuts[len(cuts) // 2 :]:
            check(cut, tmp_path / "cut", program)
