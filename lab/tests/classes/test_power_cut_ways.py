"""Power cuts of a busy class, at many moments and in seven ways each: whatever the disk has, the class opens with what is a second old.

All calls that write below the folder are recorded on a model disk (`support/disk.py`), while sixteen seats on two machines step, type,
raise hands and take names, and answers are checked; a second server goes on with a state that a cut has left. The gate opens
40 states; by hand, CUT_STATES=300 python -m pytest FILE opens 300 (CONTRIBUTING.md).
"""

import json
import os
import pathlib
import random
from types import SimpleNamespace
from typing import Any

import pytest

from classes.test_power_cut import passing_check, remove_others
from support.class_tabs import LOOP, SECONDS
from support.disk import Contents, Disk
from vecmon_lab.classes.server import checks, damage, disk_files, durable, folder_lock, journal, saving, script_file
from vecmon_lab.classes.core.languages import SourceText
from vecmon_lab.classes.core.requests import LinesRequest
from vecmon_lab.classes.server.server import KEEP_SECONDS
from vecmon_lab.classes.server.store import Store
from vecmon_lab.classes.server.served_class import Class

STATES = int(os.environ.get("CUT_STATES", "40"))
SEATS = [f"{machine}{digit}" for machine in "AB" for digit in range(1, 9)]
TICK = 0.1  # seconds of the lesson's clock between the acts of all seats
FLUSHED = round(KEEP_SECONDS / TICK)  # ticks between batches
SHORTENED = 9  # ticks between looks at journals
EXERCISE = pathlib.Path("doubles")

Known = dict[str, Any]
"""What was acknowledged: by seat the number of its steps, draft, name and hand; "tries" by seat."""


class BusyLesson:
    """A class whose seats all work, on a recorded disk; `known` has what was acknowledged at each moment."""

    def __init__(self, folder: pathlib.Path, program: pathlib.Path, disk: Disk, start: int) -> None:
        """start: the number of acts before, by an earlier server"""
        self.disk, self.now, self.number, self.cuts = disk, 0.0, start, list[tuple[Contents, Known]]()
        self.members = Class(Store(folder, program, machines=2), SECONDS, clock=False, exercises=[EXERCISE])
        self.known: list[tuple[float, Known]] = []
        self._drawn = random.Random(start)
        self._chosen = set[int]()

    async def work(self, ticks: int, states: int, calls: int) -> None:
        """Works for some ticks; about `calls` calls are expected, from which moments for this number of states are drawn."""
        moments = 3 * states // len(self.disk.WAYS)  # since some of the states are equal
        self._chosen = {self.disk.operations + it for it in self._drawn.sample(range(calls), min(calls, moments))}
        self.disk.before_each = self._cut
        for tick in range(ticks):
            self.now += TICK
            self.number += 1
            await self._act()
            self.known.append((self.now, self._acknowledged()))
            if tick % FLUSHED == 0:
                self.members.save(with_counts=False)
                self.members.store.texts.flush()
            if tick % SHORTENED == SHORTENED - 1:
                self.members.store.texts.shorten_journals()
        self.members.end()
        self.disk.before_each = lambda: None

    async def _act(self) -> None:
        """Each seat does something."""
        for seat in SEATS:
            room = self.members.rooms[seat[0]]
            lines = [f"step {self.number}"] if self.number > 1 else LOOP
            await room.lines(room.seats.users[seat[1]], LinesRequest(lines), [])
            source = self.members.students[seat].source
            source.draft(SourceText(f"draft {self.number}"), source.number)
            self.members.set_name(seat, f"Ada {self.number}")
            self.members.set_hand(seat, True, f"question {self.number}")
        self.members.checks.begin(SEATS[self.number % len(SEATS)], EXERCISE.name, SourceText("nop"))
        for task in list(self.members.checks._tasks):
            await task

    def _acknowledged(self) -> Known:
        tries = {seat: len(self.members.checks.exercises.progress(seat, EXERCISE.name).tries) for seat in SEATS}
        return {"number": self.number, "tries": tries}

    def _cut(self) -> None:
        """Keeps the states that a cut at a chosen call may leave."""
        if self.disk.operations in self._chosen:
            known = [done for when, done in self.known if when <= self.now - 1.0] or [{"number": 0, "tries": {}}]
            self.cuts += [(contents, known[-1]) for contents in self.disk.states_by_way(self.disk.operations)]


def write(contents: Contents, folder: pathlib.Path) -> None:
    """Makes a folder what a cut has left."""
    remove_others(folder, {folder / name for name in contents})
    for name, data in contents.items():
        (folder / name).parent.mkdir(parents=True, exist_ok=True)
        (folder / name).write_bytes(data)


def check(contents: Contents, known: Known, folder: pathlib.Path, program: pathlib.Path) -> None:
    """Opens what a cut has left, and compares it with what was acknowledged a second before."""
    write(contents, folder)
    members, number = Class(Store(folder, program), SECONDS), known["number"]
    for seat in SEATS if number else ():
        lines = members.rooms[seat[0]].session.script.decode().splitlines()
        assert f"{seat[1]} step {number}" in lines or number == 1
        assert int(members.students[seat].source.own.text.removeprefix("draft ")) >= number
        assert int(members.names[seat].removeprefix("Ada ")) >= number
        hand = members.hands.of(seat)
        assert hand and int(hand["text"].removeprefix("question ")) >= number
        assert len(members.checks.exercises.progress(seat, EXERCISE.name).tries) >= known["tries"][seat]
    members.end()


@pytest.mark.asyncio
async def test_busy_class_opens_after_cuts_in_seven_ways(
    tmp_path: pathlib.Path, program: pathlib.Path, monkeypatch: pytest.MonkeyPatch
) -> None:
    """The second server starts with a state of the first one, in which files are torn and the journal isn't."""
    for name in ("FLUSH_SECONDS", "JOURNAL_SECONDS"):
        monkeypatch.setattr(durable, name, 1e6)
    monkeypatch.setattr(saving, "COUNTS_SECONDS", 0.0)
    monkeypatch.setattr(checks.Checks, "_run", passing_check)
    monkeypatch.setattr(checks, "settled", lambda program, exercise: exercise)
    cuts, start = list[tuple[Contents, Known]](), 0
    for number in (1, 2):
        folder = tmp_path / f"class{number}"
        disk = Disk(folder)
        if cuts:
            contents, known = cuts[-2]  # a prefix of the renames, with torn data
            write(contents, folder)
            disk.begin_with(contents)
            start = known["number"] + 100
        with monkeypatch.context() as recorded:
            for module in (damage, disk_files, durable, folder_lock, journal, script_file):
                recorded.setattr(module, "os", disk)
            lesson = BusyLesson(folder, program, disk, start)
            await lesson.work(ticks=30, states=-(-STATES // 2), calls=800)
        cuts += lesson.cuts
    different = {json.dumps(sorted((name, data.hex()) for name, data in cut[0].items())): cut for cut in cuts}
    assert len(different) >= STATES
    for module in (disk_files, journal):
        monkeypatch.setattr(module, "os", SimpleNamespace(**vars(os) | {"fsync": lambda file: None}))
    for contents, known in random.Random(STATES).sample(list(different.values()), STATES):
        check(contents, known, tmp_path / "cut", program)
