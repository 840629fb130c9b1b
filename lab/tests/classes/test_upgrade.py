"""A class continues with another program than before, such as that of a newer version, if its answers are the same."""

import hashlib
import json
import pathlib

import pytest
import pytest_asyncio

from support.class_tabs import LOOP, SECONDS
from vecmon_lab.classes.server.folder_report import folder_report
from vecmon_lab.classes.core.requests import LinesRequest
from vecmon_lab.classes.server.solo import solo
from vecmon_lab.classes.server.folder_lock import BadFolder
from vecmon_lab.classes.server.store import Store
from vecmon_lab.classes.server.served_class import Class

SCRIPT = "".join(f"1 {line}\n" for line in [*LOOP, "step 7"]).encode()


async def do(members: Class, *lines: str) -> list[list[str]]:
    """The answers to lines of seat A1."""
    room = members.rooms["A"]
    answers = list[list[str]]()
    await room.lines(room.seats.users["1"], LinesRequest([*lines]), answers)
    return answers


@pytest_asyncio.fixture  # type: ignore[misc]
async def folder(tmp_path: pathlib.Path, program: pathlib.Path) -> pathlib.Path:
    """The folder of a class that another program has served: its file has a byte more, and the same answers."""
    earlier = tmp_path / "earlier"
    earlier.write_bytes(program.read_bytes() + b"\0")
    earlier.chmod(0o755)
    members = Class(Store(tmp_path / "class", earlier), SECONDS)
    await do(members, *LOOP, "step 7")
    members.save()
    members.end()
    return tmp_path / "class"


def contents(folder: pathlib.Path) -> dict[str, bytes]:
    """The files of a folder."""
    return {path.name: path.read_bytes() for path in folder.iterdir()}


def served_by(folder: pathlib.Path) -> str:
    """The digest of the program that has served a class."""
    return str(json.loads((folder / "class.json").read_text())["program"])


def digest(program: pathlib.Path) -> str:
    return hashlib.sha256(program.read_bytes()).hexdigest()


@pytest.mark.asyncio
async def test_program_with_same_answers_continues(folder: pathlib.Path, program: pathlib.Path) -> None:
    assert served_by(folder) == digest(folder.parent / "earlier") != digest(program)
    members = Class(Store(folder, program), SECONDS)
    assert members.store.has_new_program and not members.store.damage.sentences
    assert served_by(folder) == digest(program)
    assert members.rooms["A"].session.script == SCRIPT
    assert await do(members, "step 1") == [["stepped 1 pc=0000000000010000"]]
    members.end()
    again = Store(folder, program)
    assert not again.has_new_program
    again.close()


@pytest.mark.asyncio
async def test_program_with_other_answers_is_refused(
    folder: pathlib.Path, program: pathlib.Path, tmp_path: pathlib.Path
) -> None:
    """The folder stays as it is, and the earlier program continues it."""
    other = tmp_path / "other"
    other.write_text(f"#!/bin/sh\n{program} \"$@\" | sed -u 's/stepped 7/stepped 8/'\n")
    other.chmod(0o755)
    before = contents(folder)
    with pytest.raises(BadFolder) as refusal:
        Class(Store(folder, other), SECONDS)
    assert str(refusal.value) == (
        f"{other} isn't the program that served {folder} before, and machine A's script has other answers now: "
        f"continue with the earlier program: VECMON=PATH vecmon-lab class {folder}"
    )
    assert contents(folder) == before
    members = Class(Store(folder, tmp_path / "earlier"), SECONDS)
    assert not members.store.has_new_program and members.rooms["A"].session.script == SCRIPT
    members.end()


@pytest.mark.asyncio
async def test_other_program_reads_class(folder: pathlib.Path, program: pathlib.Path) -> None:
    """`solo` and `class --check` change nothing, and the report names the program."""
    before = contents(folder)
    assert solo(Store(folder, program, is_reading=True), "A1") == SCRIPT.decode().splitlines()
    report, has_lost = folder_report(folder, program)
    sentence = f"program: {program} isn't the one that served the class before: the next start compares its answers"
    assert sentence in report and not has_lost
    assert contents(folder) == before
