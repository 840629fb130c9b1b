"""The folder of a class, and how the command begins and ends: one line and status 2 for what can't be."""

import json
import os
import pathlib
import shutil
import socket
import stat
import sys
from collections.abc import Iterator
from typing import Any

import pytest

from support.class_tabs import LOOP, SECONDS, served
from support.places import SUM
from vecmon_lab.__main__ import main
from vecmon_lab.classes.server import durable, journal
from vecmon_lab.classes.server import server as class_server
from vecmon_lab.classes.server.folder_report import folder_report
from vecmon_lab.classes.server.stored_files import attempt
from vecmon_lab.classes.server.folder_lock import BadFolder
from vecmon_lab.classes.server.script_file import ScriptFile
from vecmon_lab.classes.server.store import Store
from vecmon_lab.classes.server.teacher_view import teacher_view
from vecmon_lab.classes.server.served_class import Class
from vecmon_lab.classes.server.tab import Tab
from vecmon_lab.machine.session import ProgramGone


@pytest.fixture
def store(tmp_path: pathlib.Path, program: pathlib.Path) -> Iterator[Store]:
    """A class with an image."""
    store = Store(tmp_path / "class", program, {"sum": SUM}, 50, 2)
    yield store


def test_store_preserves_codes_and_facts(store: Store, program: pathlib.Path) -> None:
    folder = store.folder
    assert stat.S_IMODE(folder.stat().st_mode) == 0o700
    codes = store.codes.codes
    assert len(codes) == 18 and json.loads((folder / "codes.json").read_text()) == codes
    store.close()
    kinds: list[tuple[Any, ...]] = [(), ({"sum": SUM}, 50, 1), ({}, None, 2)]
    for words in kinds:
        again = Store(folder, program, *words)
        assert again.codes.codes == codes and (again.quantum, again.machines) == (50, "AB")
        assert again.images["sum"].read_bytes() == SUM.read_bytes()
        again.close()
    larger = Store(folder, program, machines=3)
    assert larger.machines == "ABC" and larger.codes.codes.items() > codes.items()
    larger.close()


def test_changed_image_or_quantum_is_refused(store: Store, program: pathlib.Path, tmp_path: pathlib.Path) -> None:
    store.close()
    other = tmp_path / "other"
    other.write_bytes(program.read_bytes() + b"\0")
    other.chmod(0o755)
    for images in ({"sum": other}, {"sum": SUM, "more": SUM}, {"more": SUM}):
        with pytest.raises(BadFolder, match="begun with other images"):
            Store(store.folder, program, images)
    with pytest.raises(BadFolder, match="begun with --quantum 50"):
        Store(store.folder, program, quantum=51)
    Store(tmp_path / "copy", other).close()


def test_second_server_is_refused(store: Store, program: pathlib.Path) -> None:
    with pytest.raises(BadFolder, match="served by another server"):
        Store(store.folder, program)
    (store.folder / "lock").unlink()  # by somebody who tidies up
    with pytest.raises(BadFolder, match="served by another server"):
        Store(store.folder, program)
    store.close()
    Store(store.folder, program).close()


def test_unsaved_files_are_reported_at_the_end(
    tmp_path: pathlib.Path, program: pathlib.Path, monkeypatch: pytest.MonkeyPatch, capsys: pytest.CaptureFixture[str]
) -> None:
    """A disk that stays full: the command names what is lost, and its status is 2."""

    def refuse(*_: object) -> None:
        raise OSError(28, "No space left on device")

    async def serve(members: Class, _: str, listeners: list[socket.socket], *__: object, **___: object) -> None:
        for listener in listeners:
            listener.close()
        monkeypatch.setattr(journal.Journal, "append", refuse)
        monkeypatch.setattr(durable, "replace_file", refuse)
        members.set_name("A1", "Ada")
        members.save()
        members.end()

    monkeypatch.setattr(class_server, "serve", serve)
    monkeypatch.setattr(sys, "argv", ["vecmon-lab", "class", str(tmp_path / "class"), "--port", "0"])
    assert main() == 2
    output, errors = capsys.readouterr()
    assert output == "" and errors.count("\n") == 1
    assert errors.startswith("vecmon-lab: the class has ended, and a part of it is lost: ")
    assert "names.json isn't saved: No space left on device" in errors


def test_folder_without_class_is_refused(tmp_path: pathlib.Path, program: pathlib.Path) -> None:
    (tmp_path / "mine").write_text("thesis")
    with pytest.raises(BadFolder, match="has no class, but other files, mine among them"):
        Store(tmp_path, program)
    with pytest.raises(OSError):
        Store(tmp_path / "mine", program)
    for name, text in (("class.json", "{"), ("class.json", "[1]"), ("codes.json", "\xff"), ("class.json", "")):
        folder = tmp_path / "class"
        Store(folder, program).close()
        (folder / name).write_text(text, "latin-1")
        again = Store(folder, program)
        assert len(again.damage.sentences) == 1 and again.damage.sentences[0].startswith(
            f"{name} is damaged, and is now {name}.damaged: "
        )
        assert (folder / f"{name}.damaged").read_text("latin-1") == text
        again.close()
        again = Store(folder, program)
        assert not again.damage.sentences
        again.close()
        shutil.rmtree(folder)


@pytest.mark.parametrize("name", ["..", "a/b", "", "x" * 33, "é"])
def test_image_names_are_checked(tmp_path: pathlib.Path, program: pathlib.Path, name: str) -> None:
    if name == "..":
        Store(tmp_path / "class", program, {name: SUM}).close()  # the program takes it
        assert (tmp_path / "class" / "images" / "...elf").is_file()
        return
    with pytest.raises(BadFolder, match="a name has 1 to 32 letters"):
        Store(tmp_path / "class", program, {name: SUM})


def test_failed_start_leaves_empty_class(tmp_path: pathlib.Path, program: pathlib.Path) -> None:
    with pytest.raises(ProgramGone, match="--quantum"):
        Store(tmp_path / "class", program, quantum=0)
    Store(tmp_path / "class", program).close()


def test_script_file_is_appended(tmp_path: pathlib.Path) -> None:
    path = tmp_path / "A.script"
    path.write_bytes(b"1 enter\n1 step 1\n1 st")
    file = ScriptFile(tmp_path, "A")
    assert file.kept == b"1 enter\n1 step 1\n" == path.read_bytes()
    file.append("1 go")
    assert path.read_bytes() == b"1 enter\n1 step 1\n1 go\n"
    file.cut(len(file.kept))
    assert path.read_bytes() == file.kept and file.is_saved
    os.close(file._file)
    file._file = os.open(path, os.O_RDONLY)  # a disk that takes nothing
    file.append("1 step 2")
    file.append("1 step 3")
    assert "isn't saved" in file.warning and not file.is_saved
    file.cut(len(file.kept) + len("1 step 2\n"))
    file.close()
    file._file = os.open(path, os.O_RDWR)
    file.catch_up()
    assert path.read_bytes() == file.kept + b"1 step 2\n" and file.is_saved and not file.warning
    file.close()


JUNK = [b"", b"{}", b"null", b"\xff\0\x80junk", b'{"lines": "5"}', b"[" * 100_000, b'{"stops": {"1": "exit"}}']


@pytest.mark.parametrize("junk", JUNK, ids=range(len(JUNK)))
@pytest.mark.asyncio
async def test_damaged_file_is_set_aside(tmp_path: pathlib.Path, program: pathlib.Path, junk: bytes) -> None:
    """A class opens with what it can read, sets the damaged file aside, and says which; to check it changes nothing."""
    whole = tmp_path / "whole"
    async with served(whole, {"sum": SUM}) as room:
        await (await room.sit("A1")).do(*LOOP, "step 1")
        await (await room.sit("A2")).ask("name", name="Ada")
        assert room.members
        await (await room.sit("teacher")).ask("write", seat="A3", text="Read page 5")
        assert (
            room.members.store.texts.write("answers/A1.doubles.1.json", attempt())
            and not room.members.store.damage.summary
        )
    script = (whole / "A.script").read_bytes()
    for name in ("class.json", "codes.json", "names.json", "notices.json", "A.json", "answers/A1.doubles.1.json"):
        folder = tmp_path / name.replace("/", "_")
        shutil.copytree(whole, folder)
        (folder / name).write_bytes(junk)
        whole_ones = {"names.json": [b"{}", b'{"lines": "5"}'], "notices.json": [b"{}"]}  # as there may be
        is_damaged = junk not in whole_ones.get(name, [])
        before = {path: path.read_bytes() for path in folder.rglob("*") if path.is_file()}
        report, has_lost = folder_report(folder, program)
        assert (
            has_lost == is_damaged and any(line.startswith(f"lost: {name} is damaged") for line in report) == is_damaged
        )
        assert {path: path.read_bytes() for path in folder.rglob("*") if path.is_file()} == before
        members = Class(Store(folder, program), SECONDS)
        assert [sentence.split(",")[0] for sentence in members.store.damage.sentences] == [
            f"{name} is damaged"
        ] * is_damaged
        assert members.rooms["A"].session.script == script and members.store.images["sum"].exists()
        assert (f"{name} is damaged" in teacher_view(members, Tab("teacher"))["trouble"]) == is_damaged
        members.end()
        assert not is_damaged or (folder / f"{name}.damaged").read_bytes() == junk


def test_damaged_script_is_truncated(tmp_path: pathlib.Path, program: pathlib.Path) -> None:
    """The machine goes on at the last good line, and the script as it was found is kept."""
    folder = tmp_path / "class"
    Store(folder, program).close()
    for damaged, lines, sentence in (
        (
            b"1 enter\n1 step\0\n1 go\n",
            1,
            "is damaged behind line 1, and A.script.damaged is a copy of it: the last 13 bytes",
        ),
        (b"1 enter\n1 st", 1, "is damaged behind line 1: the last 4 bytes are lost"),
        (b"1 enter\n1 ", 1, "is damaged behind line 1: the last 2 bytes are lost"),
        (bytes(4096), 0, "is damaged behind line 0: the last 4,096 bytes are lost"),
    ):
        (folder / "A.script").write_bytes(damaged)
        (folder / "A.json").unlink(missing_ok=True)
        members = Class(Store(folder, program), SECONDS)
        assert sentence in members.store.damage.sentences[0] and len(members.store.damage.sentences) == 1
        assert members.rooms["A"].session.lines == lines == (folder / "A.script").read_bytes().count(b"\n")
        members.end()
    assert (folder / "A.script.damaged").read_bytes() == b"1 enter\n1 step\0\n1 go\n"


@pytest.mark.parametrize("set_up, condition, losses", [(4, "Ended", 0), (5, "Ready", 1)])
def test_lost_set_up_loses_stops(
    tmp_path: pathlib.Path, program: pathlib.Path, set_up: int, condition: str, losses: int
) -> None:
    """The stops in a machine's notes belong to the state that the set-up of its last script makes."""
    folder = tmp_path / "class"
    Store(folder, program).close()
    (folder / "A.script").write_bytes(b"1 enter\n")
    (folder / "A.2.script").write_bytes(b"1 enter\n1 map 0 1 rx\n")
    (folder / "A.3.script").write_bytes(b"1 enter\n1 map 0 1 rx\n1 asm 0 ebreak\n1 setpc 0\n")
    notes = {"lines": set_up, "scripts": [0, 2, set_up], "stops": {"1": "ebreak pc=0000000000000000"}}
    (folder / "A.json").write_text(json.dumps(notes))
    members = Class(Store(folder, program), SECONDS)
    assert members.seat("A1").condition == condition and len(members.store.damage.sentences) == losses
    members.end()


def test_unreadable_file_is_refused(tmp_path: pathlib.Path, program: pathlib.Path) -> None:
    folder = tmp_path / "class"
    Store(folder, program).close()
    for name in ("class.json", "codes.json"):
        (folder / name).write_bytes(b"")
    (folder / "A.script").write_bytes(b"\0")
    for is_reading in (False, True):
        with pytest.raises(BadFolder, match="copy the folder back from a backup, or name another folder"):
            Store(folder, program, is_reading=is_reading)
    assert (folder / "class.json").read_bytes() == b""
    (folder / "A.script").write_bytes(b"1 enter\n")
    members = Class(Store(folder, program), SECONDS)
    assert len(members.store.damage.sentences) == 2 and members.rooms["A"].session.lines == 1
    members.end()


def test_lost_answer_preserves_other_numbers(tmp_path: pathlib.Path, program: pathlib.Path) -> None:
    answers = tmp_path / "class" / "answers"
    Store(tmp_path / "class", program).close()
    answers.mkdir()
    for number in (1, 3):
        expected = {"time": number, "text": f"# {number}", "suffix": "s", "told": {"cases": [number == 3] * 5}}
        (answers / f"A1.doubles.{number}.json").write_text(json.dumps(expected))
    members = Class(Store(tmp_path / "class", program), SECONDS, exercises=[pathlib.Path("doubles")])
    progress = members.checks.exercises.progress("A1", "doubles")
    assert progress.tries == [(1, 0), (0, 0), (3, 5)] and progress.first == 3
    assert [members.checks.try_of("A1", "doubles", number)["text"] for number in (1, 2, 3)] == ["# 1", "", "# 3"]
    members.end()


@pytest.mark.asyncio
async def test_damaged_image_is_refused(tmp_path: pathlib.Path, program: pathlib.Path) -> None:
    """The class opens without it, and loads it again once it is named; to check changes nothing."""
    folder = tmp_path / "class"
    path = folder / "images" / "sum.elf"
    async with served(folder, {"sum": SUM}) as room:
        assert (await (await room.sit("A1")).do("enter", "load sum"))[-1][0].startswith("loaded")
    for damage, state in ((b"junk", "damaged, and is now images/sum.elf.damaged"), (None, "lost")):
        if damage is None:
            path.unlink(missing_ok=True)
        else:
            path.write_bytes(damage)
        report, has_lost = folder_report(folder, program)
        assert has_lost and any(line.startswith(f"lost: images/sum.elf is {state[:4]}") for line in report)
        assert not (folder / "images" / "sum.elf.damaged").exists() or damage is None
        async with served(folder) as room:
            teacher, tab = await room.sit("teacher"), await room.sit("A1")
            assert (
                f"images/sum.elf is {state}: no machine loads it" in teacher.view["trouble"] and not tab.view["images"]
            )
            assert (await tab.do("load sum"))[-1][0].startswith("E")
    assert (folder / "images" / "sum.elf.damaged").read_bytes() == b"junk"
    again = Store(folder, program, {"sum": SUM})
    assert path.read_bytes() == SUM.read_bytes() and "it is a copy of" in again.damage.sentences[0]
    again.close()


@pytest.mark.asyncio
async def test_damaged_seat_program_is_dropped(tmp_path: pathlib.Path, program: pathlib.Path) -> None:
    """The compiled source in a seat's machine: the seat has no listing of it, which is reported."""
    folder = tmp_path / "class"
    Store(folder, program).close()
    (folder / "A2.written.O2.c").write_text("int main(void) { return 0; }")
    for damage in (b"", b"{}", b"junk"):
        (folder / "A2.written.json").write_bytes(damage)
        members = Class(Store(folder, program), SECONDS)
        sentence = (
            "A2.written.*: the source of the seat's machine isn't listed, since the compiler's output can't be read"
        )
        assert members.store.damage.sentences == [sentence] and f"lost: {sentence}" in folder_report(folder, program)[0]
        members.end()


def test_class_command_refuses_bad_arguments(
    tmp_path: pathlib.Path, program: pathlib.Path, monkeypatch: pytest.MonkeyPatch, capsys: pytest.CaptureFixture[str]
) -> None:
    def failed(*arguments: str) -> str:
        monkeypatch.setattr(sys, "argv", ["vecmon-lab", *arguments])
        try:
            status: object = main()
        except SystemExit as end:
            status = end.code
        output = capsys.readouterr()
        assert (status, output.out, output.err.count("\n")) == (2, "", 1), arguments
        return output.err

    folder = tmp_path / "class"
    first = Store(folder, program)
    assert "served by another server" in failed("class", str(folder))
    first.close()
    with socket.create_server(("127.0.0.1", 0)) as taken:
        port = str(taken.getsockname()[1])
        assert f"port {port}: " in failed("class", str(folder), "--port", port)
    (tmp_path / "file").touch()
    for bad in ("/proc/nowhere", str(tmp_path / "file"), str(tmp_path)):
        failed("class", bad)
    numbers = ("--port 70000", "--machines 13", "--patience 0", "--patience nan", "--address x")
    for option in ("--host 192.0.2.1", "--host nowhere.invalid", *numbers):
        failed("class", str(folder), *option.split())
    assert "are required: DIR;" in failed("class")
    failed("class", str(tmp_path / "new"), "sum=nowhere")
    for seat in ("A9", "B1", "", "1", "A"):
        assert "there is no seat" in failed("solo", str(folder), seat)
    assert "has no class" in failed("solo", str(tmp_path / "nowhere"), "A1")
    assert f"{tmp_path / 'file'} has no class" in failed("solo", str(tmp_path / "file"), "A1")
    assert not (tmp_path / "nowhere").exists()
