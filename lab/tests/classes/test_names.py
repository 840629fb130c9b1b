"""Students' names: who receives them, where they are saved, and how they are deleted."""

import csv
import io
import json
import pathlib
import zipfile

import pytest

from support.class_tabs import LOOP, served
from vecmon_lab.__main__ import arguments_of
from vecmon_lab.classes.server.command import run
from vecmon_lab.classes.core.names import as_csv, checked_name
from vecmon_lab.classes.core.bad_request import BadRequest
from vecmon_lab.classes.server.folder_lock import BadFolder
from vecmon_lab.classes.server.unserved_class import forget

NAME = "Zoë O'Brien-Šarić Jr. 2"


@pytest.mark.parametrize(
    "typed, name",
    [
        (NAME, NAME),
        ("  Ada  ", "Ada"),
        ("", ""),
        ("   ", ""),
        ("Zoe\u0308", "Zoë"),
        ("O’Brien", "O'Brien"),
        ("अदिति", "अदिति"),
        ("မြွှို့", "မြွှို့"),
        ("דָּוִ֑ד", "דָּוִ֑ד"),
        ("李小龍", "李小龍"),
        ("a" * 40, "a" * 40),
    ],
)
def test_name_is_normalized(typed: str, name: str) -> None:
    assert checked_name(typed) == name


def test_csv_cell_is_never_formula() -> None:
    rows = [["=HYPERLINK(1)", "+1", "-1", "@x", -1], ["A1", "", "Ada", "1=1", 0]]
    assert as_csv(rows).decode("utf-8-sig") == "'=HYPERLINK(1),'+1,'-1,'@x,-1\r\nA1,,Ada,1=1,0\r\n"


@pytest.mark.parametrize(
    "typed",
    ["a" * 41, "1 Ada", "=Ada", "-Ada", "'Ada", "@Ada", ".Ada", "\u0308Ada", "Ada\n", "Ada\tL", "Ada, L", 'Ada "L"']
    + [
        "<b>Ada</b>",
        "Ada &",
        "Ada;L",
        "Ada/L",
        "Ada\\",
        "Ada\0",
        "Ada\u202e",
        "Ada\ud800",
        "Ada😀",
        "Ada\u200b",
        "A_",
        "A+",
        *("\u3164", "\uffa0\uffa0", "\u115f\u1160", "Ada\ufe0f", "Ada\u034f"),
        "Z" + "\u0335\u0301\u0317" * 4,
        "Z" + "\u0301" * 5,
    ],
)
def test_invalid_name_is_refused(typed: str) -> None:
    with pytest.raises(BadRequest, match="a name begins with a letter"):
        checked_name(typed)


async def _check_restart(folder: pathlib.Path) -> None:
    """A restarted class has the name; the seat removes it, and no other command may delete it meanwhile."""
    async with served(folder) as room:
        tab = await room.sit("A3")
        assert tab.view["name"] == NAME
        with pytest.raises(BadFolder, match="is served by another server"):
            forget(folder, "names.json")
        await tab.ask("name", name="")
        assert tab.view["name"] == ""


@pytest.mark.asyncio
async def test_name_is_sent_to_seat_and_teacher_only(tmp_path: pathlib.Path) -> None:
    """The seat and the teacher, the table and what is taken home; no machine, no other seat, no wall, no file's name."""
    folder = tmp_path / "class"
    async with served(folder, machines=2) as room:
        tab, other, wall, teacher = [await room.sit(role) for role in ("A3", "A4", "wall", "teacher")]
        await teacher.ask("wall", seat="A3")
        await tab.do(*LOOP, "step 1")
        assert tab.view["name"] == "" and "error" not in await tab.ask("name", seat="A4", name=f" {NAME} ")
        assert tab.view["name"] == NAME
        await teacher.until(lambda view: view["machines"]["A"]["seats"]["3"]["name"] == NAME)
        assert "error" not in await teacher.ask("name", seat="B8", name="Bo")
        for name in ("<b>", "=1", 5, ["Ada"]):
            assert "error" in await tab.ask("name", name=name) and "error" in await teacher.ask(
                "name", seat="A3", name=name
            )
        assert (await teacher.ask("name", seat="A9", name="Ada"))["error"] == "there is no such seat"
        assert (await wall.ask("name", seat="A3", name="Ada"))["error"] == "the wall only looks"
        assert room.members
        room.members.store.texts.flush()
        assert json.loads((folder / "names.json").read_text()) == {"A3": NAME, "B8": "Bo"}
        status, data = await room.get("seats.csv")
        rows = list(csv.reader(io.StringIO(data.decode("utf-8-sig"))))
        assert status == 200 and len(rows) == 17 and rows[3][:4] == ["A3", NAME, "stopped", "paused: jal"]
        assert rows[16][:3] == ["B8", "Bo", "no machine"] and rows[4][:2] == ["A4", ""]
        assert [(await room.get("seats.csv", role))[0] for role in ("A3", "wall", None)] == [404] * 3
        packed = zipfile.ZipFile(io.BytesIO((await room.get("A3/home", "A3"))[1]))
        assert f"<title>Seat A3, {NAME.replace(chr(39), '&#x27;')}</title>" in packed.read("A3/A3.html").decode()
        assert packed.namelist() == ["A3/A3.script", "A3/A3.html", "A3/playground.json"]
        await other.do("enter")
        await wall.until(lambda view: view["state"].get("pc") == "10004")
        reply = json.dumps([other.view, other.logs, wall.view, tab.logs, teacher.logs], ensure_ascii=False)
        assert "Zo" not in reply and b"Zo" not in (await room.check_replay())[0]
    having = [path.name for path in folder.rglob("*") if path.is_file() and "O'Brien".encode() in path.read_bytes()]
    assert having == ["names.json"]
    await _check_restart(folder)
    assert json.loads((folder / "names.json").read_text()) == {"B8": "Bo"}


@pytest.mark.asyncio
async def test_class_deletes_names(tmp_path: pathlib.Path) -> None:
    """Also what a full disk has left half done, and damaged files that were set aside; the rest of the folder stays."""
    folder = tmp_path / "class"
    with pytest.raises(BadFolder, match="has no class"):
        forget(folder, "names.json")
    async with served(folder) as room:
        await (await room.sit("A3")).ask("name", name="Ada")
    before = {path.name for path in folder.iterdir()}
    for left in ("names.json.new", "names.json.damaged", "names.json.damaged-2", "journal.1.damaged"):
        (folder / left).write_text("Ada")
    for _ in range(2):
        assert run(arguments_of(["class", "--forget", str(folder)])) == 0
    assert {path.name for path in folder.iterdir()} == before - {"names.json"}
    async with served(folder) as room:
        assert (await room.sit("A3")).view["name"] == ""
