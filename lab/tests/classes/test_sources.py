"""The sources of a class: what is kept of them, who gives and sees them, and what they begin."""

import pathlib
import time
from collections.abc import AsyncIterator
from types import SimpleNamespace

import pytest
import pytest_asyncio

from support.class_tabs import Served, Tab, served
from vecmon_lab.classes.server.served_class import Class

pytestmark = pytest.mark.asyncio
LOOP = "loop:   addi t0, t0, 1   # counts\n        li a0, 5\n        j loop\n"


@pytest_asyncio.fixture  # type: ignore[misc]
async def room(tmp_path: pathlib.Path) -> AsyncIterator[Served]:
    async with served(tmp_path / "class") as room:
        yield room


async def test_restart_reloads_source_and_breakpoints(room: Served) -> None:
    """A new machine has the source of this one, and its breakpoints; a machine without a source has none again."""
    tab = await room.sit("A3")
    assert "no loaded source" in (await tab.ask("again"))["error"] and not tab.view["again"]
    assert (await tab.ask("source", text="nop\n nop 5\n"))["mistakes"] and not tab.view["again"]
    assert (await tab.ask("source", text=LOOP))["mistakes"] == [] and tab.view["again"]
    await tab.do("break 10004", "break 10008", "unbreak 10008", "step 2")
    assert tab.view["state"]["x"]["5"] == "1"
    assert (await tab.ask("again"))["mistakes"] == []
    state = tab.view["state"]
    assert (state["pc"], state["x"]["5"], state["breaks"], state["labels"]) == (
        "10000",
        "0",
        ["10004"],
        {"10000": ["loop"]},
    )
    await tab.do("go")
    assert (await tab.ask("again"))["mistakes"] == [] and tab.view["state"]["breaks"] == ["10004"]
    script = (await room.check_replay())[0].decode().splitlines()
    assert script.count("3 enter") == 3 and script[-1] == "3 break 10004"
    await tab.do("leave", "enter")
    assert not tab.view["again"]


async def test_draft_is_stored_for_seat(room: Served) -> None:
    """A draft is in other tabs and in a new one, and before the teacher who looks; others see nothing of it."""
    tab, other, teacher = await room.sit("A3"), await room.sit("A3"), await room.sit("teacher")
    outsider = await room.sit("A4")
    assert tab.view["source"] == {
        "text": "",
        "language": 0,
        "number": 0,
        "exercise": "",
        "stands": True,
        "versions": [],
    }
    await teacher.ask("shoulder", seat="A3")
    await tab.ask("draft", text="nop\r\n\tadd \u00e9", number=0)
    for each in (other, teacher):
        await each.until(lambda view: view["source"]["text"] == "nop\r\n\tadd \u00e9")
    stored = {
        "text": "nop\r\n\tadd \u00e9",
        "language": 0,
        "number": 1,
        "exercise": "",
        "stands": False,
        "versions": [],
    }
    assert (await room.sit("A3")).view["source"] == stored
    await outsider.do("enter")
    assert "nop" not in str(outsider.view)
    await teacher.ask("shoulder", seat="")
    assert "source" not in teacher.view
    for text, number in ((5, 1), ("x" * 65537, 1), ("x", None), ("x", "1")):
        assert "error" in await tab.ask("draft", text=text, number=number)
    assert "no such request" in (await teacher.ask("draft", text="x", number=0))["error"]
    await tab.ask("draft", text="\ud800", number=1)
    assert tab.view["source"]["text"] == "?"


async def test_both_windows_of_a_seat_are_counted(room: Served) -> None:
    """A connection of the same page, which has just reconnected, isn't another window; nor is another seat's or the teacher's."""
    tab, other = await room.sit("A1"), await room.sit("A1")
    await room.sit("A2")
    await room.sit("teacher")
    for each in (tab, other):
        await each.until(lambda view: view.get("windows") == 2)
    await other.socket.close()
    await tab.until(lambda view: "windows" not in view)
    for _ in range(2):
        socket = await room.session.ws_connect(room.url + "socket", max_msg_size=0)
        await socket.send_json({"code": room.codes["A3"], "page": "b" * 32})
        page = Tab(socket)
        await page.receive()
        assert page.who == "A3" and "windows" not in page.view


async def test_window_with_another_text_has_one_version(room: Served) -> None:
    """Its drafts leave the seat's text, and become one version, until it is made the seat's: then the other text is a version."""
    tab, other = await room.sit("A1"), await room.sit("A1")
    await tab.ask("draft", text="first", number=0)
    for text in ("s", "se", "sec"):
        await other.ask("draft", text=text, number=-1, window="w")
    await other.ask("draft", text="third", number=-1, window="v")
    source = other.view["source"]
    assert (source["text"], source["number"], [each["number"] for each in source["versions"]]) == ("first", 1, [1, 2])
    assert [(await tab.ask("version", number=number))["text"] for number in (1, 2)] == ["sec", "third"]
    await other.ask("draft", text="second", number=1, window="w")
    source = other.view["source"]
    assert (source["text"], source["number"], len(source["versions"])) == ("second", 2, 3)
    assert (await tab.ask("version", number=3))["text"] == "first"
    assert room.members
    keep(room.members)
    kept = {path.name: path.read_text() for path in (room.folder / "sources").iterdir()}
    assert kept == {"A1.1.typed.s": "sec", "A1.2.typed.s": "third", "A1.3.typed.s": "first"}


async def test_teachers_source_is_marked_until_it_changes(room: Served) -> None:
    tab, teacher = await room.sit("A1"), await room.sit("teacher")
    await tab.ask("draft", text="mine", number=0)
    assert "given" not in tab.view["source"]
    assert "error" not in await teacher.ask("give", seats=["A1"], text="theirs")
    await tab.until(lambda view: view["source"]["text"] == "theirs")
    assert tab.view["source"]["given"]
    await tab.ask("draft", text="mine again", number=tab.view["source"]["number"])
    assert "given" not in tab.view["source"]


async def test_late_draft_is_version(room: Served) -> None:
    """Of two tabs that type at once the first one's text stays; the other's isn't lost."""
    tab, other = await room.sit("A1"), await room.sit("A1")
    await tab.ask("draft", text="first", number=0)
    await other.ask("draft", text="second", number=0)
    source = other.view["source"]
    assert (source["text"], source["number"], [each["why"] for each in source["versions"]]) == ("first", 1, ["typed"])
    assert (await other.ask("version", number=1))["text"] == "second"
    for number in (0, 2, -1, None, "1"):
        assert "error" in await other.ask("version", number=number)


async def test_given_source_reaches_seats(room: Served) -> None:
    """The teacher gives a source to one seat or to all; the student's previous text is a version of the seat."""
    tab, other, teacher = await room.sit("A1"), await room.sit("A2"), await room.sit("teacher")
    await tab.ask("draft", text="mine", number=0)
    await teacher.ask("give", seat="A1", text="theirs")
    await tab.until(lambda view: view["source"]["text"] == "theirs")
    assert [each["why"] for each in tab.view["source"]["versions"]] == ["typed", "given"]
    assert [(await tab.ask("version", number=number))["text"] for number in (1, 2)] == ["mine", "theirs"]
    assert "gave a source" in tab.logs["A1"][-1] and other.view["source"]["text"] == ""
    await teacher.ask("give", seat="", text="all")
    for each in (tab, other):
        await each.until(lambda view: view["source"]["text"] == "all")
    assert "error" in await teacher.ask("give", seat="A9", text="x")
    assert "no such request" in (await tab.ask("give", seat="A2", text="x"))["error"]
    assert (await room.check_replay())[0] == b""


def keep(members: Class) -> None:
    """Brings the class's folder up to date, and waits for the disk."""
    members.save()
    members.store.texts.flush()


async def test_given_source_is_withdrawn(room: Served) -> None:
    """A blank source is refused. Where a student has changed the given source, taking it back changes nothing."""
    tab, other, teacher = await room.sit("A1"), await room.sit("A2"), await room.sit("teacher")
    await tab.ask("draft", text="mine", number=0)
    await other.ask("draft", text="yours", number=0)
    for blank in ("", " \n\t"):
        assert "the source to give is empty" in (await teacher.ask("give", seat="", text=blank))["error"]
    assert tab.view["source"]["text"] == "mine"
    assert (await teacher.ask("give", seat="", text="all"))["replaced"] == 2
    for each in (tab, other):
        await each.until(lambda view: view["source"]["text"] == "all")
    await other.ask("draft", text="all, changed", number=other.view["source"]["number"])
    assert (await room.sit("teacher")).view["given"] == {"seats": [], "replaced": 2}
    assert (await teacher.ask("take-back", seat=""))["replaced"] == 1 and "given" not in teacher.view
    await tab.until(lambda view: view["source"]["text"] == "mine")
    assert other.view["source"]["text"] == "all, changed"
    assert [each["why"] for each in tab.view["source"]["versions"]] == ["typed", "given", "typed"]
    assert (await teacher.ask("take-back", seat=""))["replaced"] == 0
    assert "no such request" in (await tab.ask("take-back", seat=""))["error"]


async def test_versions_are_stored(room: Served, monkeypatch: pytest.MonkeyPatch) -> None:
    """Writes are versions, and each half minute of typing; the folder has the last 50 of a seat."""
    tab, members = await room.sit("A1"), room.members
    assert members
    assert (await tab.ask("source", text="nop"))["mistakes"] == [] and (await tab.ask("source", text="nop 5"))[
        "mistakes"
    ]
    await tab.ask("source", text="nop 5")
    keep(members)
    reply = tab.view["source"]["versions"]
    assert [(each["number"], each["why"]) for each in reply] == [(1, "written"), (2, "written")]
    assert (room.folder / "A1.s").read_text() == "nop 5"
    assert (room.folder / "sources" / "A1.1.written.s").read_text() == "nop"
    await tab.ask("draft", text="typed", number=tab.view["source"]["number"])
    keep(members)
    assert (room.folder / "A1.s").read_text() == "typed" and len(tab.view["source"]["versions"]) == 2
    monkeypatch.setattr("vecmon_lab.classes.core.sources.TYPING_SECONDS", 0)
    members.save()
    await tab.until(lambda view: len(view["source"]["versions"]) == 3)
    members.save()
    for number in range(60):
        await tab.ask("source", text=f"# {number}")
    keep(members)
    assert [each["number"] for each in tab.view["source"]["versions"]] == list(range(14, 64))
    assert len(list((room.folder / "sources").iterdir())) == 50
    assert "error" in await tab.ask("version", number=13)


async def test_clock_that_is_set_back_delays_no_version(room: Served, monkeypatch: pytest.MonkeyPatch) -> None:
    tab, members = await room.sit("A1"), room.members
    assert members
    await tab.ask("draft", text="typed", number=0)
    for name, value in (("TYPING_SECONDS", 0), ("time", SimpleNamespace(time=lambda: 1e9, monotonic=time.monotonic))):
        monkeypatch.setattr(f"vecmon_lab.classes.core.sources.{name}", value)
    members.save()
    await tab.until(lambda view: [each["why"] for each in view["source"]["versions"]] == ["typed"])


async def test_restarted_class_preserves_sources(tmp_path: pathlib.Path) -> None:
    """After a restart a seat has its text and versions, and of its machine's source labels, lines and *Again*."""
    for number in range(2):
        async with served(tmp_path / "class") as room:
            tab = await room.sit("A3")
            if number == 0:
                assert (await tab.ask("source", text=LOOP))["mistakes"] == []
                await tab.ask("draft", text="later", number=1)
            source, state = tab.view["source"], tab.view["state"]
            assert source["text"] == "later" and [each["why"] for each in source["versions"]] == ["written"]
            assert (await tab.ask("version", number=1))["text"] == LOOP
            assert state["labels"] == {"10000": ["loop"]} and tab.view["again"]
            assert state["lines"] == {"10000": "addi t0, t0, 1   # counts", "10004": "li a0, 5", "10008": "j loop"}
    async with served(tmp_path / "class") as room:
        tab = await room.sit("A3")
        assert (await tab.ask("again"))["mistakes"] == []
        await tab.do("leave")
        assert tab.view["state"]["lines"] == {} and not tab.view["again"]
    async with served(tmp_path / "class") as room:
        assert not (await room.sit("A3")).view["again"]


async def test_full_disk_keeps_source_in_memory(room: Served, monkeypatch: pytest.MonkeyPatch) -> None:
    """The class reports data that the disk refuses, keeps it, and saves it as soon as there is room."""
    tab, teacher, members = await room.sit("A1"), await room.sit("teacher"), room.members
    assert members

    def refuse(*_: object) -> None:
        raise OSError(28, "No space left on device")

    with monkeypatch.context() as full:
        full.setattr("vecmon_lab.classes.server.durable.replace_file", refuse)
        full.setattr("vecmon_lab.classes.server.journal.Journal.append", refuse)
        await tab.ask("source", text="nop")
        keep(members)
        members.save()
        await teacher.until(lambda view: "A1.s isn't saved: No space left on device" in view["trouble"])
        await tab.until(lambda view: view["trouble"] == "your text isn't saved: No space left on device")
        assert (await room.sit("A2")).view["trouble"] == ""
        assert (await tab.ask("version", number=1))["text"] == "nop"
    keep(members)
    members.save()
    await teacher.until(lambda view: view["trouble"] == "")
    await tab.until(lambda view: view["trouble"] == "")
    assert (room.folder / "sources" / "A1.1.written.s").read_text() == "nop"
