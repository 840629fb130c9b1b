"""The source of each exercise at a seat: the server saves them, and nothing of them is replaced without becoming a version."""

import pathlib
import shutil
import time
from typing import Any

import pytest

from support.class_tabs import Tab, served
from vecmon_lab.classes.server import durable
from vecmon_lab.classes.core.languages import C
from vecmon_lab.exercises.exercise import OURS

pytestmark = pytest.mark.asyncio

TWO = [pathlib.Path("doubles"), pathlib.Path("byte_sum")]
GOOD = (OURS / "doubles" / "good.s").read_text("utf-8")


async def draft(tab: Tab, text: str, **words: Any) -> None:
    """Types a text."""
    assert "error" not in await tab.ask("draft", text=text, number=tab.view["source"]["number"], **words)


async def open_exercise(tab: Tab, name: str) -> Any:
    """Opens an exercise; the source that the tab shows then."""
    assert "error" not in await tab.ask("open", exercise=name)
    assert tab.view["source"]["exercise"] == name
    return tab.view["source"]


async def texts(tab: Tab, name: str) -> list[str]:
    """The texts of an exercise's versions."""
    numbers = [it["number"] for it in tab.view["source"]["versions"] if it["exercise"] == name]
    return [(await tab.ask("version", number=number))["text"] for number in numbers]


async def test_source_waits_for_disk(tmp_path: pathlib.Path, monkeypatch: pytest.MonkeyPatch) -> None:
    """It is there when its exercise is opened again, in the language that it had last."""
    monkeypatch.setattr(durable, "FLUSH_SECONDS", 1e6)
    async with served(tmp_path / "class", exercises=TWO) as room:
        assert room.members
        tab = await room.sit("A1")
        for text, language in (("# doubles", 0), ("// doubles", C), ("# again", 0)):
            await draft(tab, text, language=language)
            room.members.save()
            await open_exercise(tab, "byte_sum")
            room.members.save()
            source = await open_exercise(tab, "doubles")
            assert (source["text"], source["language"]) == (text, language)
            assert not list((room.folder / "drafts").glob("*"))
        room.members.store.texts.flush()
        assert [path.name for path in (room.folder / "drafts").glob("A1.doubles.*")] == ["A1.doubles.s"]


async def test_exercises_have_separate_sources(tmp_path: pathlib.Path) -> None:
    """In all tabs, in a new one, and behind a restart, also where the open exercise was another one."""
    folder, started = tmp_path / "class", int(time.time())
    async with served(folder, exercises=TWO) as room:
        tab, other = await room.sit("A1"), await room.sit("A1")
        assert tab.view["source"]["exercise"] == "doubles"
        await draft(tab, "# doubles")
        assert (await open_exercise(tab, "byte_sum"))["text"] == ""
        await draft(tab, "// byte_sum", language=C)
        await other.until(lambda view: view["source"]["text"] == "// byte_sum")
        assert other.view["source"]["exercise"] == "byte_sum"
        assert (await open_exercise(other, "doubles"))["text"] == "# doubles"
        await draft(other, "# doubles, changed")
        assert "no such exercise" in (await tab.ask("open", exercise="nosuch"))["error"]
        assert "error" in await tab.ask("open", exercise=5)
        await tab.socket.close()
        new = await room.sit("A1")
        assert (new.view["source"]["exercise"], new.view["source"]["text"]) == ("doubles", "# doubles, changed")
        source = await open_exercise(new, "byte_sum")
        assert (source["text"], source["language"]) == ("// byte_sum", C)
        assert (await room.sit("A2")).view["source"]["text"] == ""
        assert room.members
        room.members.save()
    name, opened = (folder / "A1.exercise").read_text().split()
    assert name == "byte_sum" and started <= int(opened) <= time.time()
    for exercises in (TWO, TWO[:1]):
        async with served(folder, exercises=exercises) as room:
            tab = await room.sit("A1")
            expected = ("doubles", "# doubles, changed") if exercises != TWO else ("byte_sum", "// byte_sum")
            assert (tab.view["source"]["exercise"], tab.view["source"]["text"]) == expected


async def test_late_draft_is_version_of_its_exercise(tmp_path: pathlib.Path) -> None:
    """Of two tabs one opens another exercise, while the other one types at the first."""
    async with served(tmp_path / "class", exercises=TWO) as room:
        tab, other = await room.sit("A1"), await room.sit("A1")
        number = other.view["source"]["number"]
        await open_exercise(tab, "byte_sum")
        await draft(tab, "# byte_sum")
        await other.ask("draft", text="# typed at doubles", number=number, exercise="doubles")
        assert other.view["source"]["text"] == "# byte_sum"
        assert (await texts(other, "doubles"), await texts(other, "byte_sum")) == (["# typed at doubles"], [])
        assert "no such exercise" in (await other.ask("draft", text="x", number=0, exercise="nosuch"))["error"]
        assert room.members
        room.members.save()
    async with served(tmp_path / "class") as room:
        tab = await room.sit("A1")
        assert await texts(tab, "doubles") == ["# typed at doubles"]


async def test_replaced_source_is_version(tmp_path: pathlib.Path) -> None:
    """By an earlier answer or a version, by another tab's write, and by the teacher."""
    async with served(tmp_path / "class", exercises=TWO) as room:
        tab, other, teacher = await room.sit("A1"), await room.sit("A1"), await room.sit("teacher")
        await draft(tab, "# one", keep=True)
        assert await texts(tab, "doubles") == ["# one"]
        await draft(tab, "# two")
        await other.ask("source", text="ret # three", number=0)
        assert await texts(other, "doubles") == ["# one", "# two", "ret # three"]
        await draft(other, "# four")
        await teacher.ask("give", seat="A1", text="# five")
        await other.until(lambda view: view["source"]["text"] == "# five")
        assert (await texts(other, "doubles"))[-2:] == ["# four", "# five"]
        assert await texts(other, "byte_sum") == []


async def test_earlier_answers_are_offered_to_their_seat(tmp_path: pathlib.Path) -> None:
    """A seat reads its own, whatever seat it names."""
    async with served(tmp_path / "class", exercises=TWO) as room:
        tab, other = await room.sit("A1"), await room.sit("A2")
        await tab.ask("check", exercise="doubles", text=GOOD)
        await tab.until(lambda view: view["exercises"]["doubles"]["tries"] == 1)
        assert (await tab.ask("answer", exercise="doubles", number=1))["text"] == GOOD
        for seat in ("A1", "A2", ""):
            assert "no such answer" in (await other.ask("answer", seat=seat, exercise="doubles", number=1))["error"]
        for name, number in (("doubles", 2), ("doubles", 0), ("nosuch", 1), ("doubles", "1")):
            assert "error" in await tab.ask("answer", exercise=name, number=number)


async def test_source_of_earlier_server_is_restored(tmp_path: pathlib.Path) -> None:
    """One that was saved without an exercise becomes the first one's, and isn't lost where another one is opened."""
    folder = tmp_path / "class"
    async with served(folder) as room:
        tab = await room.sit("A1")
        await draft(tab, "# of before")
        assert tab.view["source"]["exercise"] == "" and room.members
        room.members.save()
    shutil.rmtree(folder / "drafts", ignore_errors=True)
    async with served(folder, exercises=TWO) as room:
        tab = await room.sit("A1")
        assert (tab.view["source"]["exercise"], tab.view["source"]["text"]) == ("doubles", "# of before")
        await open_exercise(tab, "byte_sum")
        assert (await open_exercise(tab, "doubles"))["text"] == "# of before"


async def test_stored_sources_are_text_files(tmp_path: pathlib.Path) -> None:
    """A damaged name of the open exercise is none."""
    from vecmon_lab.classes.core.sources import kept_exercise
    from vecmon_lab.classes.server.store import Store
    from vecmon_lab.machine.program import find_program

    store = Store(tmp_path / "class", find_program())
    for text in ("", "../codes", "a" * 41, "doubles\n", "doubles 1.5", "doubles -1", "doubles " + 13 * "1"):
        (store.folder / "A1.exercise").write_text(text)
        assert kept_exercise(store.texts, "A1") == ("", 0)
    (store.folder / "A1.exercise").write_text("doubles")  # as version 1.0 wrote it
    assert kept_exercise(store.texts, "A1") == ("doubles", 0)
    (store.folder / "A1.exercise").write_text("doubles 1796031290")
    assert kept_exercise(store.texts, "A1") == ("doubles", 1796031290)
    store.close()
