"""Exercises that the teacher turns on and off while a class runs."""

import json
import pathlib

import pytest

from support.class_tabs import Tab, served
from vecmon_lab.classes.server.builds import Builds
from vecmon_lab.classes.server.checks import Checks
from vecmon_lab.classes.server.store import Store
from vecmon_lab.exercises.exercise import OURS
from vecmon_lab.machine.program import find_program

pytestmark = pytest.mark.asyncio

COURSE = """
    doubles strip_mined_copy saturating_sum byte_sum dot_product mask_count clamped_magnitude strlen rgb_to_grey table_look_up filter
    prefix_sums
""".split()  # docs/COURSE.md, in its order


def names(tab: Tab) -> list[str]:
    """The exercises of a student, by their numbers."""
    exercises = tab.view["exercises"]
    return sorted(exercises, key=lambda name: int(exercises[name]["number"]))


async def test_whole_course_is_offered(tmp_path: pathlib.Path) -> None:
    async with served(tmp_path / "class", exercises=[pathlib.Path("filter")]) as room:
        teacher = await room.sit("teacher")
        course = teacher.view["course"]
        assert [each["name"] for each in course] == ["filter", *(name for name in COURSE if name != "filter")]
        assert [each["name"] for each in course if each["on"]] == ["filter"]
        assert course[1] == {"name": "doubles", "title": "Doubles", "minutes": 30, "on": False}
        await teacher.ask("exercises", on=["doubles"])
        await teacher.until(lambda view: [each["name"] for each in view["course"] if each["on"]] == ["doubles"])
        assert [each["name"] for each in teacher.view["course"]] == [each["name"] for each in course]


async def test_exercises_are_turned_on_and_off(tmp_path: pathlib.Path) -> None:
    async with served(tmp_path / "class") as room:
        tab, other, teacher = await room.sit("A1"), await room.sit("A2"), await room.sit("teacher")
        assert tab.view["exercises"] == {}
        await tab.ask("draft", text="li a0, 1", number=0)
        await teacher.ask("exercises", on=["filter", "doubles"])
        await tab.until(lambda view: names(tab) == ["filter", "doubles"])
        source = tab.view["source"]
        assert (source["exercise"], source["text"]) == ("filter", "")  # as an exercise that is opened the first time
        assert [await text_of(tab, version["number"]) for version in source["versions"]] == ["li a0, 1"]
        await tab.ask("draft", text="ret", number=source["number"])
        await tab.ask("check", exercise="filter", text="ret")
        await teacher.until(lambda view: "A1" in view["exercises"]["filter"]["seats"])

        await teacher.ask("exercises", on=["doubles"])
        await tab.until(lambda view: names(tab) == ["doubles"])
        assert (tab.view["source"]["exercise"], tab.view["source"]["text"]) == ("doubles", "")
        assert teacher.view["exercises"]["filter"]["seats"]["A1"]["tries"] == 1
        refused = {"error": "the teacher has turned this exercise off"}
        assert (await tab.ask("check", exercise="filter", text="ret")).items() >= refused.items()
        late = await tab.ask("draft", text="typed meanwhile", number=1, exercise="filter")
        assert "error" not in late
        assert {"exercise": "filter", "title": "A filter"}.items() <= tab.view["source"]["versions"][-1].items()

        await teacher.ask("exercises", on=[])
        await other.until(lambda view: view["exercises"] == {})
        await teacher.ask("exercises", on=["filter"])
        await tab.until(lambda view: names(tab) == ["filter"])
        assert (tab.view["source"]["text"], tab.view["exercises"]["filter"]["tries"]) == ("ret", 1)


async def text_of(tab: Tab, number: int) -> str:
    """The text of a version."""
    return str((await tab.ask("version", number=number))["text"])


async def test_unknown_exercises_are_refused(tmp_path: pathlib.Path) -> None:
    async with served(tmp_path / "class", exercises=[pathlib.Path("doubles")]) as room:
        tab, teacher = await room.sit("A1"), await room.sit("teacher")
        for on, error in (
            (["doubles", "nothing"], "this class offers no exercise 'nothing'"),
            ("doubles", "on is a list of names of exercises"),
            ([1], "on is a list of names of exercises"),
        ):
            assert (await teacher.ask("exercises", on=on))["error"] == error
        assert "no such request" in (await tab.ask("exercises", on=[]))["error"]
        assert names(tab) == ["doubles"]


async def test_order_survives_restart(tmp_path: pathlib.Path) -> None:
    """An exercise that was turned off is offered at its place again."""
    own = ["filter", "doubles", "byte_sum"]
    async with served(tmp_path / "class", exercises=map(pathlib.Path, own)) as room:
        teacher = await room.sit("teacher")
        await teacher.ask("exercises", on=["filter", "byte_sum"])
    async with served(tmp_path / "class") as room:
        tab, teacher = await room.sit("A1"), await room.sit("teacher")
        offered = [each["name"] for each in teacher.view["course"]]
        assert offered == [*own, *(name for name in COURSE if name not in own)]
        assert names(tab) == ["filter", "byte_sum"]
        assert room.members and not room.members.store.damage.sentences
    for report in (
        ["the choice of exercises (filter, byte_sum) is lost, since --exercise and --course replace it"],
        [],
    ):
        async with served(tmp_path / "class", exercises=map(pathlib.Path, own)) as room:
            assert names(await room.sit("A1")) == own
            assert room.members and room.members.store.damage.sentences == report


async def test_draft_of_exercise_of_before_restart_is_kept(tmp_path: pathlib.Path) -> None:
    """A page that stayed open sends what was typed without a server, for an exercise that the restart turned off."""
    async with served(tmp_path / "class", exercises=map(pathlib.Path, ["filter", "doubles"])) as room:
        tab = await room.sit("A1")
        await tab.ask("open", exercise="doubles")
    async with served(tmp_path / "class", exercises=[pathlib.Path("filter")]) as room:
        tab = await room.sit("A1")
        assert tab.view["source"]["exercise"] == "filter"
        assert "error" not in await tab.ask("draft", text="typed without a server", number=1, exercise="doubles")
        (version,) = tab.view["source"]["versions"]
        assert (version["exercise"], version["why"]) == ("doubles", "typed")
        assert await text_of(tab, version["number"]) == "typed without a server"
        unknown = await tab.ask("draft", text="ret", number=1, exercise="byte_sum")
        assert unknown["error"] == "there is no such exercise"
        refused = {"error": "the teacher has turned this exercise off"}
        assert (await tab.ask("check", exercise="doubles", text="ret")).items() >= refused.items()


async def test_choice_survives_restart(tmp_path: pathlib.Path) -> None:
    """An exercise in a folder of its own is offered again, though it was off."""
    own = tmp_path / "own"
    own.mkdir()
    text = (OURS / "doubles" / "exercise.toml").read_text()
    for file in (OURS / "doubles").iterdir():
        if file.is_file():
            (own / file.name).write_bytes(file.read_bytes())
    (own / "exercise.toml").write_text(text.replace('"Doubles"', '"Our own"', 1))
    async with served(tmp_path / "class", exercises=[own, pathlib.Path("doubles")]) as room:
        teacher = await room.sit("teacher")
        await teacher.ask("exercises", on=["filter"])
    async with served(tmp_path / "class") as room:
        tab, teacher = await room.sit("A1"), await room.sit("teacher")
        assert names(tab) == ["filter"]
        offered = {each["name"]: each for each in teacher.view["course"]}
        assert offered.keys() == {*COURSE, "own"}
        assert offered["own"] == {"name": "own", "title": "Our own", "minutes": 0, "on": False}
        await teacher.ask("exercises", on=["own"])
        await tab.until(lambda view: names(tab) == ["own"])
    (own / "exercise.toml").unlink()
    (tmp_path / "class" / "exercises.json").write_text(json.dumps({"filter": str(OURS / "filter")}))
    store = Store(tmp_path / "class", find_program())
    checks = Checks(store, [], lambda names: None, Builds())
    assert [each["name"] for each in checks.offered() if each["on"]] == ["filter"]
    assert len(store.damage.sentences) == 1 and store.damage.sentences[0].startswith(
        "the exercise own isn't offered any more: "
    )
    store.close()
