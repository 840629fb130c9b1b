"""The teacher's view over the shoulder, besides state and source: problems, the caret's line, and the open exercise."""

import pathlib

import pytest

from support.class_tabs import Message, passed, served

pytestmark = pytest.mark.asyncio


async def test_problems_of_last_assembly_are_shown(tmp_path: pathlib.Path) -> None:
    async with served(tmp_path / "class") as room:
        tab, teacher = await room.sit("A1"), await room.sit("teacher")
        assert not {"problems", "caret", "outcome"} & teacher.view.keys()
        await teacher.ask("shoulder", seat="A1")
        assert teacher.view["problems"] == {"mistakes": [], "warnings": []}

        async def until(*lines: int) -> Message:
            await teacher.until(lambda view: [it["line"] for it in view["problems"]["mistakes"]] == [*lines])
            problems: Message = teacher.view["problems"]
            return problems

        await tab.ask("source", text="nop\nadd x1, x2\nfrob x1")
        mistakes = (await until(2, 3))["mistakes"]
        assert (mistakes[1]["column"], mistakes[1]["length"], mistakes[1]["severity"]) == (1, 4, "error")
        await tab.ask("problems", text="frob x1")
        await until(1)
        await tab.ask("run", text="l: j l")
        await until()
        await teacher.ask("shoulder", seat="A2")
        assert teacher.view["problems"] == {"mistakes": [], "warnings": []}
        await teacher.ask("shoulder", seat="")
        assert not {"problems", "caret", "outcome"} & teacher.view.keys()


async def test_line_of_caret_is_that_of_last_draft(tmp_path: pathlib.Path) -> None:
    async with served(tmp_path / "class", exercises=map(pathlib.Path, ("doubles", "filter"))) as room:
        tab, teacher = await room.sit("A1"), await room.sit("teacher")
        await teacher.ask("shoulder", seat="A1")
        assert teacher.view["caret"] == 0
        await tab.ask("draft", text="nop\nret", number=0, line=2)
        await teacher.until(lambda view: view["caret"] == 2)
        assert teacher.view["source"]["text"] == "nop\nret"
        for line in (-1, 1 << 20, "2", True):
            refusal = {"error": "line is the number of a line of the source"}
            assert (await tab.ask("draft", text="nop", number=1, line=line)).items() >= refusal.items()
        await tab.ask("open", exercise="filter")
        await teacher.until(lambda view: view["caret"] == 0)


async def test_outcome_of_open_exercise_is_shown(tmp_path: pathlib.Path) -> None:
    async with served(tmp_path / "class", exercises=map(pathlib.Path, ("doubles", "filter"))) as room:
        tab, teacher = await room.sit("A1"), await room.sit("teacher")
        await teacher.ask("shoulder", seat="A1")
        assert teacher.view["outcome"] == {"exercise": "doubles", "tries": 0, "checking": False, "told": {}}
        await tab.ask("check", exercise="doubles", text="ret")
        await teacher.until(lambda view: view["outcome"]["tries"] == 1)
        told = teacher.view["outcome"]["told"]
        assert passed(told) == [False, False, True, False, False] and told["reason"]  # the case without elements
        await tab.ask("open", exercise="filter")
        await teacher.until(lambda view: view["outcome"]["exercise"] == "filter")
        assert teacher.view["outcome"]["tries"] == 0


async def test_changed_source_has_no_version(tmp_path: pathlib.Path) -> None:
    """A given source makes a version of it, and then it has none of its own."""
    async with served(tmp_path / "class") as room:
        tab, teacher = await room.sit("A1"), await room.sit("teacher")

        async def until(is_changed: bool) -> None:
            await teacher.until(lambda view: view["machines"]["A"]["seats"]["1"]["changed"] == is_changed)

        await until(False)
        await tab.ask("draft", text="nop", number=0)
        await until(True)
        await teacher.ask("give", seat="A1", text="ret")
        await until(False)
        await tab.until(lambda view: [it["why"] for it in view["source"]["versions"]] == ["typed", "given"])
