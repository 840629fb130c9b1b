"""Problems of a source, which are found without a machine for it."""

import pathlib
from collections.abc import Iterator

import pytest

from support.desk import Desk, ask
from vecmon_lab.classes.core.languages import C


@pytest.fixture
def desk(program: pathlib.Path) -> Iterator[Desk]:
    """A desk without exercises."""
    desk = Desk(program, {}, 100_000)
    yield desk
    desk.close()


def test_problems_leave_the_machine_as_it_is(desk: Desk) -> None:
    ask(desk, ask="source", text="li a0, 5\nebreak")
    ask(desk, ask="lines", do=["step 1"])
    before, lines = desk.student.view(desk._more()), desk.machine.session.lines
    answer = ask(desk, ask="problems", text="li a0,\nvadd.vv v1, v2, a0\nnop")
    assert [(each["line"], each["column"], each["length"]) for each in answer["mistakes"]] == [(1, 6, 1), (2, 17, 2)]
    assert answer["mistakes"][1]["code"] == "E15" and answer["warnings"] == []
    typed = ask(desk, ask="problems", text="li a0, 5\nvsetvli t0, a0, e32, m2, ta, ma\nebreak")
    assert typed["mistakes"] == [] and typed["types"] == [{"line": 2, "types": ["d1"], "vl": 5}]
    assert desk.student.view(desk._more()) == before and desk.machine.session.lines == lines


def test_problems_without_machine(desk: Desk) -> None:
    answer = ask(desk, ask="problems", text="nop\nvad.vx v1, v2, a0")
    assert answer["mistakes"][0]["fix"][0] == "vadd.vx" and desk.seat.state == {"run": "absent"}
    assert "takes no C" in ask(desk, ask="problems", text="int x;", language=C)["error"]
    assert "characters at most" in ask(desk, ask="problems", text=5)["error"]
