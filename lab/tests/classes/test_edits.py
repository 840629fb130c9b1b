"""Typed values become lines of the monitor; the bytes of registers are worked out by hand."""

from collections.abc import Iterator
import pathlib

import pytest

from support.desk import Desk, ask
from vecmon_lab.classes.core.edits import breakpoint_lines, edit_line, setting_lines
from vecmon_lab.classes.core.bad_request import BadRequest
from vecmon_lab.exercises.exercise import OURS, read_exercise

V = {"1": "00112233445566778899aabbccddeeff" * 2}


@pytest.mark.parametrize(
    "edit, text, is_decimal, line",
    [
        ("setpc", "10004", False, "setpc 10004"),
        ("poke 20002", "0aff", False, "poke 20002 0aff"),
        ("set x10", "1F", False, "set x10 1f"),
        ("set x10", "-2", True, "set x10 fffffffffffffffe"),
        ("vset v1 32 1 hexadecimal", "89abcdef", False, f"vset v1 00112233efcdab898899{V['1'][20:]}"),
        ("vset v1 8 0 signed", "-2", False, f"vset v1 fe112233445566778899{V['1'][20:]}"),
        ("vset v1 1 8 mask", "0", False, f"vset v1 00102233445566778899{V['1'][20:]}"),
    ],
)
def test_value_becomes_line(edit: str, text: str, is_decimal: bool, line: str) -> None:
    assert edit_line(edit, text, is_decimal, V) == line


@pytest.mark.parametrize(
    "edit, text, kind",
    [
        ("vset v1 8 0 unsigned", "256", "decimal number of 8 bits"),
        ("vset v1 8 0 signed", "-129", "decimal number of 8 bits"),
        ("vset v1 1 0 mask", "2", "decimal number of 1 bits"),
        ("vset v1 16 0 hexadecimal", "12345", "hexadecimal number of 16 bits"),
        ("set x5", "0xg", "hexadecimal number of 64 bits"),
        ("set x5", "", "hexadecimal number of 64 bits"),
    ],
)
def test_value_that_does_not_fit_is_refused(edit: str, text: str, kind: str) -> None:
    with pytest.raises(BadRequest) as raised:
        edit_line(edit, text, False, V)
    assert str(raised.value) == f"`{text}` isn't a {kind}: nothing was sent."


@pytest.mark.parametrize(
    "edit",
    [
        "go",
        "set v1",
        "vset v1 8 32 signed",
        "vset v2 8 0 signed",
        "vset v1 512 0 signed",
        f"vset v1 {10**30} 0 signed",  # a width that no element has
        "setpc 0",
    ],
)
def test_unknown_place_is_refused(edit: str) -> None:
    with pytest.raises(BadRequest, match="there is no such"):
        edit_line(edit, "1", True, V)


STOPS = {"3": ["10000"], "4": ["10008", "10010"]}


def test_line_gets_all_its_breakpoints_or_loses_them() -> None:
    assert breakpoint_lines(STOPS, ["10000"], 4) == ["break 10008", "break 10010"]
    assert breakpoint_lines(STOPS, ["10000", "10010"], 4) == ["unbreak 10010"]
    assert breakpoint_lines(STOPS, ["10000", "10008", "10010"], 4) == ["unbreak 10008", "unbreak 10010"]
    full = [f"{address:x}" for address in range(0x20000, 0x20040, 4)]
    assert breakpoint_lines(STOPS, full[:14], 4) == ["break 10008", "break 10010"]
    with pytest.raises(BadRequest) as raised:
        breakpoint_lines(STOPS, full[:15], 4)
    assert str(raised.value) == "Line 4 needs 2 breakpoints, and 1 of 16 is left: none was set."
    with pytest.raises(BadRequest) as raised:
        breakpoint_lines(STOPS, full[:16], 3)
    assert str(raised.value) == "Line 3 needs 1 breakpoint, and none of 16 is left: none was set."
    with pytest.raises(BadRequest, match="Line 5 has no instruction to stop at, and no line after it has one."):
        breakpoint_lines(STOPS, [], 5)


class CountedStops(dict[str, list[str]]):
    """The addresses of lines, and how often all of them were looked at."""

    looks = 0

    def __iter__(self) -> Iterator[str]:
        self.looks += 1
        return super().__iter__()


def test_lines_are_looked_at_once_for_all_breakpoints() -> None:
    stops = CountedStops({f"{number}": [f"{0x10000 + 4 * number:x}"] for number in range(2, 100)})
    lines, refusals = setting_lines(stops, [], [*range(1, 120)])
    assert lines == [f"break {0x10000 + 4 * number:x}" for number in range(2, 18)] and stops.looks == 1
    assert [each.split(",")[0] for each in refusals] == ["Lines 100", "Lines 18"]


def test_line_without_instruction_takes_the_next_one() -> None:
    """A second press removes what the first one set; breakpoints that are only set stay."""
    assert breakpoint_lines(STOPS, [], 1) == ["break 10000"]
    assert breakpoint_lines(STOPS, ["10000"], 2) == ["unbreak 10000"]
    assert breakpoint_lines(STOPS, ["10000"], 2, is_only_set=True) == []
    assert breakpoint_lines(STOPS, ["10010"], 4, is_only_set=True) == ["break 10008"]


@pytest.fixture
def desk(program: pathlib.Path) -> Iterator[Desk]:
    """A desk without exercises."""
    desk = Desk(program, {}, 100_000)
    yield desk
    desk.close()


def test_edit_changes_machine_or_is_refused(desk: Desk) -> None:
    ask(desk, ask="source", text="nop")
    assert "error" not in ask(desk, ask="edit", edit="vset v1 8 31 signed", text="-1")
    assert desk.seat.state["v"]["1"] == "00" * 31 + "ff"
    assert ask(desk, ask="edit", edit="set x5", text="1000", decimal=True) and desk.seat.state["x"]["5"] == "3e8"
    assert "E" in ask(desk, ask="edit", edit="poke 20000", text="0")["error"]  # half a byte, and nothing is mapped
    assert "isn't printable ASCII" in ask(desk, ask="edit", edit="poke 10000", text="é")["error"]
    assert "is a text" in ask(desk, ask="edit", edit="setpc")["error"]
    for breaks in (["10000"], []):
        assert "error" not in ask(desk, ask="breakpoint", line=1) and desk.seat.state["breaks"] == breaks


COUNT = """# Counts down.
        li a0, 3
loop:
        addi a0, a0, -1
        bnez a0, loop
        ebreak
"""  # without labels 10000, 10004, 10008 and 1000c


@pytest.mark.parametrize("how", [{"ask": "run"}, {"ask": "step", "count": 20}])
def test_first_run_stops_at_lines_of_the_request(desk: Desk, how: dict[str, object]) -> None:
    """Line 3 is a label: its breakpoint is that of line 4, which the run comes to first."""
    answer = ask(desk, text=COUNT, breaks=[3, 5], **how)
    desk.settle()
    assert answer["mistakes"] == [] and desk.seat.state["breaks"] == ["10004", "10008"]
    assert desk.seat.state["pc"] == "10004"


@pytest.mark.parametrize(
    "text, breaks",
    [(COUNT, ["10004", "10008"]), (f"# More.\n{COUNT}", ["10004", "10008"]), (f"nop\n{COUNT}", ["10008", "1000c"])],
)
def test_assembling_keeps_breakpoints_at_their_lines(desk: Desk, text: str, breaks: list[str]) -> None:
    """An instruction before them moves them by 4; those of a source with mistakes stay until it has none."""
    ask(desk, ask="source", text=COUNT, breaks=[4, 5])
    assert ask(desk, ask="source", text=f"{COUNT} vad.vv v1, v2, v3\n", breaks=[])["mistakes"]
    assert ask(desk, ask="source", text=text, breaks=[]).get("error") is None and desk.seat.state["breaks"] == breaks
    assert desk.seat.state["pc"] == "10000"
    ask(desk, ask="lines", do=["break 10f00"])  # at no line of the source
    ask(desk, ask="source", text=text, breaks=[1])
    assert desk.seat.state["breaks"] == ["10000", *breaks, "10f00"]


def test_trying_a_case_keeps_breakpoints(program: pathlib.Path) -> None:
    desk = Desk(program, {"doubles": read_exercise(OURS / "doubles")}, 100_000)
    answer = {"exercise": "doubles", "text": "nop\nnop\nret\n", "case": 0}
    ask(desk, ask="open", exercise="doubles")
    ask(desk, ask="case", **answer, breaks=[2])
    assert "error" not in ask(desk, ask="case", **answer, breaks=[]) and desk.seat.state["breaks"] == ["10004"]
    desk.close()


def test_breakpoint_after_all_instructions_is_reported(desk: Desk) -> None:
    """The others are set, and the program waits at its start; a source with mistakes sets none."""
    assert ask(desk, ask="run", text="vad.vv v1, v2, v3", breaks=[1])["mistakes"] and desk.seat.state["run"] == "absent"
    answer = ask(desk, ask="run", text=COUNT, breaks=[4, 7, 9])
    text = "Lines 7 and 9 have no instruction to stop at, and no line after them has one."
    assert answer["error"] == f"{text} The program is loaded and hasn't run yet."
    assert (desk.seat.state["pc"], desk.seat.state["breaks"]) == ("10000", ["10004"])


def test_too_many_breakpoints_are_one_sentence(desk: Desk) -> None:
    """Sixteen are set: those of the first lines."""
    answer = ask(desk, ask="run", text="nop\n" * 20, breaks=[*range(1, 21)])
    assert answer["error"] == (
        "Lines 17, 18, 19 and 20 need 4 breakpoints, and none of 16 is left: none was set. "
        "The program is loaded and hasn't run yet."
    )
    assert desk.seat.state["breaks"] == [f"{address:x}" for address in range(0x10000, 0x10040, 4)]


def test_first_run_stops_at_breakpoint_of_first_instruction(desk: Desk) -> None:
    """So do a run after a reset and one after the end; the next run goes on. Line 1 is a comment: line 2 has its breakpoint."""
    start, end = ("10000", "Paused", "breakpoint"), ("1000c", "Ended", "ebreak")

    def run(**more: object) -> tuple[str, str, str]:
        assert "error" not in ask(desk, ask="run", **more)
        desk.settle()
        return desk.seat.state["pc"], desk.seat.condition, desk.seat.status.value["kind"]

    assert run(text=COUNT, breaks=[1]) == start
    stop = "Stopped at the breakpoint at 0x10000; its instruction is the next one."
    assert desk.seat.state["stop"] == desk.seat.display.shown["stop"] == stop
    assert [run(), run()] == [end, start]
    ask(desk, ask="again")
    assert desk.seat.condition == "Ready" and "stop" not in desk.seat.state
    assert [run(text=COUNT), run(text=COUNT)] == [start, end]


@pytest.mark.parametrize("breaks", [3, [0.5], ["3"], [-1]])
def test_lines_of_breakpoints_are_whole_numbers(desk: Desk, breaks: object) -> None:
    assert "breaks is" in ask(desk, ask="source", text=COUNT, breaks=breaks)["error"]


@pytest.mark.parametrize("text, is_decimal", [("0x2a", True), ("0x2A", False), ("2a", False), ("42", True)])
def test_number_with_0x_is_hexadecimal(text: str, is_decimal: bool) -> None:
    assert edit_line("set x5", text, is_decimal, {}) == "set x5 2a"
    assert edit_line("setpc", "0x10000", is_decimal, {}) == "setpc 10000"
