"""Run and step with a build first, over calls and out of functions. Expected places and values are worked by hand."""

import pathlib
from collections.abc import Iterator, Mapping

import pytest

from support.desk import Desk, ask

FACTORIAL = """_start: la sp, top
li a0, 3
call factorial
mv s0, a0
ebreak
factorial: addi sp, sp, -16
sd ra, 8(sp)
sd a0, 0(sp)
li t0, 2
blt a0, t0, one
addi a0, a0, -1
call factorial
ld t1, 0(sp)
mul a0, a0, t1
j done
one: li a0, 1
done: ld ra, 8(sp)
addi sp, sp, 16
ret
.bss
.zero 4096
top: .zero 16
"""
VECTORS = "vsetivli t0, 4, e32, m1, ta, ma\nvid.v v1\nvadd.vv v1, v1, v1\nvadd.vv v1, v1, v1\nebreak\n"


@pytest.fixture
def desk(program: pathlib.Path) -> Iterator[Desk]:
    """A desk without exercises."""
    desk = Desk(program, {}, 100_000)
    yield desk
    desk.close()


def line(desk: Desk) -> int:
    """The number of the source line that is next."""
    assert desk.seat.loaded.program is not None
    return desk.seat.loaded.program.line_at(int(desk.seat.state["pc"], 16))


def to_line(desk: Desk, number: int) -> None:
    """Steps lines of FACTORIAL, into calls, until one is next."""
    ask(desk, ask="source", text=FACTORIAL)
    while line(desk) != number:
        assert "error" not in ask(desk, ask="step", by="line")


def test_step_builds_source_first(desk: Desk) -> None:
    answer = ask(desk, ask="step", text=VECTORS, language=0)
    assert answer["mistakes"] == [] and line(desk) == 2 and desk.seat.state["vl"] == 4
    lines = desk.machine.session.lines
    ask(desk, ask="step", text=VECTORS)
    assert line(desk) == 3 and desk.machine.session.lines == lines + 1  # nothing was built


def test_last_of_several_steps_shows_what_it_read(desk: Desk) -> None:
    ask(desk, ask="step", text=VECTORS, count=4)
    assert line(desk) == 5
    assert desk.seat.state["v"]["1"].startswith("0000000004000000080000000c000000")
    assert desk.seat.state["read"]["v"]["1"].startswith("00000000020000000400000006000000")
    assert ask(desk, ask="why", name="v1[3]")["why"].endswith("6 + 6 = 12")


def test_mistakes_leave_machine_as_it_is(desk: Desk) -> None:
    """Also those that only the machine finds."""
    ask(desk, ask="step", text=VECTORS, count=2)
    for wrong in ("vadd.vv v1, v1", "nop 5", "vadd.vv v1, v1, a0"):
        for request in ("run", "step"):
            answer = ask(desk, ask=request, text=f"{VECTORS}{wrong}\n")
            assert [each["line"] for each in answer["mistakes"]] == [6]
            assert desk.seat.state["vl"] == 4 and line(desk) == 3 and desk.seat.loaded.source.text == VECTORS
    assert desk.student.source.own.text.endswith("a0\n")


def test_breakpoints_move_with_their_lines(desk: Desk) -> None:
    """A line is inserted before one with a breakpoint, one is deleted, and one is changed."""
    ask(desk, ask="source", text="nop\nli a0, 1\nli a1, 2\nnop\nli a2, 3\nebreak\n")
    ask(desk, ask="lines", do=["break 10004", "break 10008", "break 10010"])
    answer = ask(desk, ask="run", text="nop\nnop\nli a0, 1\nnop\nli a2, 4\nebreak\n")
    desk.settle()
    assert answer["mistakes"] == [] and line(desk) == 3
    assert desk.seat.state["breaks"] == ["10008", "10010"]
    assert ask(desk, ask="run")["mistakes"] == [] and desk.settle() and line(desk) == 5


def test_step_over_recursive_call(desk: Desk) -> None:
    """3! is 6; the inner calls return to the address behind line 12 too, and don't end the step."""
    to_line(desk, 3)
    ask(desk, ask="step", kind="over")
    assert line(desk) == 4 and desk.seat.state["x"]["10"] == "6"
    assert desk.seat.state["read"]["x"] == {"1": "10010"}  # of `ret`: la is two instructions, and the call the fourth
    to_line(desk, 12)
    ask(desk, ask="step", kind="over", by="line")
    assert line(desk) == 13 and desk.seat.state["x"]["10"] == "2"


def test_step_over_without_call_is_a_step(desk: Desk) -> None:
    ask(desk, ask="step", text=VECTORS, kind="over", count=3)
    assert line(desk) == 4 and desk.seat.state["read"]["v"]["1"].startswith("0000000001000000")


def test_step_into_call_by_line(desk: Desk) -> None:
    to_line(desk, 3)
    ask(desk, ask="step", by="line")
    assert line(desk) == 6


def test_step_out_of_recursive_function(desk: Desk) -> None:
    to_line(desk, 16)  # in the innermost call, where a0 is 1
    places = []
    for _ in range(3):
        ask(desk, ask="step", kind="out")
        places.append((line(desk), desk.seat.state["x"]["10"]))
    assert places == [(13, "1"), (13, "2"), (4, "6")]


def test_step_over_stops_at_breakpoint_in_function(desk: Desk) -> None:
    to_line(desk, 3)
    assert desk.seat.loaded.program is not None
    ask(desk, ask="lines", do=[f"break {desk.seat.loaded.program.addresses()[16]:x}"])
    ask(desk, ask="step", kind="over", count=5)
    assert line(desk) == 16


def test_several_steps_stop_at_breakpoint(desk: Desk) -> None:
    ask(desk, ask="source", text=VECTORS)
    ask(desk, ask="lines", do=["break 10008"])
    ask(desk, ask="step", count=3)
    assert line(desk) == 3
    ask(desk, ask="step", count=2)
    assert line(desk) == 5


def test_step_until_line(desk: Desk) -> None:
    """Into the function, at whose label the call ends; a breakpoint ends the steps before, and a loop ends them at last."""
    ask(desk, ask="step", text=FACTORIAL, until=16)
    assert line(desk) == 16 and desk.seat.state["x"]["10"] == "1"
    ask(desk, ask="lines", do=[f"break {desk.seat.loaded.names['stops']['18'][0]}"])
    ask(desk, ask="step", until=4)
    assert line(desk) == 18
    endless = ask(desk, ask="step", text="one: nop\nj one\nebreak\n", until=3)
    assert endless["error"].startswith("The program went through 1,000 lines, but not through line 3: set a breakpoint")


def test_condition_of_machine(desk: Desk) -> None:
    conditions = [desk.seat.condition]
    requests: list[dict[str, object]] = [
        {"ask": "source", "text": "nop\nnop\nebreak"},
        {"ask": "step"},
        {"ask": "lines", "do": ["set x5 1"]},
        {"ask": "lines", "do": ["break 10008"]},
        {"ask": "step", "count": 2},
        {"ask": "again"},
        {"ask": "lines", "do": ["unbreak 10008"]},
        {"ask": "step", "count": 3},
        {"ask": "run", "text": "here: j here"},
        {"ask": "lines", "do": ["stop"]},
        {"ask": "step", "text": "lw t0, 0(zero)"},
        {"ask": "lines", "do": ["set x5 1"]},
        {"ask": "lines", "do": ["leave"]},
    ]
    for request in requests:
        assert "error" not in ask(desk, **request)
        conditions.append(desk.seat.condition)
    assert conditions[:5] == ["Not begun", "Ready", "Paused", "Paused", "Paused"]
    # at the breakpoint; again; after the ebreak
    assert conditions[5:10] == ["Paused", "Ready", "Ready", "Ended", "Running"]
    assert conditions[10:] == ["Paused", "Fault", "Paused", "Not begun"]


def test_run_starts_ended_program_again(desk: Desk) -> None:
    """With its breakpoint; the sum in memory would be 2 without a new machine."""
    ask(
        desk, ask="source", text="la a0, sum\nlw a1, 0(a0)\naddi a1, a1, 1\nsw a1, 0(a0)\nebreak\n.data\nsum: .word 0\n"
    )
    ask(desk, ask="lines", do=["break 10008"])
    conditions = list[str]()
    for _ in range(4):
        assert "error" not in ask(desk, ask="run") and desk.settle()
        conditions.append(desk.seat.condition)
    assert conditions == ["Paused", "Ended", "Paused", "Ended"] and desk.seat.state["x"]["11"] == "1"


def test_line_has_addresses_of_its_breakpoints(desk: Desk) -> None:
    """`la` is two instructions, and a breakpoint of its line is at the first."""
    ask(desk, ask="source", text=FACTORIAL)
    assert {number: desk.seat.loaded.names["stops"][number] for number in ("1", "2", "3", "6")} == {
        "1": ["10000"],
        "2": ["10008"],
        "3": ["1000c"],
        "6": ["10018"],
    }


def test_step_without_stopped_program_is_refused(desk: Desk) -> None:
    assert "assemble or compile a source first" in ask(desk, ask="step")["error"]
    assert "assemble or compile a source first" in ask(desk, ask="run")["error"]
    ask(desk, ask="run", text="here: j here")
    assert "already runs" in ask(desk, ask="step")["error"] and "already runs" in ask(desk, ask="run")["error"]
    assert ask(desk, ask="step", text="nop\nebreak")["mistakes"] == [] and line(desk) == 2


@pytest.mark.parametrize(
    "fields, expected",
    [
        ({"kind": "back"}, "into, over or out"),
        ({"by": "word"}, "by instruction or by line"),
        ({"count": 0}, "1 to 256 times"),
        ({"count": 257}, "1 to 256 times"),
        ({"count": True}, "1 to 256 times"),
        ({"kind": ["into"]}, "into, over or out"),
        ({"text": 5}, "characters at most"),
        ({"until": "4"}, "until is the number of a line"),
    ],
)
def test_invalid_step_is_refused(desk: Desk, fields: Mapping[str, object], expected: str) -> None:
    assert expected in ask(desk, ask="step", **fields)["error"]
