"""Inputs of a source, its `#>` lines: commands of the monitor, and the places of mistakes."""

import pathlib

import pytest

from vecmon_lab.assembler.inputs import with_inputs
from vecmon_lab.assembler.source import read_source
from vecmon_lab.assembler.trial import read_tried_source
from vecmon_lab.lessons.frames import make_frames
from vecmon_lab.lessons.script import read_assembled

SOURCE = """#> a0 = u8[4]
#> x11 = text "ab"
 #> a2 = -2
#> n = i32 3, -1
#> a4 = n
#> set x13 n
        .data
n:      .word 0, 0
        .text
        lb t0, 0(a1)
        ret
"""
ARRAYS = ["map 200000 1 rw", "poke 200ffc 00000000", "set x10 200ffc", "map 202000 1 rw", "poke 202ffd 616200"]
COMMANDS = [
    *ARRAYS,
    "set x11 202ffd",
    "set x12 fffffffffffffffe",
    "poke 11000 03000000ffffffff",
    "set x14 11000",
    "set x13 11000",
]


def test_inputs_are_commands() -> None:
    """Arrays end where pages do, and numbers are little-endian."""
    program = with_inputs(read_source(SOURCE), SOURCE)
    assert [command for _, command in program.set_up] == COMMANDS and not program.mistakes
    assert {number for number, _ in program.set_up} == {1, 2, 3, 4, 5, 6}
    assert {address: (run.type, run.count) for address, run in program.data.items()} == {
        0x11000: ("i32", 2),
        0x200FFC: ("u8", 4),
        0x202FFD: ("text", 3),
    }


def test_lesson_has_inputs(program: pathlib.Path) -> None:
    states = [frame.states["1"] for frame in make_frames(read_assembled(SOURCE, "own.s"), program)]
    assert int(states[-1]["x"]["5"], 16) == ord("a")


@pytest.mark.parametrize(
    "line, column, message",
    [
        ("#> a0 =", 8, "nothing is no number"),
        ("#> zz = 5", 4, "zz is no register that can be set, and no label"),
        ("#> zero = 5", 4, "zero is no register that can be set"),
        ("#> a0 = u8 300", 12, "300 is no u8: 0 to 255 fit"),
        ("#> a0 = i8 1, -129", 15, "-129 is no i8: -128 to 127 fit"),
        ("#> a0 = i32", 12, "an array has a number at least"),
        ("#> a0 = i32[1] 1, 2", 16, "2 numbers are more than 1"),
        ("#> a0 = 0x10000000000000000", 9, "is out of range"),
        ("#> a0 = text abc", 14, "between quotation marks"),
        ("#> a0 = u64[1000000]", 21, "larger than the 256 pages"),
        ("#> x = 5", 4, "x is a label: numbers there have a type"),
        ("#> sett x10 5", 1, "there is no command sett"),
        ("#>", 1, "there is no input"),
        ("#> poke 10000 \u00e4", 1, "isn't printable ASCII"),
    ],
)
def test_mistake_has_place(line: str, column: int, message: str) -> None:
    text = f"nop\n{line}\nx: nop\n"
    (mistake,) = with_inputs(read_source(text), text).mistakes
    assert (mistake.line, mistake.column) == (2, column), mistake
    assert message in mistake.message


@pytest.mark.parametrize("line", ["#> step 5", "#> go", "#> * run 1", "#> regs"])
def test_line_of_lesson_is_a_warning(line: str) -> None:
    program = with_inputs(read_source("nop"), f"nop\n{line}")
    assert [(it.line, it.column) for it in program.warnings] == [(2, 1)] and not program.set_up


def test_refused_commands_are_mistakes_before_the_machine_has_the_source(program: pathlib.Path) -> None:
    """The monitor's registers are x1 to x31, and a page that it writes is mapped, once: docs/REFUSALS.md has the codes."""
    text = "#> set a1 ff\n#> set x11 ff\n#> map 10000 1 rw\n#> break start\n#> poke 90000 01\nstart: ret\n"
    mistakes = read_tried_source(text, program).mistakes
    assert [(each.line, each.message[:3]) for each in mistakes] == [(1, "E04"), (3, "E16"), (5, "E11")]
    assert read_tried_source("#> set x11 ff\n#> break start\nstart: ret\n", program).mistakes == []
