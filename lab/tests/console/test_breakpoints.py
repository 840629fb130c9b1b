"""Breakpoints of the console at lines and functions, by addresses that `llvm-dwarfdump` and `objdump` show of the same images."""

import pathlib

import pytest

from support.console import shown
from support.places import EXAMPLES, NAMESAKES, PREFIX_SUMS, SQUARES_DWARF5, SUM, TOTAL

STRIP_MINED = EXAMPLES / "strip_mined.s"
STOPPED = "Stopped at the breakpoint at 0x{}; its instruction is the next one."


@pytest.mark.parametrize("image", PREFIX_SUMS, ids=str)
def test_inlined_function_stops(image: pathlib.Path) -> None:
    """`prefix_bad` isn't static, and main has a copy of it: the symbol is that of the copy that nothing calls."""
    output = shown(["break prefix_bad", "breaks", "run"], image)
    assert output[1:5] == [
        "ok: at 11190 prefix_bad, 11354 main+0xd0",
        "11190 prefix_bad  (prefix_sums.c:9)",
        "11354 main+0xd0  (prefix_sums.c:10)",
        STOPPED.format("11354"),
    ]
    output = shown(["break prefix_bad", "break main", "unbreak prefix_bad", "breaks", "unbreak main", "breaks"], image)
    assert output[3:] == ["ok: at 11190 prefix_bad, 11354 main+0xd0", "11284 main  (prefix_sums.c:51)", "ok"]


def test_line_stops_in_all_copies() -> None:
    lines = [
        "break prefix_sums.c:10",
        "run",
        "break main",
        "unbreak prefix_sums.c:10",
        "break prefix_sums.c:54",
        "until 17",
    ]
    output = shown(lines, PREFIX_SUMS[1])
    assert output[1:3] == ["ok: at 111c0 prefix_bad+0x30, 11354 main+0xd0", STOPPED.format("11354")]
    assert "=> 11354 main+0xd0  vsetvli x15, x11, e32, m2, ta, ma  (prefix_sums.c:10)" in output
    assert "ok: at 11354 main+0xd0" in output, "the line of the call, which has no instruction left"
    assert "The program was stopped at 0x11338." in output[output.index("17 is taken as the line prefix_sums.c:17") :]
    output = shown(["break total", "run", "run", "break 8", "until total.c:10"], TOTAL[1])
    assert output[1] == "ok: at 1018c main+0x6c, 101b4 main+0x94, 101dc total"
    assert STOPPED.format("1018c") in output and STOPPED.format("101b4") in output


TAKEN = [
    ("break 44", "ok: 44 is taken as the line prefix_sums.c:44, at 11258 largest_bad+0x10, 113a4 main+0x120"),
    ("break 0x44", "ok"),
    ("list zz.c:1", "no instruction is of a file zz.c; the files are prefix_sums.c, runtime.c"),
    ("break 15", "no instruction is of line 15 of prefix_sums.c; prefix_sums.c:16 has some"),
    ("break 28", "ok: 28 is taken as an address; a line is named as FILE:28"),
    ("break 11190", "ok"),
    ("break main+8", "ok"),
    ("break prefix_sums.c:8", "no instruction is of line 8 of prefix_sums.c; prefix_sums.c:9 has some"),
    ("break prefix_sums.c:99", "no instruction is of line 99 of prefix_sums.c; prefix_sums.c:58 has some"),
    ("break prefix.c:9", "no instruction is of a file prefix.c; the files are prefix_sums.c, runtime.c"),
    ("break sub/prefix_sums.c:58", "ok: at 113dc main+0x158"),
    ("unbreak prefix_sums.c:10", "E13: there is no breakpoint"),
    ("break 9 if vl < 1x", "1x is no register, no symbol and no value, which has only hexadecimal digits"),
    ("break nowhere", "there is no symbol nowhere"),
    ("break", "E04: ADDR is missing; the form is break ADDR"),
    ("unbreak \N{SNOWMAN}", r"character 9 of a line, '\u2603', isn't printable ASCII"),
]


def test_place_argument_is_resolved() -> None:
    lines, reply = zip(*TAKEN)
    assert shown([*lines], PREFIX_SUMS[0])[1:] == [*reply]


def test_number_without_source_lines_is_address() -> None:
    output = shown(["break 28", "breaks", "break sum.c:28", "help unbreak"], SUM)
    assert output[1:4] == ["ok", "28", "no source lines are known: compile the image with -g"]
    assert output[4].startswith("unbreak ADDR: ") and output[-1] == "  ADDR may be a function or a line, as sum.c:12"


def test_assembler_source_line_stops() -> None:
    output = shown(["break 29", "break strip_mined.s:28", "run", "run"], STRIP_MINED)
    assert output[1].startswith("ok: 29 is taken as the line strip_mined.s:29, at 100")
    assert output[2] == "ok: at 10040 next+0x28" and STOPPED.format("10040") in output


def test_ambiguous_name_lists_places() -> None:
    places = "scaled names 2 places: 111d0 (namesake.c:8), 111e0 (namesake_other.c:3); name one as FILE:LINE or by its address"
    lines = ["break scaled", "peek scaled", "until scaled", "break namesake_other.c:3", "run"]
    output = shown(lines, NAMESAKES)
    assert output[1:6] == [places] * 3 + ["ok: at 111e0 scaled", STOPPED.format("111e0")]


def test_condition_applies_at_every_address() -> None:
    output = shown(["break prefix_sums.c:14 if vl < 10", "run", "breaks"], PREFIX_SUMS[1])
    assert output[1:3] == ["ok: at 111d8 prefix_bad+0x48, 1136c main+0xe8", STOPPED.format("1136c")]
    assert any("vl=2" in line for line in output)  # 50 is 3 times 16 and 2
    assert output[-2:] == [
        "111d8 prefix_bad+0x48  (prefix_sums.c:14) if vl < 10",
        "1136c main+0xe8  (prefix_sums.c:14) if vl < 10",
    ]


def test_line_needing_too_many_breakpoints_is_refused() -> None:
    lines = [*(f"break {4 * place:#x}" for place in range(100, 112)), "break prefix_sums.c:9", "until prefix_sums.c:9"]
    output = shown([*lines, *(f"break 0x{4 * place:x}" for place in range(5)), "breaks"], PREFIX_SUMS[1])
    assert output[1:13] == ["ok"] * 12
    assert (
        output[13:15]
        == [
            "prefix_sums.c:9 needs 5 breakpoints, and 4 of 16 are left: none is set; "
            "break takes one address, of 11190, 111ac, 111b4, 11340, 11348"
        ]
        * 2
    )
    assert output[15:20] == ["ok"] * 4 + ["E12: the user already has sixteen breakpoints"] and len(output[20:]) == 16


def test_load_preserves_breakpoints_of_same_image() -> None:
    lines = ["break prefix_sums.c:13 if vl < 10", "break main", "run", "load", "breaks", "run"]
    output = shown(lines, PREFIX_SUMS[0])
    again = output[output.index("loaded pc=0000000000011528 pages=7") :]
    assert again[1:6] == [
        "=> 11528 _start  addi x2, x2, -16  (runtime.c:46)",
        "111d0 prefix_bad+0x40  (prefix_sums.c:13) if vl < 10",
        "11284 main  (prefix_sums.c:51)",
        "11364 main+0xe0  (prefix_sums.c:13) if vl < 10",
        STOPPED.format("11284"),
    ]


def test_restart_preserves_breakpoints(tmp_path: pathlib.Path) -> None:
    output = shown(["break main", "run", "restart", "breaks", "run"], PREFIX_SUMS[0])
    again = output[output.index("loaded pc=0000000000011528 pages=7") :]
    assert again[1:4] == [
        "=> 11528 _start  addi x2, x2, -16  (runtime.c:46)",
        "11284 main  (prefix_sums.c:51)",
        STOPPED.format("11284"),
    ]
    source = tmp_path / "own.s"
    source.write_text(STRIP_MINED.read_text())
    output = shown(["break next if a0 < 6", "run", "restart", "breaks", "run"], source)
    again = output[output.index("=> 10000  addi x10, x0, 13", 1) :]
    assert again[1:3] == ["10018 next if a0 < 6", STOPPED.format("10018")] and "x10/a0=5" in again[3]
    assert shown(["restart"])[1].startswith("there is no program to restart; source FILE loads an assembler source")


def test_breakpoints_of_another_program_are_reported_as_removed() -> None:
    removed = "since the program is another one"
    lines = ["break main", "break 44", f"source {STRIP_MINED}", "break next", f"source {STRIP_MINED}", "breaks", "load"]
    output = shown(lines, PREFIX_SUMS[0])
    assert output[3] == f"3 breakpoints were removed, {removed}: 11258, 11284, 113a4"
    assert "10018 next" in output and f"1 breakpoint was removed, {removed}: 10018" in output
    output = shown(["leave", "enter", "break 100", "load", "breaks", "load"], SQUARES_DWARF5)
    assert f"1 breakpoint was removed, {removed}: 100" in output and output[-2].startswith("loaded ")


def test_load_of_another_user_changes_nothing() -> None:
    """User 1, the console's, has a source with names and lines; the image is that of user 2, and then of user 1."""
    lines = [
        f"source {STRIP_MINED}",
        "break next",
        "2 enter",
        "2 load image",
        "2 leave",
        "breaks",
        "list next",
        "1 load image",
    ]
    output = shown(lines, SUM)
    assert output[3:7] == ["2 entered", "2 loaded pc=0000000000011190 pages=7", "2 left", "10018 next"]
    numbered = [f"{number:7}  {line}".rstrip() for number, line in enumerate(STRIP_MINED.read_text().split("\n"), 1)]
    assert [line for line in output if line.startswith("     ")] == numbered[10:20]
    assert output[-2:] == [
        "1 breakpoint was removed, since the program is another one: 10018",
        "=> 11190 _start  addi x2, x2, -16",
    ]
    lines = ["break 11194", "1 load image", "breaks"]
    assert shown(lines, SUM)[-1] == "11194 _start+0x4", "the image is the same"
