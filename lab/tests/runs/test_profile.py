"""`vecmon-lab profile`: the table compared with counts by hand, the CSV file, and the page in Chromium."""

import csv
import pathlib
from typing import TYPE_CHECKING

import pytest

from support.browser import CONTRAST
from support.commands import Lab
from support.images import make_image
from support.places import STOCK, SUM, SUM_DWARF4, SUM_DWARF5
from support.sources import EXIT
from vecmon_lab.guest.symbols import Symbols

if TYPE_CHECKING:
    from selenium.webdriver import Chrome

HEAD = ["address", "place", "source", "instruction", "times", "ticks", "active", "masked off", "tail", "work"]
MASKED = f"""
# Three elements of eight under a mask of 5, which activates two; and then a scalar loop of 20 rounds.
        vsetivli zero, 3, e32, m1, ta, mu
        vmv.v.i v0, 5
        vadd.vi v8, v8, 1, v0.t
        li t0, 20
loop:   addi t0, t0, -1
        bnez t0, loop
        li a0, 0
        {EXIT}
"""
ROWS = "[...document.querySelectorAll('#rows tr')]"
TEXTS = f"return {ROWS}.map((row) => [...row.cells].map((cell) => cell.textContent))"
SHOWN = "[...document.querySelectorAll(arguments[0])].filter((each) => each.checkVisibility())"
WIDTHS = f"return {SHOWN}.map((bar) => bar.getBoundingClientRect().width)"


def cells(line: str) -> list[str]:
    """The cells of a row of the table."""
    return line.split()


@pytest.mark.by_command("profile")
def test_profile_table_equals_hand_worked_table(lab: Lab) -> None:
    """Times and elements were counted by hand in the listing, and source lines are those that objdump shows."""
    status, output, errors = lab("profile", SUM_DWARF4)
    lines = output.decode().splitlines()
    assert (status, errors, b"328350" in output) == (0, "", False)
    tables = output.decode().split("\n\n")
    assert cells(tables[3].splitlines()[0]) == " ".join(HEAD).split()
    assert "11240 _start+0xb0 sum.c:22 vle32.v v10, (x11) 7 100 100 0 12 89 %".split() in map(cells, lines)
    assert "1124c _start+0xbc sum.c:20 sub x10, x10, x12 7 7".split() in map(cells, lines)
    assert "111e0 _start+0x50 sum.c:35 vs2r.v v16, (x11) 6 384 384 0 0 100 %".split() in map(cells, lines)
    assert "e32,m2,ta,ma vl=16 22 ########################################".split() in map(cells, lines)
    assert "e64,m4,ta,ma vl=16 13 ########################".split() in map(cells, lines)
    assert lines[-2:] == [
        "250 instructions in 721 ticks; status 0",
        "43 vector instructions: of their 946 elements 922 were active, 0 masked off and 24 in the tail; 97 % did work",
    ]


def test_scalar_program_is_profiled(lab: Lab, program: pathlib.Path, tmp_path: pathlib.Path) -> None:
    make_image(program, tmp_path / "loop", "loop: j loop")
    status, output, errors = lab("profile", "--ticks", "2000", "-o", tmp_path / "page.html", tmp_path / "loop")
    assert (status, errors) == (124, "")
    tables = [[line.split() for line in table.splitlines()] for table in output.decode().split("\n\n")]
    assert [table[1] for table in tables[:3]] == [
        "10000 10000 2000 2000 2000 100 %".split(),
        "10000 0 2000 2000 2000 100 %".split(),
        "10000 jal x0, 0 2000 2000".split(),
    ]
    assert output.decode().splitlines()[-1] == "2,000 instructions in 2,000 ticks; the ticks ran out at 10000"


def test_unreadable_source_lines_give_warning(lab: Lab) -> None:
    status, output, errors = lab("profile", SUM_DWARF5)
    warning = Symbols.read(SUM_DWARF5).warning
    assert (status, errors) == (0, f"vecmon-lab: {warning}\n" if warning else "")
    assert b"_start+0xb0" in output


def test_csv_file_has_rows(lab: Lab, program: pathlib.Path, tmp_path: pathlib.Path) -> None:
    make_image(program, tmp_path / "masked", MASKED)
    assert lab("profile", "-o", tmp_path / "page.html", tmp_path / "masked")[0] == 0
    with (tmp_path / "page.csv").open(newline="", encoding="utf-8") as file:
        rows = list(csv.reader(file))
    assert rows[0] == HEAD and len(rows) == 10
    assert rows[3] == ["10008", "", "", "vadd.vi v8, v8, 1, v0.t", "1", "1", "2", "1", "5", "25 %"]
    assert rows[5] == ["10010", "", "", "addi x5, x5, -1", "20", "20", "", "", "", ""]


def test_names_of_an_image_are_texts(lab: Lab, tmp_path: pathlib.Path) -> None:
    """They control no terminal, are no formulas, and no elements of the page."""
    image = tmp_path / "image"
    data = SUM_DWARF4.read_bytes().replace(b"\0_start\0", b"\0=\x1b<b>x\0")
    image.write_bytes(data.replace(b"sum.c\0", b"\x1b<i>c\0"))
    status, output, errors = lab("profile", "-o", tmp_path / "page.html", image)
    assert (status, errors) == (0, "") and b"=?<b>x+0x44   ?<i>c:34-35" in output
    with (tmp_path / "page.csv").open(newline="", encoding="utf-8") as file:
        assert [*csv.reader(file)][1][1:3] == ["'=?<b>x", "?<i>c:30"]
    page, table = ((tmp_path / name).read_text("utf-8") for name in ("page.html", "page.csv"))
    assert "\x1b" not in output.decode() + page + table and "<b>" not in page and "<i>" not in page


CALLS = f"""
# Twice a function of 3 + 4 x 2 instructions, 8 in its loop, and once one that calls it 3 times.
        jal ra, short
        jal ra, short
        jal ra, long
        li a0, 0
        {EXIT}
short:  li t1, 4
again:  addi t1, t1, -1
        bnez t1, again
        mv t2, t1
        ret
long:   mv s0, ra
        li s1, 3
twice:  jal ra, short
        addi s1, s1, -1
        bnez s1, twice
        mv ra, s0
        ret
"""


def test_profile_has_loops_functions_and_calls(lab: Lab, program: pathlib.Path, tmp_path: pathlib.Path) -> None:
    """Without symbols a function begins where a call leads. `short` has 5 times 11 of 74 instructions."""
    make_image(program, tmp_path / "calls", CALLS)
    status, output, errors = lab("profile", tmp_path / "calls")
    tables = [[line.split() for line in table.splitlines()[1:]] for table in output.decode().split("\n\n")]
    assert (status, errors) == (0, "")
    assert tables[0] == ["1001c 10020 20 40 40 54 %".split(), "10034 1003c 3 9 9 12 %".split()]
    assert tables[1] == ["10018 5 55 55 55 74 %".split(), "1002c 1 46 13 13 18 %".split(), "10000 0 74 6 6 8 %".split()]
    assert tables[2] == ["10000 1002c 1 46".split(), "1002c 10018 3 33".split(), "10000 10018 2 22".split()]


def test_profile_has_source_lines(lab: Lab) -> None:
    """The sums of the rows of a line, by the listing."""
    tables = [table.splitlines() for table in lab("profile", SUM_DWARF4)[1].decode().split("\n\n")]
    assert tables[0][1].split() == "111d4 111f4 _start+0x44 sum.c:34-35 6 54 432 60 % 672 0 0 100 %".split()
    assert tables[0][2].split() == "1123c 11258 _start+0xac sum.c:20-23 7 56 149 21 % 200 0 24 89 %".split()
    assert tables[1][1].split()[:6] == "_start 0 721 250 721 100".split()
    assert "sum.c:22 7 100 14 % 100 0 12 89 %".split() in map(cells, tables[2])
    assert tables[2][-1] == "and 6 more, which -o FILE.html shows"


def test_profiles_are_compared(lab: Lab, program: pathlib.Path, tmp_path: pathlib.Path) -> None:
    """A loop of 5 rounds in place of 20, so 30 ticks less in the one function that there is."""
    make_image(program, tmp_path / "long", MASKED)
    make_image(program, tmp_path / "short", MASKED.replace("li t0, 20", "li t0, 5"))
    status, output, errors = lab("profile", "--against", tmp_path / "long", tmp_path / "short")
    lines = output.decode().splitlines()
    assert (status, errors) == (0, "") and lines[0].split() == ["function", "ticks", "against", "change"]
    assert lines[1].split() == ["10000", "17", "47", "-30"]
    assert lines[-4].startswith("17 instructions in 17 ticks") and lines[-2].startswith(
        "against long: 47 instructions in 47 "
    )
    tables = [
        each.splitlines() for each in lab("profile", "--against", SUM_DWARF4, SUM_DWARF4)[1].decode().split("\n\n")
    ]
    assert tables[0][0].split()[0] == "source" and {line.split()[-1] for line in tables[0][1:11]} == {"0"}
    assert tables[1][0].split()[0] == "function" and tables[1][1].split() == ["_start", "721", "721", "0"]


def test_unmatched_lines_and_functions_are_reported(lab: Lab, tmp_path: pathlib.Path) -> None:
    """Each program against one of another file, then also of another function, and against itself."""
    for name, label in (("old", "first"), ("new", "first"), ("other", "second")):
        (tmp_path / f"{name}.s").write_text(f"{label}: li a0, 0\n{EXIT}\n", "ascii")
    lines = "the lines of {}.s and {}.s are in one program only: they are compared with 0"
    functions = "no function is in both programs: each is compared with 0"
    new, old = tmp_path / "new.s", tmp_path / "old.s"
    cases: dict[str, list[str]] = {
        "old": [lines.format("new", "old")],
        "other": [lines.format("new", "other"), functions],
        "new": [],
    }
    for against, expected in cases.items():
        output = lab("profile", "--against", tmp_path / f"{against}.s", new)[1].decode()
        found = output.partition("\nagainst ")[2].splitlines()
        assert found[1:] == [f"against {against}: {sentence}" for sentence in expected]
    assert lab("profile", "-o", tmp_path / "page.html", "--against", old, new)[0] == 0
    assert lines.format("new", "old") in (tmp_path / "page.html").read_text("utf-8")


def test_help_says_ticks(lab: Lab) -> None:
    """The tables are ordered by ticks, as RUNNING.md states."""
    output = lab("profile", "--help")[1].decode()
    assert "Show where a program spends its ticks" in output and "spends its instructions" not in output


@pytest.mark.parametrize("scheme", ["light", "dark"])
def test_profile_page_is_written(
    browser: "Chrome", lab: Lab, program: pathlib.Path, tmp_path: pathlib.Path, scheme: str
) -> None:
    make_image(program, tmp_path / "<b>masked", MASKED)
    assert lab("profile", "-o", tmp_path / "page.html", tmp_path / "<b>masked")[0] == 0
    features = [{"name": "prefers-color-scheme", "value": scheme}]
    browser.execute_cdp_cmd("Emulation.setEmulatedMedia", {"features": features})
    browser.get((tmp_path / "page.html").as_uri())
    assert browser.get_log("browser") == [] and browser.execute_script(CONTRAST) == []
    assert browser.title == "Profile of <b>masked" and browser.find_elements("css selector", "h1 b") == []
    rows = browser.execute_script(TEXTS)
    heads = browser.execute_script("return [...document.querySelectorAll('h2')].map((head) => head.textContent)")
    assert heads[1:3] == ["Loops", "Functions"]
    summary = browser.execute_script(
        "return [...document.querySelectorAll('#summary p')].map((line) => line.textContent)"
    )
    assert [line[-9:] for line in summary] == ["status 0.", "did work."]
    loop = browser.execute_script("return document.querySelector('#tables tbody tr').innerText").split()
    assert loop == "10010 10014 20 40 40 85 %".split()
    assert not browser.find_element("id", "calls").is_displayed()  # as there is no call
    assert len(rows) == 10 and rows[5][:5] == ["10010", "addi x5, x5, -1", "", "20", "20"]
    assert rows[3] == ["10008", "vadd.vi v8, v8, 1, v0.t", "", "1", "1", "", "2", "1", "5", "25 %", ""]
    active, masked, tail = browser.execute_script(WIDTHS, "#rows tr:nth-child(3) .elements span")
    assert abs(active - 2 * masked) < 1 and abs(tail - 5 * masked) < 1
    ticks = browser.execute_script(WIDTHS, "#rows .ticks")
    assert abs(ticks[4] - 20 * ticks[3]) < 1 and max(ticks) == ticks[4] == ticks[5]
    browser.find_element("id", "by-ticks").click()
    assert [row[0] for row in browser.execute_script(TEXTS)[1:3]] == ["10010", "10014"]
    assert lab("profile", "-o", tmp_path / "page.html", SUM_DWARF4)[0] == 0
    browser.refresh()
    rows = browser.execute_script(TEXTS)
    assert rows[1] == ["_start"] and rows[2][:3] == ["11190", "addi x2, x2, -16", "sum.c:30"]
    browser.execute_cdp_cmd("Emulation.setEmulatedMedia", {"features": []})


@pytest.mark.parametrize("scheme", ["light", "dark"])
def test_flame_graph_has_frames(
    browser: "Chrome", lab: Lab, program: pathlib.Path, tmp_path: pathlib.Path, scheme: str
) -> None:
    """Of 74 ticks `long` has 46, and 33 of them are calls of `short`, which has 22 more; a click makes 46 the whole."""
    make_image(program, tmp_path / "calls", CALLS)
    assert lab("profile", "-o", tmp_path / "page.html", tmp_path / "calls")[0] == 0
    browser.execute_cdp_cmd(
        "Emulation.setEmulatedMedia", {"features": [{"name": "prefers-color-scheme", "value": scheme}]}
    )
    browser.get((tmp_path / "page.html").as_uri())
    assert browser.get_log("browser") == [] and browser.execute_script(CONTRAST) == []
    bars = f"return {SHOWN}.map((bar) => bar.textContent)", ".flame button"
    assert browser.execute_script(*bars) == ["all 100 %", "10000 100 %", "1002c 62.2 %", "10018 44.6 %", "10018 29.7 %"]
    whole, _, *widths = browser.execute_script(WIDTHS, ".flame li")
    assert all(abs(width - whole * ticks / 74) < 1 for width, ticks in zip(widths, (46, 33, 22)))
    title = browser.execute_script("return document.querySelectorAll('.flame button')[2].title")
    assert title == "1002c 62.2 %: 46 ticks, 13 of them its own"
    browser.find_elements("css selector", ".flame button")[2].click()
    assert browser.execute_script(*bars) == ["all 100 %", "10000 100 %", "1002c 62.2 %", "10018 44.6 %"]
    *above, last = browser.execute_script(WIDTHS, ".flame li")
    assert all(abs(width - whole) < 1 for width in above) and abs(last - whole * 33 / 46) < 1
    assert browser.execute_script("return document.activeElement.textContent") == "1002c 62.2 %"
    browser.execute_script("document.querySelectorAll('.flame button')[0].click()")
    assert len(browser.execute_script(*bars)) == 5
    browser.execute_cdp_cmd("Emulation.setEmulatedMedia", {"features": []})


@pytest.mark.parametrize(
    "arguments, expected",
    [
        (["none"], "vecmon-lab: none: No such file or directory"),
        ([STOCK / "short"], f"vecmon-lab: {STOCK}/short: the machine refuses image (E09 Short)"),
        (["-o", "page.csv", SUM], "vecmon-lab: -o names a page, FILE.html, and page.csv is none"),
        (["-o", STOCK / "none" / "page.html", SUM], f"vecmon-lab: {STOCK}/none/page.csv: No such file or directory"),
    ],
)
def test_bad_input_is_refused(lab: Lab, arguments: list[object], expected: str) -> None:
    status, _, errors = lab("profile", *arguments)
    assert (status, errors.count("\n")) == (2, 1) and errors.startswith(expected)


@pytest.mark.parametrize("source, ends", [("li a7, 93\necall", 0), ("nop\nebreak", 133), (".word 0", 139)])
def test_profile_has_exit_status_of_run(
    lab: Lab, program: pathlib.Path, tmp_path: pathlib.Path, source: str, ends: int
) -> None:
    make_image(program, tmp_path / "stops", source)
    status, output, errors = lab("profile", tmp_path / "stops")
    assert (status, errors) == (ends, "") and output.startswith(b"function  called" if ends < 139 else b"")
