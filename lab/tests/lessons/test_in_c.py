"""Sources in C: their listings side by side, the rows of memory that lessons show of them, and the tour's kernel."""

import html
import pathlib
import re
import struct

import pytest

from support.commands import Lab
from support.places import DATA, EXAMPLES
from support.tour_kernel import COMPILER, KERNEL, made
from vecmon_lab import LabError
from vecmon_lab.compilers.compiled import variable_rows
from vecmon_lab.compilers.compiling import compile_c
from vecmon_lab.compilers.compiler import CHOICES, Compiler, choice_of
from vecmon_lab.compilers.locations import Location
from vecmon_lab.compilers.variables import Variable
from vecmon_lab.lessons.frames import make_frames
from vecmon_lab.lessons.listings import listing_of
from vecmon_lab.lessons.script import read_compiled
from vecmon_lab.machine.session import Session
from vecmon_lab.lessons.tour import TOURS, tours

KERNELS = EXAMPLES / "kernels"
LOOP = """
int main(void)
{
    volatile int sum = 0;
    for (int i = 0; i < 7; i++)
        sum += i;
    return sum == 21 ? 0 : 1;
}
"""


def test_line_execution_counts_are_shown(clang: Compiler, program: pathlib.Path) -> None:
    listing = listing_of(compile_c(LOOP, clang, choice_of("O1"), KERNELS), "one", program)
    assert {row[4] for row in listing.rows if row[1] == 6} == {7}
    assert {row[2] for row in listing.rows} == {""} and {row[1] for row in listing.rows} <= {3, *range(4, 9)}
    assert listing.summary[-1].endswith("status 0")


def test_line_element_counts_are_shown(clang: Compiler, program: pathlib.Path) -> None:
    """37 elements in groups of 16 leave 5, and 11 in the last tail."""
    text = (KERNELS / "saxpy.c").read_text("ascii")
    listing = listing_of(compile_c(text, clang, 0, KERNELS), "one", program)
    number = text[: text.index("vse32")].count("\n") + 1
    (store,) = (row for row in listing.rows if row[1] == number)
    assert re.fullmatch(r"vse32\.v .*", str(store[3])) and list(store[4:]) == [3, 37, 0, 11] and store[2] == "saxpy"


def test_endless_program_has_no_counts(clang: Compiler, program: pathlib.Path) -> None:
    text = "int main(void)\n{\n    for (volatile int i = 0;; i++)\n        ;\n}\n"
    listing = listing_of(compile_c(text, clang, 0, KERNELS), "one", program)
    assert "the ticks ran out" in listing.summary[0]


def test_breakpoint_covers_inlined_function(clang: Compiler, session: Session) -> None:
    """It stops in main's copy, not only in the one that nothing calls."""
    text = f"{(DATA / 'images' / 'prefix_sums.c').read_text('ascii')}//> break prefix_bad\n//> go\n//> * slices 30\n"
    program = compile_c(text, clang, 0, KERNELS)
    script = read_compiled(text, "prefix_sums.c", program, is_c=True)
    lines = [line for step in script.steps for line in step.lines]
    assert len([line for line in lines if line.startswith("1 break ")]) == 2
    answers = [session.do(line) for line in lines]
    assert answers[-1][0].startswith("1 break pc=") and int(answers[-1][0][-16:], 16) > program.labels["main"], answers[
        -1
    ]


def test_listings_are_shown_side_by_side(lab: Lab, clang: Compiler, tmp_path: pathlib.Path) -> None:
    page, source = tmp_path / "page.html", KERNELS / "plain_sum.c"
    arguments = ["lesson", str(source), "--cc", clang.name, "--against", "O2-scalar", "-o", str(page)]
    assert lab(*arguments)[0] == 0
    text = page.read_text("utf-8")
    lines = re.findall(r'<th scope="rowgroup" colspan="2"><span class="number">[0-9]+</span> (.*?)</th>', text)
    assert [html.unescape(line) for line in lines] == source.read_text("ascii").split("\n")
    assert re.findall("<h2>(.*?)</h2>", text) == [f"{clang.name} O2", f"{clang.name} O2-scalar"]
    tables = r"(?:<td>(?:<table>(.*?)</table>)?</td>)"
    sides = zip(*re.findall(f"<tr>{tables}{tables}</tr>", text))
    assert [any(">vadd.vv" in table for table in side) for side in sides] == [True, False]


@pytest.mark.parametrize(
    ("arguments", "expected"),
    [
        (["saxpy.c", "--against", "O7"], "O7 aren't options"),
        (["saxpy.c", "--against", "stock"], "stock is for assembler"),
        (["saxpy.c", "--against", "clang-1:O2"], "clang-1 is no compiler that is here"),
    ],
)
def test_unavailable_comparison_is_refused(lab: Lab, clang: Compiler, arguments: list[str], expected: str) -> None:
    status, _, errors = lab("lesson", str(KERNELS / arguments[0]), *arguments[1:])
    assert status == 2 and expected in errors


def test_against_requires_c_source(lab: Lab) -> None:
    assert "is for a source in C" in lab("lesson", str(EXAMPLES / "strip_mined.s"), "--against", "O2")[2]


def test_compiler_titles_report_missing_intrinsics() -> None:
    assert Compiler("clang-19").title(0) == "clang-19 O2"
    assert Compiler("riscv64-linux-gnu-gcc-14").title(1) == "riscv64-linux-gnu-gcc-14 O0"
    assert Compiler("riscv64-linux-gnu-gcc").title(0).endswith("(scalar C alone: it has no intrinsics)")
    assert [choice_of(choice.name) for choice in CHOICES] == list(range(len(CHOICES)))
    with pytest.raises(LabError, match="aren't options"):
        choice_of("@file")


def test_memory_rows_show_variables(clang: Compiler, program: pathlib.Path) -> None:
    text = (KERNELS / "saxpy.c").read_text("ascii")
    compiled = compile_c(text, clang, 0, KERNELS)
    memory = make_frames(read_compiled(text, "x", compiled, True), program)[-1].states["1"]["memory"]
    first, expected = compiled.labels["y"], struct.pack("<37i", *(1000 + 2 * i for i in range(37)))
    rows = {f"{row:x}" for row in range(first & -16, first + len(expected), 16)}
    assert rows <= memory.keys()
    assert bytes.fromhex("".join(memory[row] for row in sorted(rows)))[first % 16 :][: len(expected)] == expected


def test_variable_rows_are_listed() -> None:
    places = [Location(0, 9, "memory", 0, "1008")]
    variables = [
        Variable("a", "", "i32", [3], "", [], places),
        Variable("b", "", "u8", [], "", [], [Location(0, 9, "memory", 2, "3000"), Location(0, 9, "register")]),
        Variable("c", "", "i64", [1 << 40], "", [], [Location(0, 9, "memory", 0, "2000")]),
        Variable("d", "", "", [7], "", [], places),
    ]
    assert variable_rows(variables) == [0x1000, 0x1010, *range(0x2000, 0x3000, 16)]


def test_tour_kernel_equals_compiler_output(clang: Compiler) -> None:
    """Made again by `python3 -m support.tour_kernel`, in lab/."""
    if clang == COMPILER:
        script, reply = made()
        assert (TOURS / KERNEL).read_text("ascii") == script and (TOURS / f"{KERNEL}.json").read_text("ascii") == reply


def test_kernel_of_tour_has_its_source_and_starts_at_vectors(program: pathlib.Path) -> None:
    script = tours()[KERNEL]
    assert script.labels["112ec"] == ["_start"] and script.text == (TOURS / f"{KERNEL}.c").read_text("ascii")
    frames = make_frames(script, program)
    assert [frame.states["1"]["pc"] for frame in frames[:2]] == ["112ec", "111e8"]
    assert frames[2].states["1"]["code"]["111e8"][9:].startswith("vsetvli") and frames[2].states["1"]["vl"] == 8
    assert script.said["111e8"].endswith("length = __riscv_vsetvl_e32m1(count);  (saxpy, inlined)")
