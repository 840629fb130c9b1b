"""tools/documents/figures, which counts for docs/FIGURES.md; other pages have no counts."""

import pathlib
import re
import subprocess
import sys

import pytest

from support.places import TOP
from tools.definitions.definition_figures import files_in, rows_of
from tools.documents.figure_sizes import size_tables
from tools.documents.figure_table import Row, Table, with_sums
from tools.documents.figures import faults_in, page_of

LISTS = Table("Lists", "Of the repository:", ("list", "entries"), [Row("edits", [159]), Row("lessons", [14])])
SIZES = Table(
    "Sizes", "In lines:", ("folder", "files", "lines"), [Row("lab", [300, 25000]), Row("tests", [64, None])], False
)

SOURCE = """\
use core::mem;

// A comment.
pub fn double(number: u8) -> u8
    requires small { number ≤ 127 }
{
    number + number
}

#[tactic(auto)]
pub(crate) const fn zero() -> u8 {
    0
}
"""
"""Two functions: seven lines of code, one of contracts and one of proofs."""

PROOF = """\
use Rattle.a.specs.B

-- A comment.
law : A
law = refl
"""
MODULE = '''\
"""A docstring."""

import re


def test_first() -> None:
    """Another one."""
    assert re  # a comment


def helper() -> None:
    async def test_second() -> None: ...
'''
"""Three functions, two of them tests, in four lines."""


def row(title: str, name: str) -> list[int | None]:
    """Return the numbers of a row of the tables of sizes in the current folder."""
    (table,) = (it for it in size_tables() if it.title == title)
    (found,) = (it for it in table.rows if it.name == name)
    return [*found.numbers]


def test_sizes_are_those_by_hand(tmp_path: pathlib.Path, monkeypatch: pytest.MonkeyPatch) -> None:
    files = {
        "crates/a/src/lib.rt": SOURCE,
        "crates/a/proofs/P.antt": PROOF,
        "crates/test_a/src/main.rt": "fn main() {\n}\n",
        "lab/tests/test_a.py": MODULE,
        "lab/vecmon_lab/__init__.py": "",
        "lab/vecmon_lab/page/__init__.py": "A = 1\nB = (\n    2\n)\n",
        "lab/vecmon_lab/page/web/a.js": "// A comment.\nlet a = 1;\n",
    }
    for name, text in files.items():
        (tmp_path / name).parent.mkdir(parents=True, exist_ok=True)
        (tmp_path / name).write_text(text, "utf-8")
    monkeypatch.chdir(tmp_path)
    all_files = "Files, functions, lines and tests"
    assert row(all_files, "crates of the programs: sources") == [1, 2, 9, None]
    assert row(all_files, "crates of the programs: proofs") == [1, None, 2, None]
    assert row(all_files, "crates of tests: sources") == [1, 1, 2, None]
    assert row(all_files, "`lab/tests`") == [1, 3, 4, 2]
    assert row(all_files, "the lab: Python") == [2, 0, 4, None]
    assert row(all_files, "the lab: HTML, CSS, JavaScript") == [1, None, 1, None]
    assert row("Lines of the crates of the programs", "`a`") == [7, 1, 0, 3, 11]
    assert row("Lines of the lab", "all") == [4]


def test_sums_leave_out_empty_cells() -> None:
    assert with_sums([Row("a", [1, None]), Row("b", [2, 5])])[2] == Row("all", [3, 5])


def test_correct_page_has_no_fault() -> None:
    page = page_of([LISTS, SIZES])
    assert "\n| lessons | 14 |\n" in page and "\n| lab | 300 | 25,000 |\n| tests | 64 |  |\n" in page
    assert [*faults_in(page, [LISTS, SIZES], True)] == []


@pytest.mark.parametrize(
    "old, new, by_gate, by_release",
    [
        ("| 14 |", "| 15 |", True, True),
        ("| 300 |", "| 301 |", False, True),
        ("| 25,000 |", "| 27,500 |", False, True),
        ("| 25,000 |", "| 27,501 |", True, True),
        ("| 25,000 |", "| 22,499 |", True, True),
        ("| 64 |", "| 164 |", False, True),
        ("| 64 |", "| 165 |", True, True),
        ("| lessons |", "| courses |", True, True),
        ("In lines:", "In words:", True, True),
        ("| lessons | 14 |\n", "", True, True),
    ],
)
def test_wrong_page_is_reported(old: str, new: str, by_gate: bool, by_release: bool) -> None:
    """A size on the page may be a tenth from that of the sources, or 100, except at a release."""
    page = page_of([LISTS, SIZES])
    assert page.count(old) == 1
    for exact, is_reported in ((False, by_gate), (True, by_release)):
        assert len([*faults_in(page.replace(old, new), [LISTS, SIZES], exact)]) == is_reported


def test_wrong_option_is_refused() -> None:
    command = [sys.executable, "tools/documents/figures", "--all"]
    ran = subprocess.run(command, cwd=TOP, capture_output=True, text=True)
    usage = "tools/documents/figures: usage: tools/documents/figures [--write | --exact]\n"
    assert (ran.returncode, ran.stdout, ran.stderr) == (2, "", usage)


def test_files_of_a_cell_have_the_folder_before_them() -> None:
    page = "\n## Path\n\n| what | files |\n|---|---|\n| a step | `step/Hart`, `Step`; `text/Lines` |\n\n## Next\n"
    ((what, files),) = rows_of(page, "Path")
    assert what == "a step" and files_in(files) == ["step/Hart", "step/Step", "text/Lines"]


COUNTED = "crates|edits|lemmas|theorems|lessons|exercises|command lines|source files|lines of code|tests|golden vectors"
NUMBER = (
    r"\d[\d,]*|five|six|seven|eight|nine|ten|eleven|twelve|thirteen|fourteen|fifteen|sixteen|seventeen|eighteen|"
    r"nineteen|twenty|thirty|forty|fifty|sixty|seventy|eighty|ninety|hundreds?(?: of)?"
)
CODE = re.compile(r"^```.*?^```|`[^`\n]*`", re.MULTILINE | re.DOTALL)
WITH_COUNTS = {"FIGURES.md", "MEASUREMENTS.md"}


def test_pages_have_no_counts() -> None:
    """In text and tables, without code. MEASUREMENTS has those of a commit that it names."""
    pages = [TOP / "README.md", TOP / "CONTRIBUTING.md", *sorted((TOP / "docs").glob("*.md"))]
    count = re.compile(rf"(?<!stage )\b(?:{NUMBER}) (?:{COUNTED})\b", re.IGNORECASE)
    assert count.search("has 159 edits that") and count.search("all twelve exercises")
    texts = {path.name: CODE.sub("", path.read_text("utf-8")) for path in pages if path.name not in WITH_COUNTS}
    assert [f"{name}: {found}" for name, text in texts.items() for found in count.findall(text)] == []
