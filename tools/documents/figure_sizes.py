"""The tables of docs/FIGURES.md that count files, functions, lines and tests."""

import ast
import re
from collections.abc import Iterable, Iterator
from pathlib import Path

from tools.documents.figure_table import Row, Table, with_sums
from tools.measuring.size import KINDS, kinds_of, lines_of, page_lines, python_lines, theory_lines

TEST_CRATES = re.compile("test_|draws$")
FUNCTION = re.compile(r"^\s*(?:pub(?:\(\w+\))? )?(?:const )?(?:unsafe )?fn \w+", re.MULTILINE)
LAB = Path("lab/vecmon_lab")
PYTHON = {
    "the lab: Python": LAB,
    "`lab/tests`": Path("lab/tests"),
    "`lab/support`": Path("lab/support"),
    "`lab/tools`": Path("lab/tools"),
    "`tests`": Path("tests"),
    "`tools`: Python": Path("tools"),
}
"""Folders by the names of their rows."""


def size_tables() -> Iterator[Table]:
    """Yield the tables."""
    crates = sorted(path.parent for path in Path("crates").glob("*/src"))
    tests = [path for path in crates if TEST_CRATES.match(path.name)]
    product = [path for path in crates if path not in tests]
    pages = _texts(LAB.glob("**/*.[hcj]*[ls]"))
    yield Table(
        "Files, functions, lines and tests",
        "Lines are without blanks, comments, `use` lines, and Python's docstrings and imports. A test of pytest with parameters counts "
        "once. Functions of JavaScript aren't counted.",
        ("sources", "files", "functions", "lines", "tests"),
        [
            *_crate_rows("crates of the programs", product),
            *_crate_rows("crates of tests", tests),
            *(_python_row(name, _texts(folder.glob("**/*.py"))) for name, folder in PYTHON.items()),
            Row("the lab: HTML, CSS, JavaScript", [len(pages), None, sum(map(page_lines, pages)), None]),
        ],
        is_exact=False,
    )
    yield _kind_table(
        "Lines of the crates of the programs",
        "Contracts are `requires`, `ensures` and other `ghost` items in `src`; `#[tactic(..)]` there is proof.",
        product,
    )
    yield _kind_table("Lines of the crates of tests", "By the same kinds:", tests)
    folders = sorted(path.parent for path in LAB.glob("*/__init__.py"))
    yield Table(
        "Lines of the lab",
        "Of its package, in Python:",
        ("folder", "lines"),
        with_sums(
            [
                _lines_row("`vecmon_lab/*.py`", LAB.glob("*.py")),
                *(_lines_row(f"`vecmon_lab/{folder.name}`", folder.glob("**/*.py")) for folder in folders),
            ]
        ),
        is_exact=False,
    )


def _texts(paths: Iterable[Path]) -> list[str]:
    """Return the texts of files."""
    return [path.read_text("utf-8") for path in paths]


def _crate_rows(name: str, crates: list[Path]) -> Iterator[Row]:
    """Yield a row for the sources of crates, one for their definitions, and one for their proofs."""
    sources = _texts(path for crate in crates for path in crate.glob("src/**/*.rt"))
    functions = sum(len(FUNCTION.findall(text)) for text in sources)
    lines = sum(kind in KINDS for text in sources for kind in kinds_of(text))
    yield Row(f"{name}: sources", [len(sources), functions, lines, None])
    for kind, folder in ("definitions", "specs"), ("proofs", "proofs"):
        texts = _texts(path for crate in crates for path in crate.glob(f"{folder}/**/*.antt"))
        yield Row(f"{name}: {kind}", [len(texts), None, sum(map(theory_lines, texts)), None])


def _python_row(name: str, texts: list[str]) -> Row:
    """Return the row of a folder's Python: no number of tests if it has none."""
    nodes = (node for text in texts for node in ast.walk(ast.parse(text)))
    functions = [node.name for node in nodes if isinstance(node, ast.FunctionDef | ast.AsyncFunctionDef)]
    tests = sum(function.startswith("test_") for function in functions)
    return Row(name, [len(texts), len(functions), sum(map(python_lines, texts)), tests or None])


def _kind_table(title: str, text: str, crates: list[Path]) -> Table:
    """Return the table with the lines of each crate by kind."""
    counts = {crate.name: lines_of(crate) for crate in crates}
    numbers = {name: [lines[kind] for kind in KINDS] for name, lines in counts.items()}
    rows = [Row(f"`{name}`", [*those, sum(those)]) for name, those in numbers.items()]
    return Table(title, text, ("crate", *KINDS, "all"), with_sums(rows), is_exact=False)


def _lines_row(name: str, paths: Iterable[Path]) -> Row:
    """Return a row with the lines of files of Python."""
    return Row(name, [sum(map(python_lines, _texts(paths)))])
