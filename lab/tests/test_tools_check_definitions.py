"""tools/checks/check_definitions, which compares the names in docs/DEFINITIONS.md with the definitions."""

import os
import subprocess
import sys

import pytest

from support.places import TOP

CHECK = """
import sys
from tools.checks.check_definitions import wrong_hour, wrong_modules
page = sys.stdin.read()
print(*wrong_hour(page), *wrong_modules(page), sep="\\n")
"""


@pytest.mark.parametrize(
    "old, new, fault",
    [
        ("", "", ""),
        ("| `step/Hart`, `Step` |", "| `step/Hart` |", "step/Step is needed and not named in the hour's table"),
        (
            "`text/Lines`, `machine/Script`",
            "`text/Lines`",
            "machine/Script is needed and not named in the hour's table",
        ),
        ("| `step/Hart`,", "| `step/Heart`,", "step/Hart is needed and not named in the hour's table"),
        ("`Lines`, `Words`, `Digits`", "`Lines`, `Digits`", "the row of `text` differs in Words"),
        ("`lending`, `src`", "`src`", "lending is not named in the last rows"),
        ("`lending`, `src`", "`lent`, `src`", "lent is named and has no definitions in the last rows"),
    ],
)
def test_wrong_name_is_reported(old: str, new: str, fault: str) -> None:
    page = (TOP / "docs/DEFINITIONS.md").read_text("utf-8")
    assert not old or page.count(old) == 1
    variables = {**os.environ, "PYTHONPATH": ".", "PYTHONUTF8": "1"}
    command = [sys.executable, "-c", CHECK]
    changed = page.replace(old, new) if old else page
    ran = subprocess.run(command, cwd=TOP, input=changed, capture_output=True, encoding="utf-8", env=variables)
    assert ran.returncode == 0, ran.stderr
    assert fault in ran.stdout.splitlines() and (fault or ran.stdout == "\n")
