"""The check of the style of JavaScript: each of its rules finds a planted line, and allows the form that the rule asks for."""

import pathlib
import subprocess

import pytest

from support.places import TOP

CHECK = TOP / "lab" / "support" / "javascript_style.mjs"
ALLOWED = """\
for (let place = 0, most = 3; place < most; place += 1) count(place);
const [first, ...rest] = words.split(" ");
const close = () => (menu.open = false);
menu.open &&= menu.matches(":hover");
if (first) tell(first);
else forget();
const text = first ? "one" : "none";
"""
REFUSED = {
    "if (first) tell(first), forget();": "a comma between expressions: write a statement for each",
    "const hold = (lock) => (tell(lock), lock);": "a comma between expressions: write a statement for each",
    "next.disabled = previous.disabled = !all.length;": "an assignment within an expression: write a statement for it",
    "while ((line = lines.shift())) tell(line);": "an assignment within an expression: write a statement for it",
    "const one = 1, two = 2;": "several names in a declaration: write a declaration for each",
    "const [one, two] = [1, 2];": "a list assigned to a list: write a declaration for each",
    "first ? tell(first) : forget();": "a choice as a statement: write `if`",
    "tell(first); forget();": "two statements in a line",
}


def check(path: pathlib.Path, text: str) -> tuple[int, str]:
    """The status of the check of a text, and what it prints."""
    path.write_text(text, "utf-8")
    done = subprocess.run(["node", CHECK, path], capture_output=True, text=True)
    assert done.stderr == ""
    return done.returncode, done.stdout


def test_allowed_forms_pass(tmp_path: pathlib.Path) -> None:
    assert check(tmp_path / "it.js", ALLOWED) == (0, "")


@pytest.mark.parametrize("line", REFUSED)
def test_refused_form_is_found(tmp_path: pathlib.Path, line: str) -> None:
    path = tmp_path / "it.js"
    assert check(path, f"{ALLOWED}{line}\n") == (1, f"{path}:{ALLOWED.count(chr(10)) + 1}: {REFUSED[line]}\n")
