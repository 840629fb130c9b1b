"""The files of tools/: each has a line in tools/README.md, commands have no suffix, and modules have one."""

import os
import re
import subprocess
from pathlib import Path

import pytest

from support.places import TOP

TOOLS = TOP / "tools"
LAUNCHER = '''
"""Run {path}.py."""

import runpy
import sys
from pathlib import Path

TOP = Path(__file__).resolve().parents[{depth}]
sys.path[:1] = [str(TOP), str(TOP / "lab")]
runpy.run_module("{module}", run_name="__main__", alter_sys=True)
'''
ELSEWHERE = {"instructions": "tools/records/instructions", "try_edits": "tools/editing/try_edits"}
"""Commands whose module isn't next to them."""


def files() -> list[Path]:
    """The files of the repository in tools/, without the pages and the lines that make folders packages."""
    command = ["git", "-C", str(TOP), "ls-files", "--cached", "--others", "--exclude-standard", "-z", "tools"]
    names = subprocess.run(command, capture_output=True, text=True, check=True).stdout.split("\0")
    paths = [TOP / name for name in names if name]
    return [path for path in paths if path.is_file() and path.name not in ("README.md", "__init__.py")]


def listed() -> list[str]:
    """The paths below tools/ that the tables of its page list, in order."""
    found, folder = list[str](), ""
    for line in (TOOLS / "README.md").read_text("utf-8").splitlines():
        if heading := re.fullmatch(r"(##+) (\w+)", line):
            folder = f"{heading[2]}/" if heading[1] == "##" else f"{folder}{heading[2]}/"
        elif line.startswith("| `"):
            found += [folder + name for name in re.findall(r"`([^`]+)`", line.split("|")[1])]
    return found


def test_page_lists_each_file_once() -> None:
    """In each folder in order; the commands at the top are in the order of their use."""
    names = [path.relative_to(TOOLS).as_posix() for path in files()]
    assert sorted(listed()) == sorted(names)
    folders = [name.rpartition("/")[0] for name in listed()]
    for folder in dict.fromkeys(folders) if folders else ():
        those = [name for name, its in zip(listed(), folders) if its == folder]
        assert not folder or those == sorted(those), folder


def test_commands_are_executable_and_modules_are_not() -> None:
    for path in files():
        first = path.read_bytes()[:2] == b"#!"
        assert os.access(path, os.X_OK) == (not path.suffix) == first, path


def test_folders_are_packages() -> None:
    folders = {path.parent for path in files() if path.suffix == ".py"}
    assert [str(folder) for folder in folders if not (folder / "__init__.py").is_file()] == []


@pytest.mark.parametrize("path", [path for path in files() if not path.suffix], ids=lambda path: str(path.name))
def test_commands_in_python_only_start_their_module(path: Path) -> None:
    name = path.relative_to(TOP).as_posix()
    first, _, rest = path.read_text("utf-8").partition("\n")
    if "python" in first:
        module = ELSEWHERE.get(path.name, name) if path.parent == TOOLS else name
        text = LAUNCHER.format(path=module, depth=name.count("/"), module=module.replace("/", "."))
        assert f"\n{rest}" == text and (TOP / f"{module}.py").is_file()
