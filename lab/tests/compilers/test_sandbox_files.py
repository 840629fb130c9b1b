"""The files that a source in C can reach in the sandbox: those of a closed list, and no exercise, wherever it is."""

import ast
import json
import pathlib
import subprocess
import sys
from collections.abc import Callable, Iterable, Iterator
from typing import Any

import pytest

from support.commands import Lab
from support.places import TOP
from vecmon_lab.compilers import sandbox
from vecmon_lab.compilers.compiler import Compiler, choice_of
from vecmon_lab.compilers.sandbox import run_sandboxed
from vecmon_lab.compilers.sandbox_files import LAB, MODULES, PLACE
from vecmon_lab.exercises.exercise import OURS

MAIN = "int main(void) { return 0; }\n"
EXERCISES = sorted(path for path in OURS.rglob("*") if path.is_file())
WALK = """
import os, sys
for folder, _, files in os.walk("/"):
    print(*(os.path.join(folder, file) for file in files), sep="\\n")
"""
EXISTING = """
import os, sys
print(*(path for path in sys.stdin.read().splitlines() if os.path.exists(path)), sep="\\n")
"""
UNUSUAL = """
import subprocess, sys
for path in sys.stdin.read().splitlines():
    for options in (["-x", "c", path], ["-x", "assembler-with-cpp", path], ["-include", path, "source.c"], [f"@{path}"]):
        done = subprocess.run(["clang-19", "-E", *options], capture_output=True, text=True)
        if "title" in done.stdout + done.stderr or not done.returncode:
            print(path, options)
"""

Inside = Callable[[str, Iterable[object]], list[str]]


@pytest.fixture
def inside(sandboxed_clang: Compiler, monkeypatch: pytest.MonkeyPatch) -> Inside:
    """A function that runs Python in the sandbox, with paths on its input; the lines that it prints."""

    def run(code: str, paths: Iterable[object]) -> list[str]:
        with monkeypatch.context() as patch:
            patch.setattr(sandbox, "MODULE", ("-c", code))
            reply = run_sandboxed([sandboxed_clang.name, "0"], "".join(f"{path}\n" for path in paths))
        return [line for line in reply.decode().splitlines() if line]

    return run


def within(path: pathlib.Path) -> Iterator[str]:
    """The paths under which a file of the lab might be in the sandbox: its own, and those where the lab was or is there."""
    yield str(path)
    if path.is_relative_to(LAB):
        yield f"{PLACE}/{path.relative_to(LAB)}"


def names(folder: pathlib.Path) -> Iterator[str]:
    """The paths of the files below a folder which aren't in the closed list."""
    for path in sorted(folder.rglob("*")):
        if path.is_file() and path.suffix != ".pyc" and not path.name.startswith("."):
            of_lab = str(path.relative_to(LAB)) if path.is_relative_to(LAB) else ""
            yield from within(path) if of_lab not in MODULES else [str(path)]


def messages(reply: bytes) -> list[Any]:
    """The messages about a source, without places."""
    return [text for _, _, _, text in json.loads(reply)["messages"]]


def test_list_covers_imports() -> None:
    """In a new interpreter `sandbox_main` loads the modules of the list, and no other of the lab."""
    code = "import sys, vecmon_lab.compilers.sandbox_main; print(*(m.__file__ for n, m in sys.modules.items() if 'vecmon' in n))"
    completed = subprocess.run([sys.executable, "-c", code], capture_output=True, text=True, check=True)
    loaded = {str(pathlib.Path(path).relative_to(LAB)) for path in completed.stdout.split()}
    assert loaded == {module for module in MODULES if module.endswith(".py")}


def test_only_listed_files_exist_in_sandbox(inside: Inside) -> None:
    """The sandbox has the listed modules of the lab, and otherwise only programs, libraries, headers and Python."""
    found = inside(WALK, [])
    of_lab = {path for path in found if path.startswith(f"{PLACE}/") and not path.startswith(f"{PLACE}/elftools/")}
    assert of_lab == {f"{PLACE}/{module}" for module in MODULES}
    others = [path for path in found if not path.startswith((PLACE, "/usr/lib/python3.", "/usr/lib/llvm-"))]
    assert others and all(path.startswith(("/usr/bin/", "/usr/lib/", "/usr/lib64/", "/dev/null")) for path in others)
    assert len(others) < 60 and not any("/share/" in path or "/include/" in path for path in others)


def test_lab_files_are_hidden(inside: Inside, tmp_path: pathlib.Path) -> None:
    """Neither below the lab's folder, where an installed lab has its own, nor an exercise in a folder of the user's."""
    (tmp_path / "exercise.toml").write_text("title = 'mine'\n")
    installed = ["/usr/share/vecmon", *(f"/usr/share/vecmon/{path.relative_to(TOP)}" for path in EXERCISES)]
    paths = [*names(TOP / "lab"), *installed, "/usr/share", "/usr/include", "/etc", "/home", "/root", "/srv", "/opt"]
    assert len(paths) > 700 and str(OURS / "doubles" / "good.c") in paths
    assert inside(EXISTING, [*paths, tmp_path, tmp_path / "exercise.toml", "/proc", "/dev/fd", "/dev/stdin"]) == []
    assert inside(EXISTING, [f"{PLACE}/vecmon_lab/compilers/runtime/vecmon.h"]) != []


def test_lab_files_are_hidden_from_c(sandboxed_clang: Compiler) -> None:
    """By `__has_include` and `__has_embed`, which would name it in a message; the header for students is found."""
    paths = [*names(TOP / "lab"), *(f"/proc/self/fd/{number}" for number in range(20)), "/proc/self/root", "/dev/fd/0"]
    test = '#if __has_include("{0}") || __has_embed("{0}")\n#error there is {0}\n#endif\n'
    text = "".join(test.format(path) for path in paths) + "#if __has_include(<vecmon.h>)\n" + MAIN + "#endif\n"
    assert messages(run_sandboxed([sandboxed_clang.name, "0"], text)) == []


@pytest.mark.parametrize("options", ["O2", "stock"])
def test_exercise_cannot_be_included_as_bytes(sandboxed_clang: Compiler, options: str) -> None:
    """`.incbin` finds no file of an exercise, in C and in assembler; of twenty errors each compiler ends."""
    files = [path for path in EXERCISES if path.name in ("good.c", "exercise.toml")]
    files = files[:9] + files[-9:]
    lines = [f'.incbin "{path}"' for path in files]
    text = "".join(f"__asm__({json.dumps(line)});\n" for line in lines) + MAIN
    text = "\n".join(lines) if options == "stock" else text
    reply = messages(run_sandboxed([sandboxed_clang.name, f"{choice_of(options)}"], text))
    assert len([each for each in reply if "Could not find incbin file" in each]) >= len({path.name for path in files})
    assert len(reply) <= len(files) and not any("title" in each or str(OURS) in each for each in reply)


def test_compiler_option_cannot_reach_exercise(inside: Inside) -> None:
    """As `-x` and `-include`, which no source can set, and which would find nothing either."""
    paths = [
        OURS / "doubles" / "exercise.toml",
        f"{PLACE}/vecmon_lab/exercises/given/doubles/exercise.toml",
        "/proc/self/fd/0",
    ]
    assert inside(UNUSUAL, paths) == []


@pytest.mark.parametrize("name", ["doubles", "prefix_sums"])
def test_reference_answer_is_not_reachable(
    lab: Lab, tmp_path: pathlib.Path, monkeypatch: pytest.MonkeyPatch, sandboxed_clang: Compiler, name: str
) -> None:
    """A source that includes the good answer from where the sandbox had the lab, or from where the lab is, is a mistake."""
    monkeypatch.setattr("os.geteuid", lambda: 1000)
    for folder in (f"{PLACE}/vecmon_lab/exercises/given/{name}", OURS / name):
        (tmp_path / "answer.c").write_text(f'#include "{folder}/good.c"\n')
        status, output, _ = lab("grade", name, tmp_path / "answer.c")
        assert status == 1 and b"answer.c:1:10: 'good.c' file not found" in output


def imported(path: pathlib.Path) -> Iterator[pathlib.Path]:
    """The modules of the lab that a module imports when it is imported, and the packages that they are in."""
    for node in ast.parse(path.read_text("utf-8")).body:
        if not isinstance(node, ast.ImportFrom) or not node.level:
            continue
        folder = path.parents[node.level - 1].joinpath(*(node.module or "").split("."))
        names = [folder.with_suffix(".py"), *(folder / f"{name.name}.py" for name in node.names)]
        packages = (
            each / "__init__.py" for each in [folder, *folder.parents] if each.is_relative_to(LAB / "vecmon_lab")
        )
        yield from (each for each in [*names, *packages] if each.is_file())


def test_sandbox_has_the_modules_that_it_imports() -> None:
    found, due = set[pathlib.Path](), [LAB / "vecmon_lab" / "compilers" / "sandbox_main.py"]
    while due:
        path = due.pop()
        if path not in found:
            found.add(path)
            due += imported(path)
    assert {path.relative_to(LAB).as_posix() for path in found} == {name for name in MODULES if name.endswith(".py")}
