"""What tools/site, tools/building/programs and `tools/test crates` build and run. Stand-ins record their arguments, and take no time."""

import os
import pathlib
import re
import shlex
import shutil
import subprocess
import sys

import pytest

from support.places import TOP

PROGRAMS = "building/programs"
RECORD = '#!/bin/sh\necho "$(basename "$0") $*" >> RECORD\n'
CRATES = "low:\nmiddle: low\nvecmon: middle\nrecording: low\nvecmon_record: recording\ntest_low: low\nother:\n"


class Tools:
    """A folder with some of the repository's tools, and stand-ins for others."""

    def __init__(self, top: pathlib.Path, *names: str) -> None:
        self.top, self.record = top, top / "record"
        for name in names:
            (top / "tools" / name).parent.mkdir(parents=True, exist_ok=True)
            shutil.copy(TOP / "tools" / name, top / "tools" / name)

    def copy_modules(self) -> None:
        """Copies the Python modules that build."""
        for path in [TOP / "tools/__init__.py", *(TOP / "tools/building").glob("*.py")]:
            copy = self.top / path.relative_to(TOP)
            copy.parent.mkdir(parents=True, exist_ok=True)
            shutil.copy(path, copy)

    def stand_in(self, *names: str, then: str = "") -> None:
        """Writes commands that record their arguments, and then run a line of shell."""
        for name in names:
            file = self.top / name
            file.parent.mkdir(parents=True, exist_ok=True)
            file.write_text(RECORD.replace("RECORD", shlex.quote(str(self.record))) + then)
            file.chmod(0o755)

    def run(self, *command: str) -> subprocess.CompletedProcess[str]:
        """Runs one of the tools, with the stand-ins of the folder `path` first on PATH."""
        path = f"{self.top}/path:{os.environ['PATH']}"
        return subprocess.run(
            command, cwd=self.top, env={**os.environ, "PATH": path}, capture_output=True, text=True, check=False
        )

    def calls(self) -> list[str]:
        """The names and arguments of the stand-ins that ran."""
        return self.record.read_text().splitlines() if self.record.exists() else []


def test_site_builds_one_module(tmp_path: pathlib.Path) -> None:
    """Of vecmon, proved or else without proofs; no native program, and nothing of the recorder."""
    tools = Tools(tmp_path, "site")
    tools.stand_in("tools/building/debian_packages")
    tools.stand_in(
        "tools/building/programs", then='echo "tools/building/programs: no module" >&2; [ "$3" = --unproved ]'
    )
    ran = tools.run("tools/site", "out")
    assert ran.returncode == 2 and "has no vecmon.wasm and PROVENANCE" in ran.stderr
    packages, *calls = tools.calls()
    assert packages.startswith("debian_packages ")
    assert [re.sub(r"/\S+/", "", call) for call in calls] == [
        "programs --target wasm32 --program vecmon wasm",
        "programs --target wasm32 --unproved --program vecmon wasm",
    ]


@pytest.mark.parametrize(
    "options, crates",
    [([], ["vecmon"]), (["--program", "vecmon"], ["vecmon"]), (["--program", "vecmon-record"], ["vecmon_record"])],
)
def test_programs_makes_modules_and_no_native_program(
    tmp_path: pathlib.Path, options: list[str], crates: list[str]
) -> None:
    """The first module that can't be read ends it; without --program the recorder's would be the second."""
    tools = Tools(tmp_path, PROGRAMS)
    tools.copy_modules()
    tools.stand_in("path/wasm-ld-19", "path/wasm-opt")
    (tmp_path / "tools/building/unproved_build").write_text(
        "import pathlib, sys\nkind, crate, module = sys.argv[1:]\npathlib.Path(module).write_text('no module')\n"
        f"with open({str(tools.record)!r}, 'a') as record:\n    print(kind, crate, file=record)\n"
    )
    ran = tools.run("python3", "tools/building/programs", "--target", "wasm32", "--unproved", *options, "out")
    assert ran.returncode == 2 and ran.stderr.endswith(".ll isn't a module of a Rattle kit\n")
    both = [] if options else ["--module vecmon_record"]
    assert tools.calls() == [*(f"--module {crate}" for crate in crates), *both]


@pytest.mark.parametrize(
    "options, choices",
    [
        (["--target", "wasm32", "--program", "vecmon_record"], "'vecmon', 'vecmon-record'"),
        (["--target", "arm64"], "'aarch64', 'riscv64', 'windows', 'wasm32'"),
    ],
)
def test_programs_refuses_unknown_names(tmp_path: pathlib.Path, options: list[str], choices: str) -> None:
    tools = Tools(tmp_path, PROGRAMS)
    tools.copy_modules()
    ran = tools.run("python3", "tools/building/programs", *options, "out")
    assert ran.returncode == 2 and choices in ran.stderr


def test_programs_refuses_a_missing_linker(tmp_path: pathlib.Path) -> None:
    tools = Tools(tmp_path, PROGRAMS)
    tools.copy_modules()
    tools.stand_in("tools/building/unproved_build")
    ran = tools.run(
        "env", f"PATH={tmp_path}", sys.executable, "tools/building/programs", "--target", "windows", "--unproved", "out"
    )
    refusal = "tools/building/programs: x86_64-w64-mingw32-gcc not found: run tools/building/debian_packages windows\n"
    assert (ran.returncode, ran.stdout, ran.stderr) == (2, "", refusal) and tools.calls() == []


@pytest.fixture
def tested(tmp_path: pathlib.Path) -> Tools:
    """A folder in which tools/test runs, with stand-ins for all that it calls."""
    tools = Tools(tmp_path, "test", "building/crates_above")
    tools.copy_modules()
    tools.stand_in("tools/building/keep_modules", then="echo /a/kit\n")
    tools.stand_in("tools/checks/gate_part", then=f'echo "${{PATH%%:*}}" >> {shlex.quote(str(tools.record))}\n')
    tools.stand_in(".venv/bin/python")
    silent = ("lab/setup", "tools/building/unproved_build", "tools/checks/check_kit", "tools/checks/check_left_behind")
    for name in silent:
        (tmp_path / name).parent.mkdir(exist_ok=True)
        (tmp_path / name).write_text("#!/bin/sh\n")
        (tmp_path / name).chmod(0o755)
    (tmp_path / "crates.txt").write_text(CRATES)
    return tools


@pytest.mark.parametrize(
    "names, proved, outside",
    [
        (["middle"], "middle vecmon", "tests"),
        (["recording"], "recording vecmon_record", "tests/recordings"),
        (["low"], "low middle recording test_low vecmon vecmon_record", "tests"),
        (["test_low", "other"], "test_low other", ""),
    ],
)
def test_crates_are_tested_with_those_above(tested: Tools, names: list[str], proved: str, outside: str) -> None:
    """They are listed first, then proved, and then the tests of the programs that are built from them run."""
    ran = tested.run("tools/test", "crates", *names)
    assert ran.returncode == 0, ran.stderr
    first, second = (line for line in ran.stdout.splitlines() if line.startswith(("crates, ", "tests, ")))
    crates = first.partition(": ")[2]
    assert sorted(crates.split()) == sorted(proved.split())
    assert second.partition(": ")[2] == (f"{outside}, and of the lab a test by command" if outside else "none")
    kit, proofs, path, *python = tested.calls()
    assert (kit, proofs, path) == ("keep_modules --kit", f"gate_part {crates}", "/a/kit/bin")
    assert [call.split()[-1] for call in python] == ([outside, "lab"] if outside else [])
    assert ran.stdout.endswith(f"passed: the proofs, edits and tests of {' '.join(names)}\n")


@pytest.mark.parametrize(
    "words, refusal",
    [
        (["crates", "low", "lower"], "tools/building/crates_above: crates.txt has no crate lower"),
        (["crates", "--all"], "tools/building/crates_above: crates.txt has no crate --all"),
        (["crates"], "tools/test: usage: tools/test [quick | crates NAME...]"),
        (["slow"], "tools/test: usage: tools/test [quick | crates NAME...]"),
        (["quick", "low"], "tools/test: usage: tools/test [quick | crates NAME...]"),
    ],
)
def test_wrong_arguments_of_test(tested: Tools, words: list[str], refusal: str) -> None:
    ran = tested.run("tools/test", *words)
    assert (ran.returncode, ran.stdout, ran.stderr) == (2, "", f"{refusal}\n") and tested.calls() == []


def test_help_of_test_explains_its_stages(tested: Tools) -> None:
    ran = tested.run("tools/test", "--help")
    assert (ran.returncode, ran.stderr) == (0, "") and tested.calls() == []
    assert ran.stdout.startswith("All tests, with their set-up, in three stages") and "`quick` does" in ran.stdout
    assert ran.stdout.endswith("A wrong argument: one line, and status 2.\n")
