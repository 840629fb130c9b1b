"""Outcomes where a tool fails: an answer isn't failed for it, has no mark, and is tried once more."""

import os
import pathlib
import shutil
import subprocess
import sys
import tempfile
from collections.abc import Iterator

import pytest

from support.commands import Lab
from vecmon_lab import LabError
from vecmon_lab.compilers.compiler import Compiler
from vecmon_lab.compilers.container import check_container
from vecmon_lab.compilers.failures import ToolError
from vecmon_lab.compilers.sandbox import run_sandboxed
from vecmon_lab.exercises.answer import settled
from vecmon_lab.exercises.check import check_or_failure
from vecmon_lab.exercises.exercise import OURS, Exercise, read_exercise
from vecmon_lab.exercises.grade import graded, graded_or_failure

GOOD = OURS / "doubles" / "good.s"
AS_IN_A_CONTAINER = ["setpriv", "--bounding-set=-sys_admin", "--inh-caps=-sys_admin"]  # of Docker's default profile


@pytest.fixture(scope="module")
def doubles(program: pathlib.Path) -> Exercise:
    """The exercise `doubles`, with expected results."""
    return settled(program, read_exercise(OURS / "doubles"))


def failing(folder: pathlib.Path, program: pathlib.Path, runs: int) -> pathlib.Path:
    """A program that ends at once the first times that it is started, and then is `vecmon`."""
    stub = folder / "vecmon"
    left = " ".join(str(number) for number in range(runs))
    stub.write_text(
        "#!/bin/sh\n"
        f'[ "$1" = --help ] && exec {program} --help\n'
        f'for n in {left}; do mkdir {folder}/$n 2> /dev/null && exit 7; done\nexec {program} "$@"\n'
    )
    stub.chmod(0o755)
    return stub


def test_case_repeats_after_machine_failure(tmp_path: pathlib.Path, program: pathlib.Path, doubles: Exercise) -> None:
    """The answer is graded again, and passes."""
    stub = failing(tmp_path, program, 1)
    assert graded_or_failure(stub, doubles, run_sandboxed, GOOD, False) == ([""] * 5, None)


def test_second_machine_failure_is_reported(tmp_path: pathlib.Path, program: pathlib.Path, doubles: Exercise) -> None:
    """The answer has no outcome: not that of one that fails. A student reads that nothing was counted."""
    with pytest.raises(ToolError, match="status 7"):
        graded(failing(tmp_path, program, 1), doubles, run_sandboxed, GOOD)
    folder = tmp_path / "again"
    folder.mkdir()
    failure = graded_or_failure(failing(folder, program, 2), doubles, run_sandboxed, GOOD, False)
    assert isinstance(failure, ToolError) and "status 7" in str(failure)
    folder = tmp_path / "class"
    folder.mkdir()
    reply = check_or_failure(failing(folder, program, 2), doubles, GOOD.read_text(), None, None)
    assert "status 7" in reply["failure"] and "cases" not in reply
    reply = check_or_failure(tmp_path / "nowhere", doubles, GOOD.read_text(), None, None)
    assert reply["failure"] == "nowhere can't be started: No such file or directory", "no folder of the server's"
    assert reply["unchecked"] == "The answer couldn't be checked, which isn't your fault. Nothing was counted."


def test_hidden_cases_are_not_shown(lab: Lab, tmp_path: pathlib.Path, program: pathlib.Path, doubles: Exercise) -> None:
    """An answer that saturates fails only the hidden case with large numbers; neither a class nor a report shows these."""
    text = GOOD.read_text().replace("vadd.vv", "vsadd.vv")
    (tmp_path / "answer.s").write_text(text)
    reply = check_or_failure(program, doubles, text, None, None)
    passed = [True, True, True, False, True]
    cases = zip(doubles.cases, passed, strict=True)
    assert reply == {"cases": [{"name": case.name, "passed": passes} for case, passes in cases]}
    reports = [tmp_path / "report.xml", tmp_path / "results.json"]
    status, table, _ = lab("grade", "doubles", tmp_path / "answer.s", "--junit", reports[0], "--gradescope", reports[1])
    shown = table.decode() + "".join(report.read_text() for report in reports)
    assert status == 1 and "4 of 5" in shown and "large numbers" in shown
    [large] = [case for case in doubles.cases if case.name == "large numbers"]
    numbers = {
        f"{number}" for place in (*large.memory, *large.expected.memory) for number in place.numbers if abs(number) > 9
    }
    assert "2147483647" in numbers and not [number for number in numbers if number in shown]


def test_ungraded_answer_is_reported(
    lab: Lab, tmp_path: pathlib.Path, monkeypatch: pytest.MonkeyPatch, sandboxed_clang: Compiler
) -> None:
    """Others have their rows and their reports; it has none, and the status is 2."""
    monkeypatch.setattr(os, "geteuid", lambda: 1000)
    monkeypatch.setattr(
        "vecmon_lab.compilers.sandbox.MODULE", ("-c", "import time; time.sleep(0.1); raise SystemExit(9)")
    )
    shutil.copy(GOOD, tmp_path / "right.s")
    (tmp_path / "busy.c").write_text("void answer(void) { }\n")
    status, output, errors = lab("grade", "doubles", tmp_path / "right.s", tmp_path / "busy.c", "--csv")
    assert status == 2 and [row.split(",")[:3] for row in output.decode().splitlines()[1:]] == [
        [f"{tmp_path}/right.s", "5", "5"]
    ]
    reason = "the compiler's process ended with status 9: it printed no message"
    assert errors == f"vecmon-lab: {tmp_path}/busy.c isn't graded, for a reason that isn't the answer's: {reason}\n"
    status, output, _ = lab("grade", "doubles", tmp_path / "busy.c", "--gradescope", tmp_path / "results.json")
    assert (status, output) == (2, b"") and not (tmp_path / "results.json").exists()


@pytest.fixture
def shared() -> Iterator[pathlib.Path]:
    """A folder that all users may enter, with the exercise `doubles`, whose cases they may read."""
    folder = pathlib.Path(tempfile.mkdtemp())
    folder.chmod(0o755)
    shutil.copytree(OURS / "doubles", folder / "doubles")
    yield folder
    shutil.rmtree(folder)


def grade_in_container(folder: pathlib.Path, answer: str, *arguments: str) -> "subprocess.CompletedProcess[str]":
    """The lab's `grade` of an answer in C, by root without the right to make namespaces."""
    (folder / "answer.c").write_text(answer)
    (folder / "answer.c").chmod(0o644)
    command = [*AS_IN_A_CONTAINER, sys.executable, "-m", "vecmon_lab", "grade", "doubles", "answer.c", *arguments]
    return subprocess.run(command, capture_output=True, text=True, cwd=folder)


def test_container_root_uses_sandbox_user(shared: pathlib.Path, clang: Compiler) -> None:
    """Its message is about --no-sandbox, which then refuses an exercise that the compiler could read."""
    if os.geteuid():
        with pytest.raises(LabError, match="is for root of a container"):
            check_container(shared)
        return
    good = (OURS / "doubles" / "good.c").read_text()
    report = ["--gradescope", "results.json"]
    done = grade_in_container(shared, good, *report)
    assert (done.returncode, done.stdout) == (2, "") and "`grade --no-sandbox` compiles it" in done.stderr
    done = grade_in_container(shared, good, "--no-sandbox", *report)
    assert (done.returncode, done.stdout) == (2, "") and f"chmod -R go= {shared}/doubles" in done.stderr
    assert not (shared / "results.json").exists()
    subprocess.run(["chmod", "-R", "go=", shared / "doubles"], check=True)
    with pytest.raises(LabError, match=f"could include {shared}/answer.c: "):  # as a file outside of the folder
        check_container(shared / "doubles", shared / "answer.c")
    done = grade_in_container(shared, good, "--no-sandbox", *report)
    assert (done.returncode, done.stderr) == (0, "") and (shared / "results.json").read_text().count('"passed"') == 5
    done = grade_in_container(shared, f'#include "{shared}/doubles/good.c"\n', "--no-sandbox", *report)
    assert done.returncode == 1 and "good.c" in done.stdout and "Permission denied" in done.stdout
    assert (shared / "results.json").read_text().count('"failed"') == 5
    done = grade_in_container(shared, good, "other.c", "--no-sandbox")
    assert done.stderr == "vecmon-lab: --no-sandbox is for one answer, and here are several\n"
