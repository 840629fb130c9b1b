"""tools/checks/check_left_behind, which ends tools/test; and what ends the processes of a browser."""

import os
import pathlib
import subprocess
import sys
from collections.abc import Iterator

import pytest

from support.places import TOP
from support.processes import alive, descendants, end_all

WITHOUT_WAIT = """\
import pathlib, sys
sys.path.insert(0, sys.argv[1])
from tools.checks import check_left_behind
check_left_behind.SECONDS = 0
sys.exit(check_left_behind.main(sys.argv[2], pathlib.Path(sys.argv[3])))
"""


@pytest.fixture
def folder(tmp_path: pathlib.Path) -> pathlib.Path:
    """A run's folder for temporary files, in which pytest has one of its own."""
    (tmp_path / "temporary" / "pytest-of-root").mkdir(parents=True)
    return tmp_path / "temporary"


def left(mark: str, folder: pathlib.Path) -> tuple[int, str]:
    """Return the tool's status and output, without a wait."""
    command = [sys.executable, "-c", WITHOUT_WAIT, str(TOP), mark, str(folder)]
    completed = subprocess.run(command, capture_output=True, text=True)
    assert completed.stderr == ""
    return completed.returncode, completed.stdout


@pytest.fixture
def sleeper() -> Iterator[subprocess.Popen[bytes]]:
    """A process of the run `one`, in a session of its own."""
    variables = {**os.environ, "VECMON_TEST_RUN": "one"}
    with subprocess.Popen(["sleep", "600"], env=variables, start_new_session=True) as process:
        yield process
        process.kill()


def test_process_of_run_is_reported(sleeper: subprocess.Popen[bytes], folder: pathlib.Path) -> None:
    assert left("one", folder) == (1, f"tools/checks/check_left_behind: left: process {sleeper.pid}: sleep 600\n")
    assert left("two", folder) == (0, "") and left("on", folder) == (0, "")
    sleeper.kill()
    sleeper.wait()
    assert left("one", folder) == (0, "")


def test_process_in_folder_is_reported(folder: pathlib.Path) -> None:
    with subprocess.Popen(["sleep", "600"], cwd=folder / "pytest-of-root") as process:
        shown = left("none", folder)
        process.kill()
    assert shown == (1, f"tools/checks/check_left_behind: left: process {process.pid}: sleep 600\n")


def test_left_folder_is_reported(folder: pathlib.Path) -> None:
    (folder / "scoped_dir1").mkdir()
    assert left("none", folder) == (1, f"tools/checks/check_left_behind: left: folder or file {folder}/scoped_dir1\n")


def test_process_tree_is_ended() -> None:
    """Of a shell with a child in its own group and one in another, as if only a browser's command is killed."""
    code = "sleep 600 & setsid sleep 601 & echo started; wait"
    with subprocess.Popen(["sh", "-c", code], stdout=subprocess.PIPE) as shell:
        assert shell.stdout and shell.stdout.readline() == b"started\n"
        found: list[object] = []
        while len(found) < 2:
            processes = descendants(shell.pid)
            found = [*processes]
        shell.kill()
    assert len(processes) == 2 and alive(processes) == processes
    assert end_all(processes, 0) == processes and alive(processes) == []
    assert end_all(processes) == []
