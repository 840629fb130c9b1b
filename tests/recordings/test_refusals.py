"""The recorder's refusals, with their statuses and messages; and outputs that it can't write."""

import os
import pathlib
import subprocess
from collections.abc import Mapping

import pytest

from tests.program import TOP
from tests.recordings.recorder import built_recorder, record

GOOD = TOP / "tests/command_lines/data/images/sum"
OUTPUTS = ("counts", "changes", "log")
NO_LINE = "line {}: no register and a value that it can have"
RUN = ["--watch", "100000:8", "--to", 5]


def all_outputs(paths: Mapping[str, str]) -> list[str]:
    """The arguments for outputs at these paths, by their options."""
    return [argument for name, path in paths.items() for argument in (f"--{name}", path)]


def make_bytes(folder: pathlib.Path) -> str:
    """Write a file of eight zeros. Returns the argument that places it at the watched address."""
    (folder / "bytes").write_bytes(bytes(8))
    return "--memory=100000:rw:bytes"


def refused(folder: pathlib.Path, *arguments: object) -> tuple[int, str]:
    """The status of a run that does nothing, and what it says without the recorder's name."""
    completed = record(folder, *arguments)
    assert completed.stdout == b"" and not completed.counts
    return completed.status, completed.stderr.removeprefix("vecmon-record: ").rstrip("\n")


@pytest.mark.parametrize(
    "arguments, message",
    [
        (["--policy", "none"], "--policy needs keep or ones"),
        (["--ticks", "0"], "--ticks needs a number from 1 to 9223372036854775808"),
        (["--ticks", "9223372036854775809"], "--ticks needs a number from 1 to 9223372036854775808"),
        (["--ticks", "1x"], "--ticks needs a number from 1 to 9223372036854775808"),
        (["--memory", "1000"], "--memory needs ADDR:PERMS:FILE, not 1000"),
        (["--memory", "1000:rw"], "--memory needs ADDR:PERMS:FILE, not 1000:rw"),
        (["--memory", "1000:wr:file"], "--memory needs ADDR:PERMS:FILE, not 1000:wr:file"),
        (["--memory", "0x1000:rw:file"], "--memory needs ADDR:PERMS:FILE, not 0x1000:rw:file"),
        (["--memory", "0:r:file", "--memory", ":r:file"], "--memory needs ADDR:PERMS:FILE, not :r:file"),
    ],
)
def test_bad_arguments_are_refused(tmp_path: pathlib.Path, arguments: list[str], message: str) -> None:
    assert refused(tmp_path, *arguments, "there is no such image") == (2, message)


@pytest.mark.parametrize(
    "arguments", [["--trace", "file"], ["--ticks"], ["one", "two"], ["--ticks", "1", "--ticks", "2"]]
)
def test_usage_errors_of_clap_are_refused(tmp_path: pathlib.Path, arguments: list[str]) -> None:
    status, message = refused(tmp_path, *arguments)
    assert status == 2 and message.startswith("error: ") and message.endswith("For more information, try '--help'.")


def test_help_shows_usage(tmp_path: pathlib.Path) -> None:
    completed = record(tmp_path, "--help")
    assert completed.status == 0 and not completed.stderr and not completed.counts
    for word in ("--policy", "--ticks", "--memory", "--registers", "--counts", "IMAGE"):
        assert word in completed.stdout.decode()


@pytest.mark.parametrize(
    "data, message",
    [
        pytest.param(b"", "image: bad image: Short", id="empty"),
        pytest.param(bytes(64), "image: bad image: Magic", id="zeros"),
        pytest.param(GOOD.read_bytes()[:100], "image: bad image: HeaderTable", id="cut"),
        pytest.param(bytes(4_194_305), "image: too many bytes", id="long"),
    ],
)
def test_bad_image_is_refused(tmp_path: pathlib.Path, data: bytes, message: str) -> None:
    (tmp_path / "image").write_bytes(data)
    assert refused(tmp_path, "image") == (4, message)


def test_missing_files_are_refused(tmp_path: pathlib.Path) -> None:
    assert refused(tmp_path, "image") == (4, "cannot read image")
    assert refused(tmp_path, "--memory", "0:r:file", GOOD) == (4, "cannot read file")
    assert refused(tmp_path, "--registers", ".", GOOD) == (4, "cannot read .")


@pytest.mark.parametrize(
    "place, size, message",
    [
        ("fffffffff000", 4097, "bytes end past address 2^48"),
        ("ffffffffffffffff", 1, "bytes end past address 2^48"),
        ("1000", 256 * 4096 + 1, "too many bytes"),
        ("1001", 256 * 4096, "bytes take too many pages"),
    ],
)
def test_bad_memory_is_refused(tmp_path: pathlib.Path, place: str, size: int, message: str) -> None:
    (tmp_path / "file").write_bytes(bytes(size))
    assert refused(tmp_path, "--memory", f"{place}:rw:file") == (4, f"file: {message}")


def test_memory_limit_is_enforced(tmp_path: pathlib.Path) -> None:
    """All 256 pages of a user; the last one ends at the highest address."""
    (tmp_path / "file").write_bytes(bytes(255 * 4096))
    (tmp_path / "page").write_bytes(bytes(4096))
    completed = record(tmp_path, "--memory", "0:x:file", "--memory", "fffffffff000:r:page")
    assert completed.counts == "fault cause=2 pc=0000000000000000 value=0000000000000000 0 0\n"


@pytest.mark.parametrize(
    "text, message",
    [
        ("x0 1", NO_LINE.format(1)),
        ("x32 1", NO_LINE.format(1)),
        ("x1 1\nx2\n", NO_LINE.format(2)),
        ("x1 1 2", NO_LINE.format(1)),
        ("x1 g", NO_LINE.format(1)),
        ("x1 10000000000000000", NO_LINE.format(1)),
        ("v1 00", NO_LINE.format(1)),
        ("pc 2", NO_LINE.format(1)),
        ("vstart 100", NO_LINE.format(1)),
        ("vxrm 4", NO_LINE.format(1)),
        ("vxsat 2", NO_LINE.format(1)),
        ("\nvtype 100", NO_LINE.format(2)),
        ("vl 1", "vl is no length of vtype"),
        ("vtype 18\nvl 5", "vl is no length of vtype"),
        ("vtype 8000000000000000\nvl 1", "vl is no length of vtype"),
        pytest.param("x1 1\n" * 14000, "too many bytes", id="long"),
    ],
)
def test_bad_registers_are_refused(tmp_path: pathlib.Path, text: str, message: str) -> None:
    (tmp_path / "file").write_text(text, "ascii")
    assert refused(tmp_path, "--registers", "file") == (4, f"file: {message}")


def test_unwritable_counts_file_is_refused(tmp_path: pathlib.Path) -> None:
    """A folder isn't written, and a device takes nothing; nothing runs without the file."""
    for path, output in (("/", b""), ("/dev/full", record(tmp_path, GOOD).stdout)):
        command = [str(built_recorder()), "--counts", path, str(GOOD)]
        completed = subprocess.run(command, capture_output=True, check=False)
        assert (completed.returncode, completed.stderr.decode()) == (5, f"vecmon-record: cannot write {path}\n")
        assert completed.stdout == output


@pytest.mark.parametrize("unopened", OUTPUTS)
def test_outputs_keep_their_bytes_if_another_cannot_be_opened(tmp_path: pathlib.Path, unopened: str) -> None:
    """Outputs that exist aren't changed, and the program doesn't run."""
    paths = {name: f"no-folder/{name}" if name == unopened else f"{name}.txt" for name in OUTPUTS}
    kept = [tmp_path / path for name, path in paths.items() if name != unopened]
    for file in kept:
        file.write_text("old\n" * 100)
    completed = record(tmp_path, *RUN, *all_outputs(paths), make_bytes(tmp_path), GOOD, counts=False)
    assert (completed.status, completed.stderr) == (5, f"vecmon-record: cannot write {paths[unopened]}\n")
    assert completed.stdout == b"" and all(file.read_text() == "old\n" * 100 for file in kept)


def test_outputs_replace_longer_files(tmp_path: pathlib.Path) -> None:
    """Nothing is left of the old bytes, in files that the outputs link to."""
    paths = {name: f"{name}.txt" for name in OUTPUTS}
    for folder in (tmp_path / "new", tmp_path / "old"):
        folder.mkdir()
        for path in paths.values() if folder.name == "old" else ():
            (folder / f"{path}.file").write_text("old\n" * 100_000)
            (folder / path).symlink_to(f"{path}.file")
        completed = record(folder, *RUN, *all_outputs(paths), make_bytes(folder), GOOD, counts=False)
        assert (completed.status, completed.stderr) == (0, "")
    for path in paths.values():
        new = (tmp_path / "new" / path).read_bytes()
        assert new and (tmp_path / "old" / path).read_bytes() == new


def test_unwritable_output_is_refused(tmp_path: pathlib.Path) -> None:
    with open("/dev/full", "wb") as full:
        command = [str(built_recorder()), "--counts", "counts", str(GOOD)]
        completed = subprocess.run(command, cwd=tmp_path, stdout=full, stderr=subprocess.PIPE, check=False)
    assert (completed.returncode, completed.stderr.decode()) == (5, "vecmon-record: cannot write output\n")


def test_memory_failure_is_reported(tmp_path: pathlib.Path) -> None:
    """With 8 MB of addresses there is no room for the rows."""
    command = f"ulimit -v 8000; exec {built_recorder()} --counts counts {GOOD}"
    completed = subprocess.run(["sh", "-c", command], cwd=tmp_path, capture_output=True, check=False)
    assert (completed.returncode, completed.stderr.decode()) == (6, "vecmon-record: out of memory\n")
    assert not os.path.exists(tmp_path / "counts")
