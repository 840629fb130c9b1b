"""Outputs that are another output or an input: the recorder refuses them before it opens a file."""

import os
import pathlib
from collections.abc import Callable

import pytest

from tests.program import TOP
from tests.recordings.recorder import record

IMAGE = (TOP / "tests/command_lines/data/images/sum").read_bytes()
INPUTS = {"image": IMAGE, "bytes": bytes(8), "registers": b"x1 1\n"}
RUN = ["--memory", "100000:rw:bytes", "--registers", "registers", "image"]
OUTPUTS = {"--counts": "counts", "--changes": "changes", "--log": "log"}
PAIRS = [("--counts", "--changes"), ("--counts", "--log"), ("--changes", "--log")]
SAME = "{} and {} name the same file; use a different path for each"
OVERWRITES = "{} would overwrite the input {}; use another path"


def run(folder: pathlib.Path, **paths: str) -> tuple[int, str]:
    """The status and the message of a run with all three outputs, some of them at other paths than their own."""
    for name, data in INPUTS.items():
        if not (folder / name).exists():
            (folder / name).write_bytes(data)
    outputs = {**OUTPUTS, **{f"--{name}": path for name, path in paths.items()}}
    words = [word for option, path in outputs.items() for word in (option, path)]
    completed = record(folder, "--watch", "100000:8", "--to", 5, *words, *RUN, counts=False)
    assert completed.status == 0 or completed.stdout == b""
    return completed.status, completed.stderr.removeprefix("vecmon-record: ").removesuffix("\n")


def inputs(folder: pathlib.Path) -> dict[str, bytes]:
    """The bytes of the inputs after a run."""
    return {name: (folder / name).read_bytes() for name in INPUTS}


def test_distinct_outputs_and_inputs_are_accepted(tmp_path: pathlib.Path) -> None:
    assert run(tmp_path) == (0, "") and inputs(tmp_path) == INPUTS
    assert all((tmp_path / path).stat().st_size for path in OUTPUTS.values())


@pytest.mark.parametrize("first, second", PAIRS)
@pytest.mark.parametrize("path", ["file", "/dev/null", "/dev/stdout"])
def test_two_outputs_at_one_path_are_refused(tmp_path: pathlib.Path, first: str, second: str, path: str) -> None:
    """The file isn't made."""
    assert run(tmp_path, **{first[2:]: path, second[2:]: path}) == (2, SAME.format(first, second))
    assert {file.name for file in tmp_path.iterdir()} == {*INPUTS}


@pytest.mark.parametrize("link", [os.link, os.symlink], ids=["hard link", "symbolic link"])
@pytest.mark.parametrize("first, second", PAIRS)
def test_two_outputs_in_one_file_are_refused(
    tmp_path: pathlib.Path, first: str, second: str, link: Callable[[pathlib.Path, pathlib.Path], None]
) -> None:
    """The file keeps its bytes."""
    (tmp_path / "file").write_text("old")
    link(tmp_path / "file", tmp_path / "other")
    assert run(tmp_path, **{first[2:]: "file", second[2:]: "other"}) == (2, SAME.format(first, second))
    assert run(tmp_path, **{first[2:]: "./file", second[2:]: f"{tmp_path}/file"}) == (2, SAME.format(first, second))
    assert (tmp_path / "file").read_text() == "old"


@pytest.mark.parametrize("first, second", PAIRS)
def test_two_outputs_in_one_new_file_are_refused(tmp_path: pathlib.Path, first: str, second: str) -> None:
    """By another path, through a folder, and by links to the file that doesn't exist; no file is made."""
    (tmp_path / "folder").mkdir()
    links = {"up": "folder/..", "link": "new", "chain": str(tmp_path / "link"), "folder/far": "../link"}
    for link, target in links.items():
        (tmp_path / link).symlink_to(target)
    for path in ("./new", f"{tmp_path}/new", "folder/../new", "up/new", "link", "chain", "folder/far"):
        assert run(tmp_path, **{first[2:]: "new", second[2:]: path}) == (2, SAME.format(first, second)), path
        assert run(tmp_path, **{first[2:]: path, second[2:]: "link"}) == (2, SAME.format(first, second)), path
    assert {str(file.relative_to(tmp_path)) for file in tmp_path.rglob("*")} == {"folder", *links, *INPUTS}


def test_new_files_of_one_name_in_two_folders_are_accepted(tmp_path: pathlib.Path) -> None:
    """So is a link to a missing file next to another missing file."""
    (tmp_path / "folder").mkdir()
    (tmp_path / "link").symlink_to("folder/new")
    assert run(tmp_path, counts="new", changes="link", log="folder/newer") == (0, "")
    assert all((tmp_path / name).stat().st_size for name in ("new", "folder/new", "folder/newer"))


@pytest.mark.parametrize("option", OUTPUTS)
@pytest.mark.parametrize("name", INPUTS)
def test_output_equal_to_input_is_refused(tmp_path: pathlib.Path, option: str, name: str) -> None:
    """By the same path, by another one and by a link; the input keeps its bytes."""
    assert run(tmp_path, **{option[2:]: name}) == (2, OVERWRITES.format(option, name))
    assert run(tmp_path, **{option[2:]: f"./{name}"}) == (2, OVERWRITES.format(option, name))
    os.link(tmp_path / name, tmp_path / "link")
    assert run(tmp_path, **{option[2:]: "link"}) == (2, OVERWRITES.format(option, name))
    assert inputs(tmp_path) == INPUTS and not (tmp_path / OUTPUTS[option]).exists()


def test_every_memory_file_is_compared(tmp_path: pathlib.Path) -> None:
    for name in ("one", "two", "three"):
        (tmp_path / name).write_bytes(bytes(4))
        arguments = ["--memory", "0:r:one", "--memory", "1000:r:two", "--memory", "2000:r:three", "--counts", name]
        completed = record(tmp_path, *arguments, counts=False)
        assert (completed.status, completed.stderr) == (2, f"vecmon-record: {OVERWRITES.format('--counts', name)}\n")


def test_inputs_may_be_one_file(tmp_path: pathlib.Path) -> None:
    (tmp_path / "zeros").write_bytes(bytes(4))
    completed = record(tmp_path, "--memory", "0:x:zeros", "--memory", "1000:r:zeros")
    assert (completed.status, completed.stderr) == (0, "")
    assert completed.counts == "fault cause=2 pc=0000000000000000 value=0000000000000000 0 0\n"


def test_usage_error_is_reported_before_path_conflict(tmp_path: pathlib.Path) -> None:
    completed = record(tmp_path, "--counts", "x", "--log", "x", "--ticks", "0", counts=False)
    assert (completed.status, completed.stderr.partition(" needs")[0]) == (2, "vecmon-record: --ticks")
