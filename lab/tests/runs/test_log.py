"""`vecmon-lab run --log`: the recorder's log of an image, compared with lines that were worked out by hand."""

import os
import pathlib

import pytest

from support.commands import Lab
from support.places import STOCK, SUM, TOP
from tests.recordings.test_counts import MASKED_VECTORS, SCALAR_LOOP
from vecmon_lab.harness.elf import Segment, elf

BY_HAND = TOP / "tests" / "recordings" / "data"


def image_of(path: pathlib.Path, arguments: tuple[int, ...], data: int) -> pathlib.Path:
    """Writes an image of these words at 1000, and of a page of zeros at another address."""
    code = b"".join(word.to_bytes(4, "little") for word in arguments)
    path.write_bytes(elf(0x1000, [Segment(0x1000, code, len(code), 5), Segment(data, b"", 4096, 6)], {}))
    return path


def test_log_lines_equal_hand_worked_lines(lab: Lab, tmp_path: pathlib.Path) -> None:
    log, image = tmp_path / "log", image_of(tmp_path / "image", SCALAR_LOOP, 0x2000)
    assert lab("run", "--log", log, "--ticks", 100, image)[0] == 133
    assert log.read_text() == (BY_HAND / "scalar_loop.log").read_text()


def test_store_log_line_has_address(lab: Lab, tmp_path: pathlib.Path) -> None:
    """Which is 0 here, and 2000 where the lines were worked out."""
    log, image = tmp_path / "log", image_of(tmp_path / "image", MASKED_VECTORS, 0)
    assert lab("run", "--log", log, "--to", 100, image) == (5, b"", "")
    by_hand = (BY_HAND / "masked_vectors.log").read_text()
    assert log.read_text() == by_hand.replace("mem 0x0000000000002", "mem 0x0000000000000")


def test_trace_and_log_windows_agree(lab: Lab, tmp_path: pathlib.Path) -> None:
    log, trace, image = tmp_path / "log", tmp_path / "trace", image_of(tmp_path / "image", SCALAR_LOOP, 0x2000)
    assert lab("run", "--log", log, "--trace", trace, "--from", 5, "--to", 7, image)[0] == 133
    *lines, end = (BY_HAND / "scalar_loop.log").read_text().splitlines()
    assert log.read_text().splitlines() == [*lines[4:7], end]
    assert [line.split()[0] for line in trace.read_text().splitlines()] == ["100c", "1004", "1014"]


def test_log_to_pipe_needs_no_end(lab: Lab, tmp_path: pathlib.Path) -> None:
    image, (end, other) = image_of(tmp_path / "image", SCALAR_LOOP, 0x2000), os.pipe()
    assert lab("run", "--log", f"/dev/fd/{other}", image)[0] == 133
    os.close(other)
    with open(end, encoding="ascii") as file:
        assert file.read() == (BY_HAND / "scalar_loop.log").read_text()


def test_log_is_truncated_when_recording_starts(lab: Lab, tmp_path: pathlib.Path) -> None:
    log, image = tmp_path / "log", image_of(tmp_path / "image", SCALAR_LOOP, 0x2000)
    log.write_text("before\n" * 1000)
    assert lab("run", "--log", log, "--to", 100, STOCK / "short")[0] == 2 and log.stat().st_size == 7000
    assert lab("run", "--log", log, "--to", 100, image)[0] == 133
    assert log.read_text() == (BY_HAND / "scalar_loop.log").read_text()


@pytest.mark.parametrize(
    "arguments, expected",
    [
        (["--log", "log"], "a log needs --ticks or --to, so that it has an end, unless FILE begins with /dev/"),
        (
            ["--log", "log", "--from", "2"],
            "a log needs --ticks or --to, so that it has an end, unless FILE begins with /dev/",
        ),
        (["--log", "log", "--from", "3", "--to", "2"], "from instruction 3 to 2 there is none"),
        (["--log", "log", "--from", "251", "--to", "300"], "the run has 250 instructions, and none from 251 on"),
        (["--log", "log", "--trace", "./log", "--to", "2"], "log and log are one file: name another one for an output"),
        (["--log", SUM, "--to", "2"], f"{SUM} would be overwritten, and it is read here: name another file"),
        (["--log", STOCK, "--to", "2"], f"{STOCK}: Is a directory"),
        (["--log", "/dev/full"], "cannot write log"),
    ],
)
def test_bad_options_are_refused(
    lab: Lab, monkeypatch: pytest.MonkeyPatch, tmp_path: pathlib.Path, arguments: list[str], expected: str
) -> None:
    monkeypatch.chdir(tmp_path)
    status, _, errors = lab("run", *arguments, SUM)
    assert (status, errors) == (2, f"vecmon-lab: {expected}\n")
