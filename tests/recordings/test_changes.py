"""Changes of watched places: worked out by hand, and of images compared with the monitor's own steps."""

import pathlib

import pytest

from tests.recordings.recorder import Recorded, record
from tests.recordings.stepping import Place, stepped_changes
from tests.recordings.test_initial_state import WRITE_AND_EXIT, code
from tests.recordings.test_counts import IMAGES, MASKED_VECTORS
from tests.recordings.test_refusals import GOOD

MOST = 1500  # instructions that are stepped of an image
STACK = [Place(0x7FFFEF00, 192), Place(0x7FFFEF80, 64), Place(0x7FFFEFB9, 7), Place(0x7FFFEFFF, 1)]
"""Places below the initial x2; the second and third lie in the first."""


def watched(folder: pathlib.Path, places: list[str], *arguments: object) -> tuple[Recorded, list[str]]:
    """A run with these places, and the lines of its changes."""
    watch = [word for place in places for word in ("--watch", place)]
    completed = record(folder, *watch, "--changes", "changes", *arguments)
    return completed, (folder / "changes").read_text("ascii").splitlines()


def write_inputs(folder: pathlib.Path, arguments: tuple[int, ...], registers: str) -> list[str]:
    """Write a program that starts at 1000, and two pages from 2000 on. Return the recorder's arguments for them."""
    (folder / "code").write_bytes(code(*arguments))
    (folder / "pages").write_bytes(bytes(8192))
    (folder / "registers").write_text(f"pc 1000\n{registers}", "ascii")
    return ["--memory", "1000:rx:code", "--memory", "2000:rw:pages", "--registers", "registers"]


def test_overlapping_places_across_page_are_all_reported(tmp_path: pathlib.Path) -> None:
    """sw x10, 0(x11) twice, the second time without a change; sb x0, 1(x11); and an ebreak."""
    program = write_inputs(tmp_path, (0x00A5A023, 0x00A5A023, 0x000580A3, 0x00100073), "x10 44332211\nx11 2ffe\n")
    result, lines = watched(tmp_path, ["2ffc:8", "2fff:2", "2000:4", "3000:1"], *program)
    assert (result.status, result.stdout, result.stderr) == (0, b"", "")
    first, third = "1 1 0000000000001000", "3 3 0000000000001008"
    assert lines == [
        f"{first} 0000000000002ffc 0000000000000000 0000112233440000",
        f"{first} 0000000000002fff 0000 2233",
        f"{first} 0000000000003000 00 33",
        f"{third} 0000000000002ffc 0000112233440000 0000110033440000",
        f"{third} 0000000000002fff 2233 0033",
        "ebreak pc=000000000000100c 3 3",
    ]
    assert result.counts.splitlines()[-1] == lines[-1]


def test_store_of_masked_sum_changes_watched_places(tmp_path: pathlib.Path) -> None:
    """Elements 0 and 2 of v2 are the sums of v4 and v6, and its others are what they were; all five are stored. x10 is 5 at the exit."""
    words = [number.to_bytes(4, "little").hex() for number in range(1, 9)]
    registers = f"x11 2000\nv2 {'ee' * 32}\nv4 {''.join(words)}\nv6 {''.join(words)}\n"
    result, lines = watched(tmp_path, ["2000:14", "2013:3"], *write_inputs(tmp_path, MASKED_VECTORS, registers))
    assert result.status == 0
    stored = "02000000" + "eeeeeeee" + "06000000" + "eeeeeeee" * 2
    assert lines == [
        f"5 9 0000000000001010 0000000000002000 {'00' * 14} {stored[:28]}",
        "5 9 0000000000001010 0000000000002013 000000 ee0000",
        "exit 5 pc=0000000000001018 7 11",
    ]


@pytest.mark.parametrize(
    "store, address, stored, numbers",
    [
        (0x0205E227, "3ff8", "0000000000000000" + "0101010102020202", "2 4"),  # vse32.v v4, (x11): element 2 faults
        (0x2205E227, "3ff4", "0000000001010101" + "1111111100000000", "2 3"),  # vsseg2e32.v v4, (x11): segment 1 faults
    ],
)
def test_faulting_store_reports_elements_before_fault(
    tmp_path: pathlib.Path, store: int, address: str, stored: str, numbers: str
) -> None:
    """Its changes have a line, by the number after the last instruction that ran and with a tick for each index up to the fault.

    No record has the store itself: the last line, the same in all three, is that of the vsetivli before it. Of the segment that
    faults no field is stored.
    """
    groups = ["".join(f"{first + index:02x}" * 4 for index in range(8)) for first in (1, 0x11)]
    registers = f"x11 {address}\nv4 {groups[0]}\nv5 {groups[1]}\n"
    program = write_inputs(tmp_path, (0xCD047057, store), registers)  # vsetivli x0, 8, e32, m1, ta, ma
    result, lines = watched(tmp_path, ["3ff0:16"], "--log", "log", "--to", 9, *program)
    end = "fault cause=7 pc=0000000000001004 value=0000000000004000 1 1"
    assert result.status == 0
    assert lines == [f"{numbers} 0000000000001004 0000000000003ff0 {'00' * 16} {stored}", end]
    log, counts = (tmp_path / "log").read_text("ascii").splitlines(), result.counts.splitlines()
    assert (len(log), log[-1], len(counts), counts[-1]) == (2, end, 2, end)


def test_changes_need_no_counts(tmp_path: pathlib.Path) -> None:
    """The last line has the same numbers, also where the last instruction isn't counted."""
    program = write_inputs(tmp_path, (0x00A5A023, 0x00100073), "x10 1\nx11 2000\n")
    with_counts = watched(tmp_path, ["2000:1"], *program)[1]
    (tmp_path / "changes").unlink()
    completed = record(tmp_path, "--watch", "2000:1", "--changes", "changes", *program, counts=False)
    assert (completed.status, completed.counts) == (0, "")
    assert (tmp_path / "changes").read_text("ascii").splitlines() == with_counts
    assert with_counts[-1] == "ebreak pc=0000000000001004 1 1"


def test_calls_change_nothing(tmp_path: pathlib.Path) -> None:
    result, lines = watched(tmp_path, ["2000:20"], *write_inputs(tmp_path, WRITE_AND_EXIT, "x10 1\nx11 2000\nx12 8\n"))
    assert (result.stdout, lines) == (bytes(8), ["exit 0 pc=0000000000001010 5 5"])


@pytest.mark.parametrize("image", IMAGES, ids=[path.name for path in IMAGES])
def test_changes_equal_monitor_steps(tmp_path: pathlib.Path, image: pathlib.Path) -> None:
    ticks, expected = stepped_changes(image, STACK, MOST)
    result, lines = watched(tmp_path, [f"{place.address:x}:{place.length}" for place in STACK], "--ticks", ticks, image)
    assert result.status == 0
    assert lines[:-1] == expected
    assert lines[-1] == result.counts.splitlines()[-1]


@pytest.mark.parametrize(
    "arguments, status, message",
    [
        (["--watch", "1000"], 2, "--watch needs ADDR:LEN, with LEN from 1 to 256, not 1000"),
        (["--watch", "1000:0"], 2, "--watch needs ADDR:LEN, with LEN from 1 to 256, not 1000:0"),
        (["--watch", "1000:257"], 2, "--watch needs ADDR:LEN, with LEN from 1 to 256, not 1000:257"),
        (["--watch", "0x1000:8"], 2, "--watch needs ADDR:LEN, with LEN from 1 to 256, not 0x1000:8"),
        (["--watch", "1000:8:rw"], 2, "--watch needs ADDR:LEN, with LEN from 1 to 256, not 1000:8:rw"),
        (["--watch", "1000:8"], 2, "--watch and --changes need each other"),
        (["--changes", "changes"], 2, "--watch and --changes need each other"),
        (["--watch", "1000:8", "--changes", "changes"], 4, "a place of --watch has no memory"),
        (["--watch", "7fffefff:2", "--changes", "changes"], 4, "a place of --watch has no memory"),
        (["--watch", "ffffffffffffffff:2", "--changes", "changes"], 4, "a place of --watch has no memory"),
    ],
)
def test_bad_changes_option_is_refused(tmp_path: pathlib.Path, arguments: list[str], status: int, message: str) -> None:
    """Nothing runs, and no file is made."""
    completed = record(tmp_path, *arguments, GOOD)
    assert (completed.status, completed.stderr) == (status, f"vecmon-record: {message}\n")
    assert completed.stdout == b"" and not (tmp_path / "changes").exists() and not (tmp_path / "counts").exists()


def test_unwritable_changes_file_is_refused(tmp_path: pathlib.Path) -> None:
    program = write_inputs(tmp_path, (0x00A5A023, 0x00100073), "x10 1\nx11 2000\n")
    completed = record(tmp_path, "--watch", "2000:1", "--changes", "/dev/full", *program)
    assert (completed.status, completed.stderr) == (5, "vecmon-record: cannot write changes\n")
    completed = record(tmp_path, "--watch", "2000:1", "--changes", "/", *program)
    assert (completed.status, completed.stderr) == (5, "vecmon-record: cannot write /\n")


@pytest.mark.parametrize("asked, written, expected", [(0x100, 256, 0), (0x101, 256, 1), (0x2000, 256, 1), (0, 0, 0)])
def test_partial_write_call_is_reported(tmp_path: pathlib.Path, asked: int, written: int, expected: int) -> None:
    """A call writes at most 256 bytes. A call that fails writes nothing, and isn't listed."""
    program = write_inputs(tmp_path, WRITE_AND_EXIT, f"x10 1\nx11 2000\nx12 {asked:x}\n")
    completed = record(tmp_path, *program)
    assert (completed.status, completed.stdout) == (0, bytes(written))
    text = f"vecmon-record: calls that wrote less than they were asked to: {expected}\n"
    assert completed.stderr == (text if expected else "")
    failed = record(tmp_path, *write_inputs(tmp_path, WRITE_AND_EXIT, f"x10 1\nx11 5000\nx12 {asked:x}\n"))
    assert (failed.status, failed.stdout, failed.stderr) == (0, b"", "")
