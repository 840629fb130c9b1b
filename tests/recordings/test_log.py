"""The log of instructions: replayed next to the monitor's own steps, and lines that were worked out by hand."""

import pathlib

import pytest

from tests.recordings.log_lines import LogLine, Replayed, bytes_stored, read_log
from tests.recordings.recorder import record, record_log
from tests.recordings.test_counts import IMAGES, MASKED_VECTORS, MOST, SCALAR_LOOP, write_inputs
from vecmon_lab.guest.changes import Retired, MemoryChange, Stepper
from vecmon_lab.guest.guest import started

HERE = pathlib.Path(__file__).parent
LOOKS = 25  # instructions between two comparisons of all registers, also of those that no instruction wrote


def unlike(lines: list[LogLine], stepper: Stepper) -> list[str]:
    """Where lines lead to other registers than the monitor's steps do, or leave out a byte that changed."""
    found = stepper.registers.copy()
    replayed, faults = Replayed(list(found.x), bytearray(found.v), found.control), list[str]()
    for number, line in enumerate(lines, 1):
        retired = stepper.step()
        if number % LOOKS == 0:
            stepper.look()
        replayed.apply(line)
        now = stepper.registers
        expected = [
            ("place", (line.pc, line.word), (retired.pc, retired.word)),
            ("x", replayed.x, list(now.x)),
            ("v", replayed.v, now.v),
            ("control", replayed.control, now.control),
            ("memory", missing(line, retired), []),
        ]
        faults += [
            f"{number}: {name} of {retired.text} at {line.pc:x}: {here} and not {there}"
            for name, here, there in expected
            if here != there
        ]
    return faults


def missing(line: LogLine, retired: Retired) -> list[int]:
    """The addresses of bytes that changed otherwise than the line says."""
    stored = dict(bytes_stored(line))
    changed = {
        change.address + place: byte
        for change in retired.changes
        if isinstance(change, MemoryChange)
        for place, byte in enumerate(change.after)
    }
    return [address for address, byte in changed.items() if stored.get(address) != byte]


@pytest.mark.parametrize("policy", ["keep", "ones"])
@pytest.mark.parametrize("image", IMAGES, ids=[path.name for path in IMAGES])
def test_log_lines_give_registers_of_monitor_steps(tmp_path: pathlib.Path, image: pathlib.Path, policy: str) -> None:
    result = record_log(tmp_path, "--policy", policy, "--to", MOST, image)
    lines, end = read_log(result.log)
    assert (result.status, result.stderr) == (0, "") and end
    with started(image, policy=policy) as guest:
        assert unlike(lines, Stepper(guest)) == []


@pytest.mark.parametrize("name, arguments", [("scalar_loop", SCALAR_LOOP), ("masked_vectors", MASKED_VECTORS)])
def test_log_lines_equal_hand_worked_lines(tmp_path: pathlib.Path, name: str, arguments: tuple[int, ...]) -> None:
    result = record_log(tmp_path, "--ticks", 1000, *write_inputs(tmp_path, arguments))
    assert (result.status, result.stdout, result.stderr) == (0, b"", "")
    assert result.log == (HERE / "data" / f"{name}.log").read_text("ascii")


def test_window_has_lines_of_its_instruction_numbers(tmp_path: pathlib.Path) -> None:
    words = write_inputs(tmp_path, SCALAR_LOOP)
    *lines, end = (HERE / "data/scalar_loop.log").read_text("ascii").splitlines()
    for first, last in [(1, 1), (2, 5), (13, 13), (13, 2**63), (14, 20)]:
        result = record_log(tmp_path, "--from", first, "--to", last, *words)
        assert result.log.splitlines() == [*lines[first - 1 : last], end]


def test_log_counts_and_changes_together(tmp_path: pathlib.Path) -> None:
    """All three records of a run, each the same as without the others."""
    words, log = write_inputs(tmp_path, MASKED_VECTORS), (HERE / "data/masked_vectors.log").read_text("ascii")
    watch = ["--watch", "2000:4", "--changes", "changes"]
    for more in (["--counts", "counts"], watch, ["--counts", "counts", *watch]):
        assert record_log(tmp_path, "--to", 100, *more, *words).log == log
    assert (tmp_path / "counts").read_text("ascii") == record(tmp_path, *words).counts
    assert (tmp_path / "changes").read_text("ascii").splitlines() == log.splitlines()[-1:]


def test_faulting_instruction_has_no_log_line(tmp_path: pathlib.Path) -> None:
    """li x5, 3, and then a load from an address without memory."""
    result = record_log(tmp_path, "--to", 9, *write_inputs(tmp_path, (0x00300293, 0x0002B303)))
    first, end = result.log.splitlines()
    assert first == "core   0: 0 0x0000000000001000 (0x00300293) x5  0x0000000000000003"
    assert end.startswith("fault cause=5 pc=0000000000001004 ") and end.endswith(" 1 1")


@pytest.mark.parametrize(
    "arguments, message",
    [
        (["--log", "log"], "--log needs --ticks or --to, unless FILE begins with /dev/"),
        (["--log", "log", "--from", "2"], "--log needs --ticks or --to, unless FILE begins with /dev/"),
        (["--log", "log", "--to", "0"], "--to needs a number from 1 to 9223372036854775808"),
        (["--log", "log", "--to", "5", "--from", "x"], "--from needs a number from 1 to 9223372036854775808"),
        (["--log", "log", "--from", "5", "--to", "4"], "--from needs a number up to that of --to"),
        (["--log", "log", "--from", f"{2**63}", "--to", f"{2**63 - 1}"], "--from needs a number up to that of --to"),
        (["--from", "2"], "--from and --to need --log"),
        (["--to", "2", "--ticks", "5"], "--from and --to need --log"),
    ],
)
def test_bad_log_options_are_refused(tmp_path: pathlib.Path, arguments: list[str], message: str) -> None:
    completed = record(tmp_path, *arguments, counts=False)
    assert (completed.status, completed.stdout, completed.stderr) == (2, b"", f"vecmon-record: {message}\n")
    assert not (tmp_path / "log").exists()


def test_log_to_device_needs_no_end(tmp_path: pathlib.Path) -> None:
    words = write_inputs(tmp_path, SCALAR_LOOP)
    completed = record(tmp_path, "--log", "/dev/stdout", *words, counts=False)
    assert completed.stdout.decode() == (HERE / "data/scalar_loop.log").read_text("ascii")
    completed = record(tmp_path, "--log", "/dev/full", *words, counts=False)
    assert (completed.status, completed.stderr) == (5, "vecmon-record: cannot write log\n")
