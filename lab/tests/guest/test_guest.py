"""One user's program: its output and the place of a cut, how it ends, and its arguments."""

import pathlib
import re

import pytest

from support.images import make_image
from support.places import SQUARES, STOCK, SUM, TOP
from support.sources import ARGUMENTS, FOREVER, WRITES
from vecmon_lab import LabError
from vecmon_lab.guest.guest import Guest, started
from vecmon_lab.machine.answers import Position, Stop
from vecmon_lab.machine.session import Session
from vecmon_lab.tables.table import read_table


def test_program_runs_to_exit() -> None:
    """The output and the status are those of QEMU 7.2; the instructions and elements were counted by hand."""
    with started(SUM, quantum=100) as guest:
        assert guest.go() == Stop("exit", 0x112DC)
        assert (guest.output(), guest.output(), guest.ticks, guest.pc) == (b"328350\n", b"", 800, 0x112DC)


def test_fault_is_described() -> None:
    with started(SQUARES) as guest:
        stop = guest.go()
        assert stop is not None and (stop.kind, stop.pc, stop.cause, stop.value) == ("fault", 0x10198, 7, 0x12000)
        assert guest.explain(stop) == (
            "The store at 0x10198 may not write from 0x12000 on: a page isn't mapped, or has no permission w. "
            "It stopped at element 14."
        )


def test_program_continues_after_ticks_run_out() -> None:
    with started(SUM, quantum=100) as guest:
        assert guest.go(0) is None and guest.ticks == 0
        assert guest.go(101) is None and guest.ticks == 200
        assert guest.output() == b"" and guest.session.look("1 state") == [f"1 state stopped pc={guest.pc:016x}"]
        stop = guest.go(100_000)
        assert stop is not None and stop.kind == "exit" and guest.ticks == 800


def test_endless_program_is_interrupted(program: pathlib.Path, tmp_path: pathlib.Path) -> None:
    make_image(program, tmp_path / "forever", FOREVER)
    with started(tmp_path / "forever") as guest:
        assert guest.go(is_interrupted=lambda: guest.ticks >= 3_000_000) is None
        assert 3_000_000 <= guest.ticks <= 4_000_000 and guest.pc == 0x10000
        assert guest.ask("state") == [Position("state stopped", 0x10000)]


def test_full_output_buffer_is_emptied(program: pathlib.Path, tmp_path: pathlib.Path) -> None:
    make_image(program, tmp_path / "writes", WRITES)
    parts: list[bytes] = []
    with started(tmp_path / "writes", write=parts.append) as guest:
        assert guest.go(100_000) is None and guest.output() == b""
    assert b"".join(parts) == b"1234567\n" * 5000 and max(map(len, parts)) < 1024
    with started(tmp_path / "writes") as guest:
        for _ in range(2000):
            assert guest.step() is None
        assert guest.output() == b"1234567\n" * 250


@pytest.mark.parametrize("arguments", [["name"], ["name", "", "b" * 200, "\u00fc"], ["x" * 15], ["x" * 16], list("ab")])
def test_program_receives_arguments(program: pathlib.Path, tmp_path: pathlib.Path, arguments: list[str]) -> None:
    make_image(program, tmp_path / "arguments", ARGUMENTS)
    with started(tmp_path / "arguments", arguments=arguments) as guest:
        stop = guest.go(1_000_000)
        assert stop is not None and (stop.kind, stop.number) == ("exit", len(arguments))
        assert guest.output() == "".join(f"{argument}\n" for argument in arguments).encode()


@pytest.mark.parametrize("name, pointer", [("", 0x7FFFEFC0), ("x" * 15, 0x7FFFEFC0), ("x" * 16, 0x7FFFEFB0)])
def test_short_name_preserves_stack_address(name: str, pointer: int) -> None:
    with started(SUM, arguments=[name][: len(name)]) as guest:
        assert f" x2 {pointer:016x} " in guest.session.look("1 regs")[1]


def test_excess_arguments_are_refused() -> None:
    with pytest.raises(LabError, match="8,192 bytes of the stack"), started(SUM, arguments=["x" * 8192]):
        pass


@pytest.mark.parametrize("at_once", [1, 3, 1000])
def test_breakpoint_stops_at_any_slice_boundary(at_once: int) -> None:
    """The loop takes 25 ticks, so that each fifth slice ends before its store, which the next three cut."""
    with started(SQUARES, quantum=5) as guest:
        guest.session.do("1 break 10198")
        for _ in range(64):
            stop = None
            while stop is None:
                stop = guest.go(at_once)
            assert (stop.kind, stop.pc) == ("break", 0x10198)
        last = guest.go()
        assert last is not None and last.kind == "fault"


def test_guest_restarts_with_policy(program: pathlib.Path) -> None:
    with Session(program, {"sum": SUM}) as session:
        guest = Guest(session, 3)
        for policy in ("ones", "keep"):
            guest.start("sum", policy)
            assert session.policy == {3: policy}
            stop = guest.go()
            assert stop is not None and stop.kind == "exit" and guest.output() == b"328350\n"


def test_image_faults_match_documents() -> None:
    rows = re.findall(r"^\| \d+ \| (\w+) \| (.+?) \|", (TOP / "docs" / "IMAGES.md").read_text(), re.MULTILINE)
    shown = dict(read_table("image_faults"))
    assert len(rows) == 13 and set(shown) == {f"E09 {name}" for name, _ in rows} | {"E08", "E10"}
    assert all(shown[f"E09 {name}"].startswith(reason) for name, reason in rows)


def test_unsuitable_image_is_refused(tmp_path: pathlib.Path) -> None:
    with pytest.raises(LabError, match=r"short: the machine refuses image \(E09 Short\): the file has less than 64 "):
        with started(STOCK / "short"):
            pass
    (tmp_path / "large").write_bytes(bytes(4_194_305))
    with pytest.raises(LabError, match="large has more than 4,194,304 bytes"), started(tmp_path / "large"):
        pass
    for missing in (tmp_path / "none", tmp_path):
        with pytest.raises(OSError), started(missing):
            pass
