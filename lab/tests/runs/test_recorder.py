"""The recorder: it gets a run's arguments, the lab reports its refusals, and a file of counts is read as documented."""

import pathlib

import pytest

from support.places import STOCK
from vecmon_lab import LabError
from vecmon_lab.machine.answers import Position, Stop
from vecmon_lab.runs.initial_state import InitialState
from vecmon_lab.runs.counts import CountedWord, read_counts
from vecmon_lab.runs.recorder import record

# A loop: addi x5, x5, -1; bne x5, x0, -4; ebreak.
LOOP = b"".join(word.to_bytes(4, "little") for word in (0xFFF28293, 0xFE029EE3, 0x00100073))
TEXT = """at 0000000000010000 00300293 1 1 0 0 0
at 0000000000010004 02056407 7 100 100 0 12
vl 00000000000000d1 16 6
call 000000000001000c 0000000000010080 2
fault cause=7 pc=0000000000010198 value=0000000000012000 8 101
"""


def test_counts_are_read() -> None:
    counts = read_counts(TEXT)
    last = CountedWord(0x10004, 0x2056407, 7, 100, (100, 0, 12))
    assert counts.places == [CountedWord(0x10000, 0x300293, 1, 1), last] and counts.elements == [100, 0, 12]
    assert counts.lengths == {("e32,m2,ta,ma", 16): 6} and counts.calls == {(0x1000C, 0x10080): 2}
    assert counts.stop == Stop("fault", 0x10198, 0, 7, 0x12000)
    assert (counts.instructions, counts.ticks) == (8, 101)


@pytest.mark.parametrize(
    "text", ["", "exit 0", "at 0 0 1 1 0 0\nexit 0 pc=0000000000000000 1 1\n", "hello 1 1", "ok 1 1"]
)
def test_malformed_counts_are_refused(text: str) -> None:
    with pytest.raises(LabError, match="^vecmon-record prints no counts: "):
        read_counts(text)


def test_recorder_receives_memory_registers_and_ticks() -> None:
    """Half a megabyte of memory, more than a pipe holds; x5 counts down from 3, so there are six instructions."""
    memory = [(0x20000, "rw", bytes(1 << 19)), (0x10000, "rx", LOOP)]
    initial_state = InitialState(None, memory, ["x5 3", "pc 10000"])
    counts = record(initial_state)
    done = [(place.address, place.word, place.times) for place in counts.places]
    assert done == [(0x10000, 0xFFF28293, 3), (0x10004, 0xFE029EE3, 3)]
    assert counts.end == Stop("ebreak", 0x10008) and counts.instructions == 6
    counts = record(initial_state, 5)
    assert counts.end == Position("running", 0x10004) and counts.stop is None and counts.ticks == 5


@pytest.mark.parametrize(
    "initial_state, expected",
    [
        (
            InitialState(STOCK / "short"),
            f"{STOCK}/short: the machine refuses image \\(E09 Short\\): the file has less than",
        ),
        (InitialState(None, [(0, "rw", bytes((1 << 20) + 1))]), "too many bytes$"),
        (InitialState(None, [], ["x5 g"]), "line 1: no register and a value that it can have$"),
        (InitialState(pathlib.Path("none")), "cannot read none$"),
    ],
)
def test_recorder_refusal_is_explained(initial_state: InitialState, expected: str) -> None:
    with pytest.raises(LabError, match=expected):
        record(initial_state)
