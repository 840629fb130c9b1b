"""The elements and the ticks of instructions, by rows that were worked out by hand, and ticks as slices count them."""

import pathlib
import re

import pytest

from support.elements import elements_of
from support.images import make_image
from support.places import SUM
from support.sources import CHANGES
from vecmon_lab import LabError
from vecmon_lab.guest.guest import Guest, started
from vecmon_lab.machine.answers import ControlRegisters
from vecmon_lab.machine.session import Session
from vecmon_lab.runs.initial_state import InitialState, initial_state_at, initial_state_of
from vecmon_lab.runs.recorder import record

TYPES = {"e8 m1": 0, "e8 mf2": 7, "e16 m1": 8, "e32 m1": 16, "e32 m2": 17, "e64 m8": 27}


@pytest.mark.parametrize(
    "text, vtype, vl, vstart, active, masked, tail",
    [
        ("vadd.vv v2, v4, v6", "e32 m1", 5, 0, [0, 1, 2, 3, 4], 0, 3),
        ("vadd.vv v2, v4, v6, v0.t", "e32 m1", 5, 0, [1, 2, 4], 2, 3),
        ("vadd.vv v2, v4, v6, v0.t", "e32 m2", 16, 2, [2, 4, 15], 11, 0),
        ("vmerge.vvm v2, v4, v6, v0", "e32 m1", 2, 0, [0, 1], 0, 6),
        ("vmadc.vvm v2, v4, v6, v0", "e32 m1", 2, 0, [0, 1], 0, 6),
        ("vmadc.vxm v2, v4, x6, v0", "e32 m1", 5, 1, [1, 2, 3, 4], 0, 3),
        ("vmadc.vim v2, v4, 3, v0", "e32 m1", 5, 0, [0, 1, 2, 3, 4], 0, 3),
        ("vmsbc.vvm v2, v4, v6, v0", "e32 m1", 5, 0, [0, 1, 2, 3, 4], 0, 3),
        ("vmsbc.vxm v2, v4, x6, v0", "e32 m1", 5, 1, [1, 2, 3, 4], 0, 3),
        ("vadc.vvm v2, v4, v6, v0", "e32 m1", 5, 0, [0, 1, 2, 3, 4], 0, 3),
        ("vadd.vv v2, v4, v6", "e32 m1", 0, 0, [], 0, 8),
        ("vwadd.vv v2, v4, v6", "e8 mf2", 3, 0, [0, 1, 2], 0, 13),
        ("vle8.v v2, (x10)", "e32 m2", 16, 0, list(range(16)), 0, 0),
        ("vse32.v v2, (x10)", "e32 m1", 5, 2, [2, 3, 4], 0, 3),
        ("vlseg3e16.v v2, (x10)", "e16 m1", 4, 0, [0, 1, 2, 3], 0, 12),
        ("vluxei8.v v2, (x10), v4, v0.t", "e16 m1", 3, 0, [1, 2], 1, 13),
        ("vlm.v v2, (x10)", "e8 m1", 13, 0, [0, 1], 0, 2),
        ("vsm.v v2, (x10)", "e8 m1", 13, 1, [1], 0, 2),
        ("vl4re32.v v4, (x10)", "e8 m1", 1, 0, list(range(32)), 0, 0),
        ("vs2r.v v4, (x10)", "e32 m1", 1, 0, list(range(64)), 0, 0),
        ("vmv4r.v v4, v8", "e16 m1", 1, 0, list(range(64)), 0, 0),
        ("vmv.x.s x5, v8", "e16 m1", 7, 0, [0], 0, 0),
        ("vmv.x.s x5, v8", "e16 m1", 0, 0, [0], 0, 0),
        ("vmv.x.s x5, v8", "e16 m1", 7, 1, [0], 0, 0),
        ("vmv.s.x v8, x5", "e16 m1", 7, 0, [0], 0, 0),
        ("vmv.s.x v8, x5", "e16 m1", 7, 1, [0], 0, 0),
        ("vmv.s.x v8, x5", "e16 m1", 0, 0, [], 0, 0),
        ("vmv.s.x v8, x5", "e16 m1", 1, 1, [], 0, 0),
        ("vredsum.vs v8, v16, v9", "e64 m8", 10, 0, list(range(10)), 0, 22),
        ("vcpop.m x5, v8", "e8 m1", 10, 0, list(range(10)), 0, 22),
    ],
)
def test_element_counts_equal_hand_worked_counts(
    session: Session, text: str, vtype: str, vl: int, vstart: int, active: list[int], masked: int, tail: int
) -> None:
    """Bits 1, 2, 4 and 15 of v0 are set.

    By the manual, v0 is an operand of a carry, which works on all of the body (11.4); vmv.x.s reads element 0 whatever
    vl and vstart are, and vmv.s.x writes it where vstart is less than vl (16.1).
    """
    word = _word(session, text)
    control = ControlRegisters(vl, TYPES[vtype], vstart)
    elements = elements_of(word, control, bytes([0x16, 0x80]) + bytes(30))
    assert elements is not None
    assert (list(elements.active), elements.masked, elements.tail) == (active, masked, tail)


@pytest.mark.parametrize("text", ["vsetvli x5, x10, e8, m1, ta, ma", "addi x5, x5, 1", "ecall"])
def test_other_instructions_have_no_elements(session: Session, text: str) -> None:
    control = ControlRegisters(vtype=0, vstart=0, vl=3, vxrm=0, vxsat=0)
    assert elements_of(_word(session, text), control, bytes(32)) is None
    assert elements_of(0, control, bytes(32)) is None


def _word(session: Session, text: str) -> int:
    session.do_all(["1 enter", "1 map 10000 1 rwx"])
    return int(session.do(f"1 asm 10000 {text}")[0].split()[2], 16)


def test_ticks_equal_slices(program: pathlib.Path, tmp_path: pathlib.Path) -> None:
    """A slice of one tick is granted once for each tick counted."""
    source = re.sub(r"vse32.v v10.*", "li a7, 93\n        ecall", re.sub(r"\|.*", "", CHANGES))
    make_image(program, tmp_path / "rows", source)
    for image in (SUM, tmp_path / "rows"):
        with started(image, quantum=1) as guest:
            guest.go()
        counts = record(InitialState(image))
        assert counts.stop is not None and counts.stop.kind == "exit"
        assert counts.ticks == guest.ticks


def test_program_counts_equal_hand_worked_counts() -> None:
    """QEMU 7.2 executes 250 instructions, too. The loop at 1123c has 6 strips of 16 and one of 4."""
    counts = record(initial_state_of(SUM, ["sum"]))
    places = {
        place.address: (counts.texts[place.word], place.times, place.ticks, *place.elements) for place in counts.places
    }
    assert sum(place.times for place in counts.places) == counts.instructions == 250
    assert places[0x11240] == ("vle32.v v10, (x11)", 7, 100, 100, 0, 12)
    assert places[0x11248] == ("vadd.vv v8, v8, v10", 7, 7, 100, 0, 12)
    assert places[0x111E0] == ("vs2r.v v16, (x11)", 6, 384, 384, 0, 0)
    assert places[0x1124C] == ("sub x10, x10, x12", 7, 7, 0, 0, 0)
    assert counts.ticks == 250 + 93 + 378
    assert counts.lengths["e32,m2,ta,ma", 4] == counts.lengths["e32,m2,tu,ma", 4] == 1
    assert counts.lengths["e64,m4,ta,ma", 16] == 13 and counts.lengths.total() == 43


def test_run_counts_from_guest_state(session: Session) -> None:
    """Under a mask of 5, three elements of eight are added, from 4 left over: the value set before is there."""
    guest, lines = Guest(session), ["1 enter", "1 map 10000 1 rx", "1 asm 10000 vadd.vi v8, v8, 1, v0.t"]
    lines += ["1 asm 10004 ebreak", "1 asm 10008 vsetivli x0, 3, e32, m1, ta, ma", "1 setpc 10008", "1 step 1"]
    lines += ["1 vset v0 " + "05" + "00" * 31, "1 setpc 10000", "1 policy ones"]
    session.do_all(lines)
    counts = record(initial_state_at(guest))
    assert [(place.address, place.times, list(place.elements)) for place in counts.places] == [(0x10000, 1, [2, 1, 5])]
    assert counts.lengths == {("e32,m1,ta,ma", 3): 1} and counts.stop and counts.stop.kind == "ebreak"


def test_fault_at_first_instruction_has_no_place(program: pathlib.Path, tmp_path: pathlib.Path) -> None:
    make_image(program, tmp_path / "faults", "nop\n.word 0")
    counts = record(InitialState(tmp_path / "faults"))
    assert [(place.address, place.times) for place in counts.places] == [(0x10000, 1)]


def test_missing_recorder_is_reported(monkeypatch: pytest.MonkeyPatch) -> None:
    monkeypatch.setenv("VECMON_RECORD", "none")
    with pytest.raises(LabError, match="^there is no program none; counts and runs need it, "):
        record(InitialState(SUM))
    monkeypatch.setenv("VECMON_RECORD", "/bin/true")
    with pytest.raises(LabError, match="^vecmon-record prints no counts: "):
        record(InitialState(SUM))
