"""Instants of a run, forwards and backwards, compared with states that are counted by hand."""

import itertools
import pathlib
from collections.abc import Callable, Iterator

import pytest

from support.images import make_image
from support.sources import COUNTDOWN, WRITES
from vecmon_lab.guest.guest import Guest, started
from vecmon_lab.machine.answers import Addresses, ScalarRegisters, Stop
from vecmon_lab.replay.timeline import Timeline
from vecmon_lab.replay.watches import Watch

# By v0 only element 5 is active, and v1 has 0 to 7.
ACCESSES = """
        lui x6, 17
        addi x7, x0, 2
        vsetivli x0, 8, e8, m1, ta, ma
        vid.v v1
        vmseq.vi v0, v1, 5
masked: vle8.v v2, (x6), v0.t
gaps:   vlse8.v v3, (x6), x7
index:  vluxei8.v v4, (x6), v1, v0.t
halves: vlseg2e16.v v6, (x6)
store:  vse8.v v1, (x6), v0.t
put:    sb x7, 6(x6)
get:    lbu x8, 6(x6)
        ebreak
        .data
        .zero 64
"""
ROUNDS = """
        vsetvli x6, x0, e8, m8, ta, ma
        auipc x7, 1
loop:   addi x5, x5, 1
        vse8.v v8, (x7)
        jal x0, loop
        .data
        .zero 512
"""
WRITES_MUCH = """
        addi x5, x0, 9
        lui x11, 17
        addi x12, x0, 256
        addi x17, x0, 64
loop:   addi x10, x0, 1
        ecall
        addi x5, x5, -1
        bne x5, x0, loop
        nop
        ebreak
        .data
        .zero 256
"""
PLACE = Watch("watch", 0x11008, 4)


@pytest.fixture
def start(tmp_path: pathlib.Path, program: pathlib.Path) -> Iterator[Callable[[str], tuple[Timeline, Guest]]]:
    """Loads a source for a guest, with a timeline."""
    guests = list[Iterator[Guest]]()

    def start_time(source: str) -> tuple[Timeline, Guest]:
        make_image(program, tmp_path / "image", source)
        context = started(tmp_path / "image", write=lambda data: None)
        guest = context.__enter__()
        guests.append(iter([guest]))
        return Timeline(guest), guest

    yield start_time
    for guest in itertools.chain(*guests):
        guest.session.close()


def never() -> bool:
    """No Ctrl-C."""
    return False


def state(guest: Guest) -> tuple[int, int, int, int]:
    """The program counter, x5, x6, and what is stored."""
    registers = guest.query("regs", ScalarRegisters)
    assert registers.pc == guest.pc
    return guest.pc, registers.x[5], registers.x[6], int.from_bytes(guest.peek(0x11008, 4), "little")


def test_changes_at_the_start_stay(start: Callable[[str], tuple[Timeline, Guest]]) -> None:
    """Nothing is before the start to go back to, whether the program is there at first, or came back there."""
    timeline, guest = start(COUNTDOWN)
    for number in (7, 8):
        guest.ask(f"set x5 {number}", f"poke 11008 0{number}000000")
        assert timeline.back() is False and state(guest) == (0x10000, number, 0, number)
        assert timeline.back_to_halt((), never) is False and state(guest) == (0x10000, number, 0, number)
        for _ in range(3):
            timeline.step()
        assert timeline.back_to_halt((), never) is False and state(guest) == (0x10000, number, 0, number)


def test_back_returns_by_instructions(start: Callable[[str], tuple[Timeline, Guest]]) -> None:
    timeline, guest = start(COUNTDOWN)
    assert timeline.go(never) == Stop("ebreak", 0x10018) and state(guest) == (0x10018, 0, 3, 1)
    assert timeline.back() and state(guest) == (0x10014, 0, 3, 1)
    assert timeline.back(4) and state(guest) == (0x10004, 1, 2, 2)  # the third round begins
    assert timeline.step() is None and timeline.back(3) and state(guest) == (0x10010, 2, 2, 2)
    assert timeline.back(9) and state(guest) == (0x10000, 0, 0, 0)
    assert not timeline.back() and state(guest) == (0x10000, 0, 0, 0)
    assert timeline.go(never) == Stop("ebreak", 0x10018) and state(guest) == (0x10018, 0, 3, 1)
    assert not timeline.back(17) and state(guest) == (0x10000, 0, 0, 0)


def test_back_finds_change_of_place(start: Callable[[str], tuple[Timeline, Guest]]) -> None:
    timeline, guest = start(COUNTDOWN)
    for number in (3, 2, 1):
        timeline.watches = [PLACE]
        assert timeline.go(never) and timeline.hit == PLACE
        assert state(guest) == (0x1000C, number, 4 - number, (number + 1) % 4)
        assert timeline.step() and timeline.hit == PLACE and guest.pc == 0x1000C
        timeline.watches = []
        timeline.step()
    timeline.watches = [PLACE]
    assert timeline.go(never) == Stop("ebreak", 0x10018) and timeline.hit is None
    for number in (1, 2, 3):
        timeline.watches = [PLACE]
        assert timeline.back_to_halt((), never) and timeline.hit == PLACE
        assert state(guest) == (0x10010, number, 4 - number, number)
        assert timeline.back() and timeline.hit == PLACE and guest.pc == 0x10010
        timeline.watches = []
        assert timeline.back() and state(guest) == (0x1000C, number, 4 - number, (number + 1) % 4)
    timeline.watches = [PLACE]
    assert timeline.back_to_halt((), never) is False and state(guest) == (0x10000, 0, 0, 0)


def test_back_stops_at_changes_and_breakpoints(start: Callable[[str], tuple[Timeline, Guest]]) -> None:
    """The store of each round, and its branch two instructions on, each one by itself."""
    timeline, guest = start(COUNTDOWN)
    assert timeline.go(never) == Stop("ebreak", 0x10018)
    for number in (1, 2, 3):
        timeline.watches = [PLACE]
        assert timeline.back_to_halt([0x10014], never) and timeline.hit is None
        assert state(guest) == (0x10014, number - 1, 4 - number, number)
        assert timeline.back_to_halt([0x10014], never) and timeline.hit == PLACE
        assert state(guest) == (0x10010, number, 4 - number, number)
        timeline.watches = []
        assert timeline.back()
    timeline.watches = [PLACE]
    assert timeline.back_to_halt([0x10014], never) is False and guest.pc == 0x10000


def test_back_finds_changes_after_manual_write(start: Callable[[str], tuple[Timeline, Guest]]) -> None:
    """Nine rounds in place of three; the first one stores the value that is there."""
    timeline, guest = start(COUNTDOWN)
    timeline.step()
    guest.ask("set x5 9", "set x6 20", "poke 11008 09000000")
    assert timeline.go(never) == Stop("ebreak", 0x10018) and state(guest) == (0x10018, 0, 0x29, 1)
    for number in range(1, 9):
        timeline.watches = [PLACE]
        assert timeline.back_to_halt((), never) and timeline.hit == PLACE
        assert state(guest) == (0x10010, number, 0x2A - number, number)
        timeline.watches = []
        assert timeline.back() and state(guest)[3] == number + 1
    timeline.watches = [PLACE]
    assert timeline.back_to_halt((), never) is False and state(guest) == (0x10000, 0, 0, 0)


def test_breakpoint_at_stopping_instruction_is_found(start: Callable[[str], tuple[Timeline, Guest]]) -> None:
    """The last of seventeen instructions, the EBREAK, has one."""
    timeline, guest = start(COUNTDOWN)
    guest.ask("break 10018")
    timeline.watches = [Watch("watch", 0x11100, 4)]
    assert timeline.go(never) == Stop("break", 0x10018) and timeline.hit is None
    timeline.watches = []
    assert timeline.step() == Stop("ebreak", 0x10018) and timeline.back(5) and state(guest) == (0x10004, 1, 2, 2)


def test_back_steps_among_long_instructions(start: Callable[[str], tuple[Timeline, Guest]]) -> None:
    """Each of two stores takes 256 ticks, and one line steps over all to the EBREAK."""
    timeline, guest = start(
        "vsetvli x6, x0, e8, m8, ta, ma\nauipc x7, 1\nvse8.v v8, (x7)\nvse8.v v8, (x7)\naddi x5, x0, 7\nebreak\n"
        ".data\n.zero 512"
    )
    assert guest.ask("step 256") == [Stop("ebreak", 0x10014)]
    assert timeline.back() and state(guest)[:2] == (0x10010, 0)
    assert timeline.back(3) and state(guest)[:2] == (0x10004, 0)


def test_back_works_in_endless_program(start: Callable[[str], tuple[Timeline, Guest]]) -> None:
    timeline, guest = start(ROUNDS)
    assert timeline.step() is None and timeline.back() and guest.pc == 0x10000
    timeline.watches = [Watch("watch", 0x11000, 1)]
    assert timeline.back_to_halt([0x10008], never) is False and guest.pc == 0x10000


def test_back_refuses_unmapped_place(start: Callable[[str], tuple[Timeline, Guest]]) -> None:
    """The page of data ends at 12000."""
    timeline, _ = start(COUNTDOWN)
    timeline.watches = [Watch("watch", 0x11FFC, 8), Watch("watch", 0x12000, 8)]
    assert timeline.go(never) == Stop("ebreak", 0x10018) and timeline.hit is None
    assert timeline.back_to_halt((), never) is False and timeline.hit is None


def test_back_returns_to_breakpoint(start: Callable[[str], tuple[Timeline, Guest]]) -> None:
    timeline, guest = start(COUNTDOWN)
    guest.ask("break 10010")
    for number in (3, 2, 1):
        assert timeline.go(never) == Stop("break", 0x10010) and state(guest)[1] == number
    for number in (2, 3):
        assert timeline.back_to_halt([0x10010], never) and state(guest) == (0x10010, number, 4 - number, number)
    assert timeline.back_to_halt([0x10010], never) is False and guest.pc == 0x10000
    assert guest.query("breaks", Addresses).addresses == [0x10010]
    assert timeline.go(never) == Stop("break", 0x10010) and timeline.back_to_halt([], lambda: True) is None
    assert state(guest) == (0x10010, 3, 1, 3)


def test_manual_writes_are_replayed(start: Callable[[str], tuple[Timeline, Guest]]) -> None:
    timeline, guest = start(COUNTDOWN)
    guest.ask("set x6 30", "break 10004")
    timeline.go(never)
    timeline.go(never)
    guest.ask("set x6 100", "unbreak 10004")
    assert timeline.go(never) == Stop("ebreak", 0x10018) and state(guest)[2] == 0x102
    assert timeline.back(7) and state(guest) == (0x10010, 2, 0x101, 2)
    assert timeline.back(3) and state(guest) == (0x10004, 2, 0x100, 3)
    assert timeline.back() and state(guest) == (0x10014, 2, 0x31, 3)
    assert timeline.go(never) == Stop("ebreak", 0x10018) and state(guest)[2] == 0x33
    assert not timeline.back(17) and state(guest)[2] == 0x30


def test_interrupt_stops_search(start: Callable[[str], tuple[Timeline, Guest]]) -> None:
    """A round takes 258 ticks, and so slices end within the store."""
    timeline, guest = start(ROUNDS)
    polls = itertools.count()
    assert timeline.go(lambda: next(polls) > 9) is None
    pc, rounds, *_ = state(guest)
    assert rounds > 1000 and timeline.back(3) and state(guest)[:2] == (pc, rounds - 1)
    assert timeline.back(3 * (rounds - 2)) and state(guest)[:2] == (pc, 1)


@pytest.mark.parametrize(
    "kind, byte, labels",
    [
        ("rwatch", 5, "masked index halves"),
        ("rwatch", 4, "gaps halves"),
        ("rwatch", 6, "gaps halves get"),
        ("awatch", 6, "gaps halves put get"),
        ("awatch", 5, "masked index halves store"),
        ("rwatch", 31, "halves"),
        ("awatch", 32, ""),
        ("watch", 5, "store"),
    ],
)
def test_watchpoints_stop_at_accesses(
    start: Callable[[str], tuple[Timeline, Guest]], kind: str, byte: int, labels: str
) -> None:
    timeline, guest = start(ACCESSES)
    names = "masked gaps index halves store put get".split()
    places = {name: 0x10014 + 4 * number for number, name in enumerate(names)}
    watch, found = Watch(kind, 0x11000 + byte, 1), list[int]()
    timeline.watches = [watch]
    while (stop := timeline.go(never)) and timeline.hit:
        found.append(stop.pc)
        timeline.watches = []
        timeline.step()
        timeline.watches = [watch]
    assert stop == Stop("ebreak", 0x10030) and found == [places[name] for name in labels.split()]
    while timeline.back_to_halt((), never):
        timeline.watches = []
        timeline.back()
        timeline.watches = [watch]
        assert guest.pc == found.pop()
    assert not found and guest.pc == 0x10000


@pytest.mark.parametrize("steps", [0, 41])
def test_back_handles_full_output_buffer(start: Callable[[str], tuple[Timeline, Guest]], steps: int) -> None:
    """Four instructions, nine rounds of four that write 256 bytes each, and one more: run, or stepped, and taken back."""
    timeline, guest = start(WRITES_MUCH)
    for _ in range(steps):
        assert timeline.step() is None
    assert timeline.go(never) == Stop("ebreak", 0x10024)
    assert timeline.back() and state(guest)[:2] == (0x10020, 0)
    assert timeline.back(4) and state(guest)[:2] == (0x10010, 1)
    assert guest.query("regs", ScalarRegisters).x[10] == 256
    assert timeline.go(never) == Stop("ebreak", 0x10024) and timeline.back(37) and state(guest)[:2] == (0x10010, 9)
    assert not timeline.back(5) and state(guest)[:2] == (0x10000, 0)


def test_output_is_not_repeated(start: Callable[[str], tuple[Timeline, Guest]]) -> None:
    """Eight instructions write eight bytes, 5,000 times: there is a way back over a thousand writes."""
    timeline, guest = start(WRITES)
    timeline.watches = [Watch("watch", 0x10000, 8)]
    assert timeline.go(lambda: 0 < guest.query("regs", ScalarRegisters).x[8] < 3900) is None
    timeline.watches = []
    before = guest.query("regs", ScalarRegisters)
    assert 1000 < before.x[8] < 4000 and timeline.back(8000)
    after = guest.query("regs", ScalarRegisters)
    assert (after.pc, after.x[8]) == (before.pc, before.x[8] + 1000)
