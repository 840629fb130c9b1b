"""Long runs, backwards: states compared with those of a fresh machine, and changes with the recorder's."""

import pathlib
import subprocess
from collections.abc import Iterator

import pytest

from support.images import make_image
from support.long_runs import LAST_PLACE, fresh_states, make_long_run, shown
from vecmon_lab import LabError
from vecmon_lab.checkpoints.snapshot import Snapshot
from vecmon_lab.guest.guest import Guest, started
from vecmon_lab.machine.answers import Stop
from vecmon_lab.machine.program import find_recorder
from vecmon_lab.replay.control import Interrupted, never
from vecmon_lab.replay.saved_states import MAX_STATES, SavedStates, sparsest
from vecmon_lab.replay.timeline import Timeline
from vecmon_lab.replay.watches import Watch
from vecmon_lab.replay.whole_script import WholeScript

# By a generator of random numbers some rounds store one, at a place that changes then.
RANDOM_STORES = """
_start: la x9, data
        li x5, 3000
        li x6, 1234
loop:   slli x7, x6, 13
        xor x6, x6, x7
        srli x7, x6, 7
        xor x6, x6, x7
        slli x7, x6, 17
        xor x6, x6, x7
        andi x8, x6, 63
        bne x8, x0, skip
        sw x6, 0(x9)
skip:   addi x5, x5, -1
        bne x5, x0, loop
        ebreak
        .data
data:   .zero 64
"""
# Each whole-register store takes 256 ticks.
LONG_STORES = """
_start: la x9, data
        li x5, 20000
loop:
STORES
        addi x5, x5, -1
        bne x5, x0, loop
        ebreak
        .data
data:   .zero 256
""".replace(
    "STORES", "\n".join(40 * ["        vs8r.v v0, (x9)"])
)
MILLIONS = 10_000_000


@pytest.fixture
def random_stores(program: pathlib.Path, tmp_path: pathlib.Path, monkeypatch: pytest.MonkeyPatch) -> pathlib.Path:
    """The image of RANDOM_STORES, of whose run a state is saved every 500 ticks."""
    monkeypatch.setattr("vecmon_lab.replay.saved_states.SPACING", 500)
    monkeypatch.setattr("vecmon_lab.replay.saved_states.PAGE_SPACING", 0)
    monkeypatch.setattr("vecmon_lab.guest.runner.MAX_TICKS", 1000)
    monkeypatch.setattr("vecmon_lab.replay.saved_states.NEAR", 50)
    make_image(program, tmp_path / "random", RANDOM_STORES)
    return tmp_path / "random"


@pytest.fixture
def guest(random_stores: pathlib.Path) -> Iterator[Guest]:
    """A guest with that image, before its first instruction."""
    with started(random_stores, write=lambda data: None) as guest:
        yield guest


def recorded_changes(image: pathlib.Path, place: int) -> list[int]:
    """The numbers of the instructions that change four bytes, by the recorder's own options."""
    changes = image.with_suffix(".changes")
    subprocess.run([find_recorder(), "--watch", f"{place:x}:4", "--changes", changes, image], check=True)
    return [int(line.split()[0]) for line in changes.read_text("ascii").splitlines()[:-1]]


def test_long_run_goes_back_to_fresh_states(program: pathlib.Path, tmp_path: pathlib.Path) -> None:
    """Ten million instructions: back by single ones, by millions, and to the first."""
    image = tmp_path / "long"
    length = make_long_run(program, image, MILLIONS)
    counts = [0, 3, 4_000_000, 5_123_457, length - 10_000, length - 2, length - 1]
    states = dict(zip(counts, fresh_states(image, counts)))
    with started(image, write=lambda data: None) as guest:
        timeline = Timeline(guest)
        assert timeline.go(never) == Stop("ebreak", guest.pc)
        assert len(timeline.run.saved.states) > 2
        number = length
        for count in reversed(counts):
            assert timeline.back(number - count) and shown(guest) == states[count]
            number = count
        assert not timeline.back()
        timeline.watches = [Watch("watch", LAST_PLACE, 4)]
        assert timeline.go(never) and timeline.hit
        assert shown(guest) == states[length - 1] and timeline.count() == length - 1


def test_back_from_many_ticks(program: pathlib.Path, tmp_path: pathlib.Path) -> None:
    """More than 200 million ticks are less than a million instructions."""
    make_image(program, tmp_path / "ticks", LONG_STORES)
    with started(tmp_path / "ticks", write=lambda data: None) as guest:
        timeline = Timeline(guest)
        assert timeline.go(never) == Stop("ebreak", guest.pc) and guest.ticks > 200_000_000
        end = guest.pc
        assert timeline.back(2) and guest.pc == end - 8 and timeline.back(40) and guest.pc == end - 8 - 40 * 4


def test_watch_backwards_finds_recorded_changes(guest: Guest, random_stores: pathlib.Path) -> None:
    numbers, timeline = recorded_changes(random_stores, 0x11000), Timeline(guest)
    assert timeline.go(never) == Stop("ebreak", guest.pc) and len(numbers) > 20
    for number in numbers[:-6:-1]:
        timeline.watches = [Watch("watch", 0x11000, 4)]
        assert timeline.back_to_halt((), never) and timeline.hit and timeline.count() == number
        timeline.watches = []
        timeline.back()
    assert timeline.at(numbers[3] + 5)
    timeline.watches = [Watch("watch", 0x11000, 4)]
    assert timeline.back_to_halt((), never) and timeline.count() == numbers[3]


def test_watch_forwards_finds_recorded_changes(guest: Guest, random_stores: pathlib.Path) -> None:
    numbers, timeline = recorded_changes(random_stores, 0x11000), Timeline(guest)
    for number in numbers[:5]:
        timeline.watches = [Watch("watch", 0x11000, 4)]
        assert timeline.go(never) and timeline.hit and timeline.count() == number - 1
        timeline.watches = []
        timeline.step()


def test_number_of_states_is_bounded(guest: Guest, random_stores: pathlib.Path) -> None:
    timeline = Timeline(guest)
    timeline.run.saved = SavedStates(lambda: guest.session.rewound(b""), 5)
    assert timeline.go(never) == Stop("ebreak", guest.pc)
    length, states = timeline.count(), timeline.run.saved.states
    assert length > 30_000 and len(states) == 5
    places = [length // part for part in (9, 5, 3, 2)] + [length - 1500, length - 3]
    fresh = dict(zip(places, fresh_states(random_stores, places)))
    number = length
    for count in reversed(places):
        assert timeline.back(number - count) and shown(guest) == fresh[count] and len(timeline.run.saved.states) <= 5
        number = count


def test_equal_pages_are_saved_once(guest: Guest) -> None:
    timeline = Timeline(guest)
    assert timeline.go(never)
    first, *_, last = [state.snapshot.shown.memory for state in timeline.run.saved.states]
    assert [page for page in first if first[page] is not last[page]] == [0x11000]


def test_states_are_dense_near_the_last_one() -> None:
    """By hand: of a thousand places one apart, no gap is more than a tenth of its distance from the last one, or 2."""
    positions = list[int]()
    for position in range(1, 1001):
        positions.append(position)
        if len(positions) > MAX_STATES:
            del positions[sparsest(positions)]
    assert len(positions) == MAX_STATES and positions[-4:] == [997, 998, 999, 1000]
    for before, behind in zip([0, *positions], positions):
        assert behind - before <= max(2, (1000 - before) // 4)


def test_state_that_lines_leave_otherwise_is_not_used(
    guest: Guest, random_stores: pathlib.Path, monkeypatch: pytest.MonkeyPatch
) -> None:
    """Lines that clear x6, which is never 0."""
    lines = Snapshot.lines
    monkeypatch.setattr(Snapshot, "lines", lambda *words: [*lines(*words), "1 set x6 0"])
    timeline = Timeline(guest)
    assert timeline.go(never) == Stop("ebreak", guest.pc)
    length = timeline.count()
    (state,) = fresh_states(random_stores, [length - 3])
    assert timeline.back(3) and shown(guest) == state
    assert all(saved.lines() is None for saved in timeline.run.saved.states)


def test_back_over_too_many_instructions_is_refused(guest: Guest, monkeypatch: pytest.MonkeyPatch) -> None:
    timeline = Timeline(guest)
    assert timeline.go(never) == Stop("ebreak", guest.pc)
    before = shown(guest)
    monkeypatch.setattr(WholeScript, "limit", 2000)
    with pytest.raises(LabError, match="no way back over more than 1,000,000,000 instructions"):
        timeline.back(2001)
    assert shown(guest) == before and timeline.back(2000)


def test_interrupts_leave_the_state(guest: Guest, random_stores: pathlib.Path) -> None:
    """Whenever the interrupt comes, the guest stays where it is, and can go back afterwards."""
    timeline = Timeline(guest)
    assert timeline.go(never) == Stop("ebreak", guest.pc)
    before = shown(guest)
    for number in (0, 1, 3, 9):
        polls = iter(range(100))
        assert timeline.back(20_000, lambda: next(polls) >= number) is None and shown(guest) == before
        polls = iter(range(100))
        timeline.watches = [Watch("watch", 0x11020, 4)]  # never changed: each of 33 intervals is searched
        assert timeline.back_to_halt((), lambda: next(polls) >= number) is None and shown(guest) == before
        timeline.watches = []
    with pytest.raises(Interrupted):
        timeline.count(lambda: True)
    length = timeline.count()
    (state,) = fresh_states(random_stores, [length - 20_000])
    assert timeline.back(20_000) and shown(guest) == state


def test_progress_is_reported(guest: Guest, monkeypatch: pytest.MonkeyPatch) -> None:
    sentences = list[str]()
    timeline = Timeline(guest, lambda advance: sentences.append(advance.sentence))
    monkeypatch.setattr("vecmon_lab.replay.control.SECONDS", 1e9)
    assert timeline.go(never) and timeline.back() and not sentences  # this time hasn't passed
    monkeypatch.setattr("vecmon_lab.replay.control.SECONDS", 0.0)
    assert timeline.back(10_000)
    assert sentences and all(sentence.startswith("going back: ") for sentence in sentences)
    assert "; Ctrl-C ends it" in sentences[-1]
