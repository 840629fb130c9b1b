"""One history over two runs, of a guest by itself and of a user among others: equal states, compared with those counted by hand."""

import pathlib
from collections.abc import Iterator

import pytest

from support.images import make_image
from support.sources import COUNTDOWN
from vecmon_lab.guest.guest import Guest, started
from vecmon_lab.machine.answers import ScalarRegisters
from vecmon_lab.machine.session import Session
from vecmon_lab.replay.control import never
from vecmon_lab.replay.histories import Histories
from vecmon_lab.replay.history import Halts, History, NoWayBack
from vecmon_lab.replay.own_lines import Instant
from vecmon_lab.replay.watches import Watch
from vecmon_lab.replay.whole_script import Replay, WholeScript

LENGTH = 16  # an instruction, three rounds of five, whose third one stores x5, and an EBREAK, which doesn't retire
ROUNDS = Halts(frozenset([0x10004]))
STORES = Halts(watches=(Watch("watch", 0x11008, 4),))

Either = History[Instant] | History[Replay]


@pytest.fixture(scope="module")
def image(program: pathlib.Path, tmp_path_factory: pytest.TempPathFactory) -> pathlib.Path:
    """The image of three rounds that store 3, 2 and 1."""
    path = tmp_path_factory.mktemp("runs") / "image"
    make_image(program, path, COUNTDOWN)
    return path


@pytest.fixture(scope="module")
def user_history(program: pathlib.Path, image: pathlib.Path) -> Iterator[History[Instant]]:
    """The history of a user whose program has ended, while another user is there."""
    with Session(program, {"image": image}) as session:
        histories = Histories(session.quantum, lambda: session.rewound(b""))
        for line in ("2 enter", "1 enter", "1 load image", "1 go", "* slices 9"):
            histories.follow(line, session.do(line))
        yield histories.users["1"]
        histories.close()


@pytest.fixture(scope="module")
def guest_run(image: pathlib.Path) -> Iterator[WholeScript]:
    """The run of a guest whose program has ended."""
    with started(image, write=lambda data: None) as guest:
        run = WholeScript(guest)
        guest.go()
        yield run


@pytest.fixture(params=["user", "guest"])
def history(request: pytest.FixtureRequest, user_history: History[Instant], guest_run: WholeScript) -> Either:
    """The history of either."""
    guest_history: History[Replay] = History(guest_run)
    return user_history if request.param == "user" else guest_history


def state(found: Instant | Replay | None) -> tuple[int, int, int, int]:
    """The program counter, x5, x6, and what is stored; the state is given up then."""
    assert found is not None
    guest: Guest = found.guest
    registers = guest.query("regs", ScalarRegisters)
    seen = registers.pc, registers.x[5], registers.x[6], int.from_bytes(guest.peek(0x11008, 4), "little")
    if isinstance(found, Replay):
        found.close()
    return seen


def test_states_by_their_numbers(history: Either) -> None:
    assert history.count(never) == history.end == LENGTH
    assert state(history.at(-1, never)) == (0x10014, 0, 3, 1)
    assert state(history.at(11, never)) == state(history.at(-5, never)) == (0x10004, 1, 2, 2)
    assert state(history.at(0, never)) == state(history.at(-99, never)) == (0x10000, 0, 0, 0)
    assert state(history.at(99, never)) == (0x10018, 0, 3, 1)


def test_breakpoints_forwards_and_backwards(history: Either) -> None:
    assert [history.next_halt(count, ROUNDS, never) for count in (0, 1, 6, 11)] == [1, 6, 11, LENGTH]
    found = history.last_halt(ROUNDS, never)
    assert found and state(found.state) == (0x10004, 1, 2, 2) and found.watch is None
    found = history.last_halt(Halts(frozenset([0x10018])), never)  # where the program is
    assert found and found.state is None


def test_call_that_is_due_goes_on_or_is_dropped(history: Either) -> None:
    parts = 0
    while (found := history.at(-2, lambda: True)) is None:
        parts += 1
    assert parts > 0 and state(found) == (0x10010, 1, 3, 1)
    assert history.at(-3, lambda: True) is None
    history.cancel()
    assert state(history.at(-4, never)) == (0x10008, 1, 3, 2)


def test_watched_places_of_a_guest(guest_run: WholeScript) -> None:
    """The stores are the 4th, 9th and 14th instruction: forwards the program halts before one, and backwards after it."""
    history = History(guest_run)
    assert [history.next_halt(count, STORES, never) for count in (0, 3, 8, 13)] == [3, 8, 13, LENGTH]
    found = history.last_halt(STORES, never)
    assert found and found.watch == STORES.watches[0] and state(found.state) == (0x10010, 1, 3, 1)


def test_watched_places_need_the_recorder(user_history: History[Instant]) -> None:
    with pytest.raises(NoWayBack, match="found by the recorder"):
        user_history.last_halt(STORES, never)
    assert state(user_history.at(11, never)) == (0x10004, 1, 2, 2)
