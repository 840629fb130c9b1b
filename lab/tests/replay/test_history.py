"""A user's history: how many instructions a program has executed, and the state after each number of them."""

import pathlib
from collections.abc import Iterator

import pytest

from support.past_sequences import dense_states
from vecmon_lab.guest.guest import VECTOR_LOOKS
from vecmon_lab.machine.answers import ScalarRegisters
from vecmon_lab.machine.session import Session
from vecmon_lab.replay.control import never
from vecmon_lab.replay.histories import Histories, UserHistory
from vecmon_lab.replay.history import Halts, NoWayBack
from vecmon_lab.replay.own_lines import OwnLines
from vecmon_lab.replay.saved_states import SavedStates

SUM = ["addi x5, x5, 1", "bne x5, x6, -4", "ebreak"]  # two instructions for each addition, and one at its end
LOADS = [
    "vsetivli x0, 8, e32, m1, ta, ma",
    "vle32.v v1, (x7)",
    "addi x5, x5, 1",
    "jal x0, -8",
]  # 8 + 1 + 1 ticks a round
PRINTS = [
    "addi x17, x0, 64",
    "addi x10, x0, 1",
    "addi x12, x0, 5",
    "ecall",
    "addi x5, x5, 1",
    "bne x5, x6, -16",
    "ebreak",
]

ADDS = [*LOADS[:2], "vadd.vx v1, v1, x5", "vse32.v v1, (x7)", LOADS[2], "jal x0, -20"]
WRITES_CODE = [
    "lw x6, 0(x8)",
    "add x6, x6, x9",
    "sw x6, 0(x8)",
    "addi x10, x10, 1",
    "addi x5, x5, 0",  # at x8: its immediate is 1 more in each round
    "addi x0, x0, 0",
    "jal x0, -24",
]


class Played:
    """A machine whose lines a history of each user follows."""

    def __init__(self, program: pathlib.Path) -> None:
        self.session = Session(program)
        self.histories = Histories(100, lambda: Session(program))

    def do(self, *lines: str) -> None:
        """Execute lines, which aren't refused."""
        for line in lines:
            answer = self.session.do(line)
            assert " E" not in answer[0], (line, answer)
            self.histories.follow(line, answer)

    def load(self, digit: str, code: list[str], **registers: int) -> UserHistory:
        """Enter a program; return its history."""
        self.do(f"{digit} enter", f"{digit} map 10000 1 rwx", f"{digit} map 20000 1 rw")
        self.do(*(f"{digit} asm {0x10000 + 4 * place:x} {text}" for place, text in enumerate(code)))
        self.do(f"{digit} setpc 10000", *(f"{digit} set {name} {value:x}" for name, value in registers.items()))
        return self.histories.users[digit]

    def close(self) -> None:
        """End all machines."""
        self.histories.close()
        self.session.close()


@pytest.fixture
def played(program: pathlib.Path) -> Iterator[Played]:
    """A new machine."""
    played = Played(program)
    yield played
    played.close()


def x5(history: UserHistory, count: int) -> int:
    """The register x5 after a number of instructions."""
    instant = history.at(count, never)
    assert instant is not None
    return instant.guest.query("regs", ScalarRegisters).x[5]


def test_run_to_a_stop_is_counted(played: Played) -> None:
    history = played.load("1", SUM, x6=1000)
    played.do("1 go", "* slices 1000")
    assert (history.count(never), history.end) == (2000, 2000)
    assert [x5(history, count) for count in (-1, 1999, 1998, 1001, 1, 0)] == [1000, 1000, 999, 501, 1, 0]


def test_run_to_breakpoints_is_counted(played: Played) -> None:
    """The breakpoint is at the branch: before it there is one instruction, and then two each time. A step comes there by chance."""
    history = played.load("1", SUM, x6=1000)
    played.do("1 break 10004", "1 go", "* slices 9", "1 go", "* slices 9", "1 step 9", "1 unbreak 10004", "1 step 256")
    assert history.count(never) == 1 + 2 + 2 + 256
    assert [history.next_halt(count, Halts(frozenset([0x10000])), never) for count in (0, 1, 2, 260)] == [2, 2, 4, 261]


def test_search_does_not_pass_over_lines_that_write(played: Played) -> None:
    """Ten more rounds after 60 instructions: x5 is 30 and becomes 40, so that the EBREAK is next after 80 of 130 instructions."""
    history = played.load("1", SUM, x6=1000)
    played.do("1 step 60", "1 set x6 28", "1 go", "* slices 9", "1 setpc 10000", "1 step 50")
    assert history.count(never) == 130
    assert history.next_halt(0, Halts(frozenset([0x10008])), never) == 80
    assert [x5(history, count) for count in (70, 80)] == [35, 40]


def test_search_is_not_repeated_until_its_state_is_there(played: Played) -> None:
    """As a page asks, in parts of half a million instructions: the search takes two million, and so does the state before the halt.

    The halt is where a line of 256 steps ends, so the search ends there.
    """
    history = played.load("1", [*SUM[:2], "addi x7, x7, 1", "ebreak"], x6=1 << 20)
    played.do("1 go", *["* slices 1000"] * 21)
    assert history.count(never) == (1 << 21) + 1
    history.run.saved.states.clear()
    executed, halts, instant = history.run.executed, Halts(frozenset([0x10008])), None
    while not instant:
        parts = iter([False, False, False, True] * 2)
        count = history.next_halt(0, halts, lambda: next(parts))
        instant = history.at(count - 1, lambda: next(parts)) if count else None
    assert instant.count == (1 << 21) - 1 and history.run.executed - executed < 5_000_000


def test_user_history_finds_last_breakpoint(played: Played) -> None:
    """The branch is next after odd numbers of instructions, the addition after even ones, and the EBREAK is the present."""
    history = played.load("1", SUM, x6=5000)
    played.do("1 step 60", "1 set x7 1", "1 go", "* slices 1000")
    for address, count in ((0x10004, 9999), (0x10000, 9998)):
        found = history.last_halt(Halts(frozenset([address])), never)
        assert found and found.state and found.state.count == count and found.watch is None
    found = history.last_halt(Halts(frozenset([0x10008])), never)
    assert found and found.state is None
    played.do("1 setpc 10004", "1 step 1")
    found = history.last_halt(Halts(frozenset([0x10004])), never)
    assert found and found.state and found.state.count == 10_000


@pytest.mark.parametrize("slices", [3, 1000])
def test_pause_of_a_program_with_vector_loads_is_counted(played: Played, slices: int) -> None:
    """A round has three instructions and ten ticks, and one tick of the vsetivli is before them all.

    So the last round has nine ticks: those of its load, and of its addition.
    """
    history = played.load("1", LOADS, x7=0x20000)
    played.do("1 go", f"* slices {slices}", "1 stop")
    rounds, ticks = divmod(100 * slices - 1, 10)
    assert ticks == 9
    assert history.count(never) == 1 + 3 * rounds + 2
    assert x5(history, -1) == rounds and x5(history, 1 + 3 * rounds + 2) == rounds + 1


def test_full_output_buffer_stops_and_goes_on(played: Played) -> None:
    """204 calls write 1,020 bytes, the next one 4 of its 5, and the one after that stops; 300 rounds write 1,499 bytes."""
    history = played.load("1", PRINTS, x6=300, x11=0x20000)
    played.do("1 go", "* slices 99", "1 out", "1 go", "* slices 99", "1 out")
    assert history.count(never) == 1 + 5 * 300
    instant = history.at(1 + 5 * 204 + 3, never)
    assert instant is not None and len(instant.output) == 1024
    assert instant.guest.query("regs", ScalarRegisters).x[10] == 4
    instant = history.at(5 * 300, never)
    assert instant is not None and len(instant.output) == 1499


def test_other_programs_of_the_machine_do_not_count(played: Played) -> None:
    """Slices go round between two programs: of 7 one gets 4 and the other 3, as its turn comes second."""
    first, second = played.load("1", SUM, x6=100_000), played.load("2", SUM, x6=100_000)
    played.do("1 go", "2 go", "* slices 7", "1 stop", "* slices 2", "2 stop")
    assert (first.count(never), second.count(never)) == (400, 500)
    assert (x5(first, -1), x5(second, -1)) == (200, 250)


def test_pause_after_another_program_stopped_has_no_way_back(played: Played) -> None:
    """Nobody knows in which of the slices that was. A new machine has a way back again."""
    history = played.load("1", SUM, x6=100_000)
    played.load("2", SUM, x6=3)
    played.do("1 go", "2 go", "* slices 9", "1 stop")
    with pytest.raises(NoWayBack, match="can't be counted"):
        history.count(never)
    played.do("1 leave")
    played.load("1", SUM, x6=3)
    assert history.count(never) == 0


def test_replay_pauses_and_goes_on(played: Played) -> None:
    history = played.load("1", SUM, x6=400_000)
    played.do("1 go", *["* slices 1000"] * 8)
    parts = 0
    while (instant := history.at(-2, lambda: True)) is None:
        parts += 1
        assert 0 <= history.run.percent < 100
    assert instant.count == 799_998 and parts > 10
    assert history.run.executed > 800_000


def test_new_machine_begins_anew(played: Played) -> None:
    """Its state is step 0, and the instructions before belong to no history."""
    history = played.load("1", SUM, x6=3)
    played.do("1 step 4")
    assert history.count(never) == 4
    played.do("1 leave")
    played.load("1", SUM, x6=3)
    assert history.count(never) == 0
    instant = history.at(-5, never)
    assert instant is not None and instant.count == 0


def looks(session: Session) -> list[list[str]]:
    """All registers, the data, the code, and what may be mapped later."""
    places = ("peek 20000 64", "peek 10000 64", "peek 30ff0 32")
    return session.do_all([f"1 {look}" for look in ("regs", "vcsr", *places, *VECTOR_LOOKS)])


def test_long_way_starts_at_a_saved_state(played: Played) -> None:
    """The first way back executes the run; later ones, also from its start, at most what lies between two saved states."""
    history = played.load("1", SUM, x6=5_000_000)
    played.do("1 go", *["* slices 1000"] * 101)
    assert history.count(never) == 10_000_000 and x5(history, -1) == 5_000_000
    executed = history.run.executed
    assert x5(history, -4) == 4_999_998 and x5(history, 0) == 0 and x5(history, -6) == 4_999_997
    assert history.run.executed - executed < 200_000
    assert x5(history, 5_000_001) == 2_500_001
    assert history.run.executed - executed < 5_000_000


@pytest.mark.parametrize(
    "code,edits",
    [
        (ADDS, {60: ["1 set x5 1000", "1 vset v7 " + "12" * 32], 260: ["1 poke 20000 ff"]}),
        (
            WRITES_CODE,
            {60: ["1 map 30000 2 rw", "1 poke 30ff8 1234"], 260: ["1 asm 10014 addi x5, x5, 7", "1 policy ones"]},
        ),
    ],
)
def test_states_from_saved_ones_are_those_of_stepped_machines(
    program: pathlib.Path, played: Played, code: list[str], edits: dict[int, list[str]]
) -> None:
    """Lines write after 60 instructions, when states are saved already, and after 260."""
    with dense_states():
        history = played.load("1", code, x7=0x20000, x8=0x10010, x9=0x100000)
        history.run.saved = SavedStates(lambda: Session(program), 6)
        loaded = played.session.script.decode("ascii").splitlines()
        played.do("1 step 60")
        history.at(50, never)
        played.do(*edits[60], "1 step 200", *edits[260], "1 step 90", "1 break 10010")
        for count in (349, 348, 263, 200, 59, 349, 301, 260, 60, 120, 5):
            instant = history.at(count, never)
            with Session(program) as session:
                for line in loaded:
                    session.do(line)
                for number in range(count + 1):
                    session.do_all(edits.get(number, []))
                    session.do_all(["1 step 1"] * (number < count))
                assert instant is not None and looks(instant.guest.session) == looks(session), count
        assert 2 < len(history.run.saved.states) <= 6


def test_long_way_comes_to_its_end_among_short_ones(played: Played) -> None:
    """As by two windows of a seat: one goes back far, in parts of half a million instructions, and the other by steps at the start."""
    history = played.load("1", SUM, x6=1_500_000)
    played.do("1 go", *["* slices 1000"] * 31)
    assert history.count(never) == 3_000_000
    history.run.saved.states.clear()
    history.at(0, never)
    for number in range(20):
        parts = iter([False, False, False, True])
        if instant := history.at(2_900_001, lambda: next(parts)):
            break
        assert x5(history, number) == -(-number // 2)
    assert instant and instant.guest.query("regs", ScalarRegisters).x[5] == 1_450_001


def test_saved_states_have_the_output_before(played: Played) -> None:
    """As above, each full buffer has lost a byte: two of 3,000."""
    with dense_states():
        history = played.load("1", PRINTS, x6=600, x11=0x20000)
        for _ in range(3):
            played.do("1 go", "* slices 99", "1 out")
        assert history.count(never) == 1 + 5 * 600 and history.run.saved.states
        for calls, size in ((600, 2998), (410, 2048), (205, 1024), (520, 2598), (204, 1020), (1, 5), (411, 2053)):
            instant = history.at(1 + 5 * (calls - 1) + 3, never)
            assert instant is not None and len(instant.output) == size


def test_memory_of_saved_states_is_bounded(program: pathlib.Path, played: Played) -> None:
    """States share the page of code, and the page of data is another one in each: five pages are four states."""
    with dense_states():
        history = played.load("1", ["addi x5, x5, 1", "sw x5, 0(x7)", "jal x0, -8"], x7=0x20000)
        history.run.saved = SavedStates(lambda: Session(program), 10, max_bytes=5 * 4096)
        played.do("1 step 256", "1 step 256")
        assert x5(history, -3) == 170 and len(history.run.saved.states) == 4


def test_limit_of_a_way_back_is_one_of_instructions(played: Played, monkeypatch: pytest.MonkeyPatch) -> None:
    """As above, a round has three instructions and ten ticks: 1,000 ticks are more than 400, and 301 instructions aren't."""
    monkeypatch.setattr(OwnLines, "limit", 400)
    history = played.load("1", LOADS, x7=0x20000)
    played.do("1 go", "* slices 10", "1 stop")
    assert history.count(never) == 1 + 3 * 99 + 2
    played.do("1 go", "* slices 10", "1 stop")
    with pytest.raises(NoWayBack, match="more than 300,000,000 instructions"):
        history.count(never)
