"""The state of seats after the lines that a server replays when it starts."""

from collections.abc import Mapping, Sequence

import pytest

from support.class_tabs import LOOP
from vecmon_lab.classes.core.history import History
from vecmon_lab.classes.core.seat_log import LOG_ENTRIES
from vecmon_lab.classes.core.seats import Seats
from vecmon_lab.machine.session import Session

SCRIPT = [f"{digit} {line}" for digit in "12" for line in LOOP] + ["2 break 10004", "2 go", "* slices 4", "* run 2"]
STEPS = 2 * LOG_ENTRIES


def seats_after(
    session: Session, blocks: Sequence[Sequence[str]], set_up: int = 0, stops: Mapping[str, str] = {}
) -> Seats:
    """Seats after these lines, block by block."""
    history, seats = History(set_up, stops), Seats("A")
    for block in blocks:
        for lines, answers in session.do_blocks("".join(f"{line}\n" for line in block).encode()):
            history.add(lines, answers)
    history.restore(seats, session)
    return seats


@pytest.mark.parametrize("size", [1, 7, 5000])
def test_history_restores_seats_from_blocks(session: Session, size: int) -> None:
    """Of one seat the last steps, and of a silent one all, however the lines come."""
    lines = SCRIPT + ["1 step 1"] * STEPS + ["1 out "]
    seats = seats_after(session, [lines[at : at + size] for at in range(0, len(lines), size)])
    one, two = seats.users["1"], seats.users["2"]
    pairs = [[">1 step 1", f"<1 stepped 1 pc=00000000000{place}"] for place in ("10004", "10000")]
    assert list(one.log.entries) == (LOG_ENTRIES // 4) * [entry for pair in pairs for entry in pair]
    assert list(two.log.entries)[-5:-1] == [">2 break 10004", "<2 ok", ">2 go", "<2 running pc=0000000000010000"]
    assert (
        two.log.entries[-1].startswith("*2 break pc=0000000000010004")
        and two.execution.stop == "break pc=0000000000010004"
    )
    assert (one.display.watch_set.breaks, two.display.watch_set.breaks) == (set(), {0x10004})
    assert one.used == sum(len(line) + 1 for line in lines if line[0] == "1" and line != "1 out ")
    assert two.used == sum(len(line) + 1 for line in lines if line[0] == "2") + len("* run 2\n")


def test_history_hides_set_up_lines(session: Session) -> None:
    """Nobody receives them, and no share is charged for them; seats know by them what is watched."""
    seats = seats_after(session, [SCRIPT], set_up=len(SCRIPT) - 3)
    two = seats.users["2"]
    assert list(two.log.entries)[:2] == [
        ">2 go",
        "<2 running pc=0000000000010000",
    ] and two.display.watch_set.breaks == {0x10004}
    assert two.used == len("2 go\n") + len("* run 2\n") and seats.users["1"].used == 0


@pytest.mark.parametrize("line, condition", [("break 0", "Ended"), ("set x5 1", "Paused"), ("enter", "Ready")])
def test_stop_before_set_up_lasts_until_change(session: Session, line: str, condition: str) -> None:
    """The lines that set the machine up don't include the run that ended the program."""
    set_up = ["1 enter", "1 map 0 1 rx", "1 asm 0 ebreak", "1 setpc 0", "1 step 1"]
    lines = ["1 leave"] * (line == "enter") + [f"1 {line}"]
    seats = seats_after(session, [set_up + lines], len(set_up), {"1": "ebreak pc=0000000000000000"})
    assert seats.users["1"].condition == condition
