"""Going back: after each of many actions the state in sight is that of a machine that has executed as many instructions."""

import pathlib
from contextlib import nullcontext

import pytest

from support.past_sequences import EXERCISE, ClassPage, DeskPage, Page, PlaygroundPage, check, dense_states, found
from vecmon_lab.classes.core.moments import Budget
from vecmon_lab.classes.core.bad_request import BadRequest
from vecmon_lab.exercises.answer import settled
from vecmon_lab.exercises.exercise import Exercise, read_exercise
from vecmon_lab.replay.legs import Leg, Legs

SEQUENCES, ACTIONS = 20, 24  # of each kind of page
BEFORE = "li a0, 111\nebreak\n"
FAULTING = "li t0, 5\nli t1, 0x50000\nloop: addi t0, t0, -1\nbnez t0, loop\nsw t0, 0(t1)\nebreak\n"


@pytest.fixture(scope="module")
def exercises(program: pathlib.Path) -> dict[str, Exercise]:
    """An exercise to open."""
    return {EXERCISE: settled(program, read_exercise(pathlib.Path(EXERCISE)))}


@pytest.mark.parametrize("seed", range(0, 2 * SEQUENCES, 2))
def test_drawn_actions_at_a_seat(program: pathlib.Path, exercises: dict[str, Exercise], seed: int) -> None:
    with dense_states() if seed % 4 == 2 else nullcontext():
        page = DeskPage(program, exercises)
        check(page, program, seed, ACTIONS)
        page.close()


@pytest.mark.parametrize("seed", range(1, 2 * SEQUENCES, 2))
def test_drawn_actions_in_the_playground(
    program: pathlib.Path, exercises: dict[str, Exercise], tmp_path: pathlib.Path, seed: int
) -> None:
    with dense_states() if seed % 4 == 3 else nullcontext():
        page = PlaygroundPage(program, exercises, tmp_path)
        check(page, program, seed, ACTIONS)
        page.close()


@pytest.mark.parametrize("seed", range(6))
def test_drawn_actions_in_a_class(program: pathlib.Path, tmp_path: pathlib.Path, seed: int) -> None:
    with dense_states() if seed % 2 else nullcontext():
        page = ClassPage(program, tmp_path / "class")
        check(page, program, seed, ACTIONS)
        page.close()


@pytest.mark.parametrize("is_class", [False, True])
def test_history_that_goes_on_through_a_load_is_found(
    program: pathlib.Path,
    exercises: dict[str, Exercise],
    tmp_path: pathlib.Path,
    monkeypatch: pytest.MonkeyPatch,
    is_class: bool,
) -> None:
    """A planted error: the instructions of the program before count as those of the new one."""

    def restart(self: Legs, lines: list[str]) -> None:
        self.legs += [Leg([f"{self.digit} leave"] * bool(self.legs) + lines)] if lines else []
        self._breaks, self.is_running, self.written = frozenset(), False, 0

    monkeypatch.setattr(Legs, "_restart", restart)
    page: Page = DeskPage(program, exercises)
    if is_class:
        page.close()
        page = ClassPage(program, tmp_path / "class")
    with pytest.raises(AssertionError, match="seed 4, after"):
        check(page, program, 4, 30)
    page.close()


def test_back_after_a_run_is_one_instruction_back(program: pathlib.Path, exercises: dict[str, Exercise]) -> None:
    """By hand: ten instructions before the fault; the one before it left t0 = 0; step 0 is before `li t0, 5`."""
    page = DeskPage(program, exercises)
    page.ask(ask="source", text=BEFORE)
    page.ask(ask="step")
    page.ask(ask="run", text=FAULTING)
    assert page.view["condition"] == "Fault" and page.view["state"]["x"]["5"] == "0"
    moment = found(page, -1)["moment"]
    assert (moment["at"], moment["end"], moment["condition"]) == (11, 12, "Paused")
    assert "stop" not in moment["state"] and moment["state"]["x"]["10"] == "0"
    assert (moment["state"]["instruction"], moment["state"]["pc"]) == ("10008", "1000c")
    start = found(page, 0)["moment"]
    assert start["condition"] == "Ready" and "instruction" not in start["state"] and start["state"]["x"]["5"] == "0"
    page.close()


def test_history_of_a_case_begins_at_the_answer(program: pathlib.Path, exercises: dict[str, Exercise]) -> None:
    """The one instruction that sets vxrm for a case is none of the answer's, which has two: its first one is at 10000."""
    page = DeskPage(program, exercises)
    page.ask(ask="case", exercise=EXERCISE, text="addi a3, x0, 5\nret\n", case=0)
    assert page.view["condition"] == "Ready" and page.view["history"]["end"] == 0
    inputs = page.view["state"]["x"]
    page.ask(ask="step")
    start = found(page, 0)["moment"]
    assert (start["at"], start["end"], start["condition"]) == (0, 1, "Ready")
    assert start["state"]["pc"] == "10000" and start["state"]["x"] == inputs
    page.close()


def test_budget_is_used_up_and_fills_up_again() -> None:
    seconds = [0.0]
    budget = Budget(share=100, refill=10, now=lambda: seconds[0])
    budget.check()
    budget.spend(150)
    with pytest.raises(BadRequest, match="used up this seat's share of the processor: try again in 7 s"):
        budget.check()
    seconds[0] = 7.0
    budget.check()
