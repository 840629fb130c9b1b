"""The search for choices that matter, over oracles whose answers are written down here."""

from collections.abc import Callable, Hashable, Sequence

from vecmon_lab.open_choices.search import VARIATIONS, Reliance, first_reliance, halve, search
from vecmon_lab.runs.choices import KINDS, NOTHING, Choices

TAIL = VARIATIONS[0]
LENGTH = 100


def makes(choices: Choices, kind: str, instruction: int, element: int = 0) -> bool:
    """Return whether a run makes a choice of a kind at an instruction and element: each seed makes all of them."""
    return (
        bool(choices.options())
        and kind in choices.kinds
        and choices.first <= instruction <= choices.last
        and choices.low <= element <= choices.high
    )


class Runs:
    """An oracle: runs of 100 instructions, of which instruction N is at the address N, or at one of a loop."""

    def __init__(
        self, end: Callable[[Choices], Hashable], loop: int = LENGTH, requests: Sequence[tuple[int, int]] = ()
    ) -> None:
        self._end, self._loop, self._requests = end, loop, requests
        self.asked = 0

    def end(self, choices: Choices) -> Hashable:
        self.asked += 1
        return self._end(choices)

    def instructions(self, choices: Choices) -> int:
        return LENGTH

    def place(self, choices: Choices, instruction: int) -> Hashable:
        return instruction % self._loop

    def requests(self, choices: Choices) -> Sequence[tuple[int, int]]:
        return self._requests


def test_halve_finds_change() -> None:
    assert halve(0, 100, lambda number: number >= 37) == 37
    assert halve(0, 1, lambda number: True) == 1
    assert halve(0, 100, lambda number: number in (20, 21, 100)) == 100  # a number whose predecessor doesn't hold


def test_one_element_of_one_instruction_is_found() -> None:
    runs = Runs(lambda choices: makes(choices, "tail", 42, 5))
    (found,) = search(runs, [1, 2])
    alone = Choices(1, ("tail",), 42, 42, 5, 5)
    assert found == Reliance("tail", NOTHING, alone, 42, (5, 5))


def test_same_runs_take_a_run_for_each_seed() -> None:
    runs = Runs(lambda choices: "exit 0")
    assert [*search(runs, range(1, 9))] == []
    assert runs.asked <= 16  # two questions a seed, of which one is the run without choices


def test_elements_that_matter_together() -> None:
    runs = Runs(lambda choices: makes(choices, "masked", 9, 3) and makes(choices, "masked", 9, 6))
    (found,) = search(runs, [1])
    assert (found.kind, found.instruction, found.elements) == ("masked", 9, (3, 6))


def test_choices_of_two_instructions_together() -> None:
    """The choice at 60 makes a difference only after that at 20."""
    runs = Runs(lambda choices: makes(choices, "tail", 20) and makes(choices, "tail", 60))
    found = first_reliance(runs, TAIL, 1)
    assert found is not None
    assert (found.instruction, found.together_from, found.elements) == (60, 20, None)
    assert runs.end(found.with_choice) != runs.end(found.without)
    assert (found.with_choice.first, found.with_choice.last) == (20, 60)
    assert (found.without.first, found.without.last) == (20, 59)


def test_several_reliances_are_found_one_after_another() -> None:
    def end(choices: Choices) -> Hashable:
        return makes(choices, "tail", 10), makes(choices, "tail", 30), makes(choices, "masked", 20)

    assert [(each.kind, each.instruction) for each in search(Runs(end), [1])] == [
        ("tail", 10),
        ("tail", 30),
        ("masked", 20),
    ]


def test_loop_is_reported_once_and_left() -> None:
    """Instruction 3 of each round of 10 matters, and instruction 95."""

    def end(choices: Choices) -> Hashable:
        return tuple(makes(choices, "tail", 10 * at + 3) for at in range(9)), makes(choices, "tail", 95)

    found = [each.instruction for each in search(Runs(end, loop=10), [1])]
    assert found == [3, 95]


def test_length_is_chosen_in_the_whole_range_of_its_request() -> None:
    """Requests are made from 5 to 50 and at 70; the second matters."""
    runs = Runs(lambda choices: makes(choices, "length", 70), requests=[(5, 50), (70, 70)])
    (found,) = search(runs, [1])
    assert (found.instruction, found.with_choice.first, found.with_choice.last) == (70, 70, 70)


def test_lengths_between_each_other_are_chosen_together() -> None:
    runs = Runs(lambda choices: makes(choices, "length", 70), requests=[(5, 90), (70, 80)])
    (found,) = search(runs, [1])
    assert found.instruction == 70 or (found.with_choice.first, found.with_choice.last) == (1, NOTHING.last)


def test_kinds_that_matter_only_together() -> None:
    runs = Runs(lambda choices: makes(choices, "tail", 4) and makes(choices, "masked", 8))
    (found,) = search(runs, [1])
    assert (found.kind, found.instruction, found.with_choice.kinds) == ("several", 8, KINDS)


def test_other_kinds_are_not_tried() -> None:
    runs = Runs(lambda choices: makes(choices, "tail", 4))
    assert [*search(runs, [1, 2], ["masked"])] == []
