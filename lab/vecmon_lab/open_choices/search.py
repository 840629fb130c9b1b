"""The search for the choices that matter, by bisection over an oracle that says how runs with choices end."""

from collections.abc import Callable, Hashable, Iterator, Sequence
from dataclasses import dataclass, replace
from typing import Protocol

from ..runs.choices import KINDS, NOTHING, Choices

ELEMENTS = 256
"""Elements of the largest destination: 256 bytes."""

MAX_ROUNDS = 16
"""Bisections for one kind of choice."""


class Oracle(Protocol):
    """A program, as the search asks it."""

    def end(self, choices: Choices) -> Hashable:
        """How a run ends: two runs with equal values end alike."""

    def instructions(self, choices: Choices) -> int:
        """The number of instructions of a run, or of one that is longer."""

    def place(self, choices: Choices, instruction: int) -> Hashable:
        """The address of an instruction, by its number in a run."""

    def requests(self, choices: Choices) -> Sequence[tuple[int, int]]:
        """Where a run chooses lengths: of each pair of AVL and VLMAX the first and the last instruction, in the order of the first."""


@dataclass(frozen=True)
class Variation:
    """A name for the reports, and the kinds of choices that only one of two runs makes."""

    kind: str
    kinds: tuple[str, ...]

    def pair(self, choices: Choices) -> tuple[Choices, Choices]:
        """Return the choices of the two runs: none, and those of these kinds."""
        return NOTHING, replace(choices, kinds=self.kinds)


VARIATIONS = [Variation(kind, (kind,)) for kind in KINDS]


SEVERAL = Variation("several", KINDS)
"""All kinds at once, where none makes a difference alone."""

WHOLE_RUN = ("length",)
"""Kinds that an instruction can't choose alone: equal requests get equal lengths in the whole run."""

WHOLE_INSTRUCTION = ("trim", "length")
"""Kinds that have no elements."""


@dataclass(frozen=True)
class Reliance:
    """Two runs that the standard allows, which differ in the choices of one instruction and end differently.

    without, with_choice: the choices of the two runs
    instruction: the number of the instruction in both runs
    elements: the first and the last element whose choices matter; None if the kind has none, or they weren't found
    together_from: the number of the first instruction whose choices are needed as well; None if these choices suffice
    """

    kind: str
    without: Choices
    with_choice: Choices
    instruction: int
    elements: tuple[int, int] | None = None
    together_from: int | None = None


def halve(low: int, high: int, holds: Callable[[int], bool]) -> int:
    """Return a number for which a condition holds, though it doesn't for the number before.

    low: a number for which it doesn't hold; high: one for which it does. Other numbers between may have either.
    """
    while high - low > 1:
        middle = (low + high) // 2
        if holds(middle):
            high = middle
        else:
            low = middle
    return high


def search(oracle: Oracle, seeds: Sequence[int], kinds: Sequence[str] = KINDS) -> Iterator[Reliance]:
    """Find the reliances of a program one after another, each at another instruction; none if all runs end alike."""
    every = Choices(kinds=tuple(kinds))
    differing = [seed for seed in seeds if oracle.end(replace(every, seed=seed)) != oracle.end(NOTHING)]
    places = set[tuple[str, Hashable]]()
    for variation in VARIATIONS if differing else ():
        if {*variation.kinds} <= {*kinds}:
            for found in _of_variation(oracle, variation, seeds):
                place = found.kind, oracle.place(found.without, found.instruction)
                if place not in places:
                    yield found
                places.add(place)
    if differing and not places:
        variation = replace(SEVERAL, kinds=tuple(kinds))
        yield from _of_variation(oracle, variation, differing)


def _of_variation(oracle: Oracle, variation: Variation, seeds: Sequence[int]) -> Iterator[Reliance]:
    """Find the reliances on one kind of choice. A later seed is searched only if its runs end as none before."""
    places, ends, rounds = set[Hashable](), set[Hashable](), 0
    for seed in seeds:
        without, with_choice = variation.pair(Choices(seed))
        if oracle.end(with_choice) in ends | {oracle.end(without)}:
            continue
        ends.add(oracle.end(with_choice))
        first, step = 1, 1
        while rounds < MAX_ROUNDS and (found := first_reliance(oracle, variation, seed, first)):
            place = oracle.place(found.without, found.instruction)
            if place in places:
                step *= 2
            else:
                places.add(place)
                step = 1
                yield with_elements(oracle, variation, found)
            rounds += 1
            first = found.instruction + step
            if variation.kind in WHOLE_RUN:
                break


def first_reliance(oracle: Oracle, variation: Variation, seed: int, first: int = 1) -> Reliance | None:
    """Return a reliance on the choices of a seed from an instruction on, without its elements; None if both runs end alike."""
    choices = Choices(seed, first=first)
    if not _differs(oracle, variation, choices):
        return None
    if variation.kind in WHOLE_RUN:
        return _length(oracle, variation, choices)
    longest = max(oracle.instructions(each) for each in variation.pair(choices))
    number = halve(first - 1, longest + 2, lambda last: _differs(oracle, variation, replace(choices, last=last)))
    alone = replace(choices, first=number, last=number)
    if not _differs(oracle, variation, alone):
        return _together(oracle, variation, replace(choices, last=number))
    return Reliance(variation.kind, *variation.pair(alone), number)


def _differs(oracle: Oracle, variation: Variation, choices: Choices) -> bool:
    """Return whether the two runs of a variation end differently."""
    without, with_choice = variation.pair(choices)
    return bool(with_choice.options()) and oracle.end(without) != oracle.end(with_choice)


def _length(oracle: Oracle, variation: Variation, choices: Choices) -> Reliance:
    """Return a reliance on a length: on that of one request, if this suffices. Equal requests get equal lengths in the whole run."""
    requests = oracle.requests(variation.pair(choices)[1])
    for first, last in requests:
        alone = replace(choices, first=first, last=last)
        if sum(first <= other <= last for other, _ in requests) == 1 and _differs(oracle, variation, alone):
            return Reliance(variation.kind, *variation.pair(alone), first)
    return Reliance(variation.kind, *variation.pair(choices), requests[0][0] if requests else 0)


def _together(oracle: Oracle, variation: Variation, choices: Choices) -> Reliance:
    """Return a reliance on choices of the last instruction that need those of others before it."""
    number = choices.last

    def pair(first: int) -> tuple[Choices, Choices]:
        other = replace(choices, first=first, kinds=variation.kinds)
        return replace(other, last=number - 1), other

    def matters(first: int) -> bool:
        without, with_choice = pair(first)
        return oracle.end(without) != oracle.end(with_choice)

    first = number - halve(0, number - choices.first, lambda back: matters(number - back))
    without, with_choice = pair(first)
    return Reliance(variation.kind, without, with_choice, number, None, first)


def with_elements(oracle: Oracle, variation: Variation, found: Reliance) -> Reliance:
    """Return the same reliance with fewer elements, if its kind has elements: with one if one suffices."""

    def differs(low: int, high: int) -> bool:
        return _differs(oracle, variation, replace(found.with_choice, low=low, high=high))

    if variation.kind in WHOLE_INSTRUCTION or found.together_from is not None or not differs(0, ELEMENTS - 1):
        return found
    high = halve(-1, ELEMENTS - 1, lambda last: differs(0, last))
    low = high if differs(high, high) else high - halve(0, high, lambda back: differs(high - back, high))
    without, with_choice = variation.pair(replace(found.with_choice, low=low, high=high))
    return replace(found, without=without, with_choice=with_choice, elements=(low, high))
