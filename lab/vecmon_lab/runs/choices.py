"""The choices that a run makes where the standard leaves results open, and the recorder's options for them."""

import argparse
import re
from dataclasses import dataclass

from .. import LabError
from ..arguments import between

KINDS = ("tail", "masked", "trim", "length")
"""Kinds of choices: tail elements and masked-off elements of operations, a trimmed vl of a fault-only-first load, and the vl of
a vset instruction."""

LAST = 1 << 63
"""The highest number of an instruction."""

LAST_ELEMENT = 255
"""The highest number of an element."""


@dataclass(frozen=True)
class Choices:
    """The choices of a run: those that a seed makes, of some kinds, at some instructions and elements.

    seed: 0 makes none; 1 makes all of the tail and of masked-off elements; 2 n makes those that 2 n + 1 doesn't
    first, last: the numbers of the first and the last instruction with choices, counted from 1
    low, high: the first and the last element with choices
    """

    seed: int = 0
    kinds: tuple[str, ...] = KINDS
    first: int = 1
    last: int = LAST
    low: int = 0
    high: int = LAST_ELEMENT

    def options(self) -> list[str]:
        """Return the options of the recorder, and of `run`; none if nothing is chosen."""
        if not self.seed or not self.kinds or self.first > self.last or self.low > self.high:
            return []
        options = ["--open", f"{self.seed}"]
        options += ["--kinds", ",".join(self.kinds)] if self.kinds != KINDS else []
        options += ["--open-from", f"{self.first}"] if self.first > 1 else []
        options += ["--open-to", f"{self.last}"] if self.last < LAST else []
        all_elements = self.low == 0 and self.high == LAST_ELEMENT
        return options + ([] if all_elements else ["--open-elements", f"{self.low}-{self.high}"])


NOTHING = Choices()
"""No choice: elements are undisturbed, and vl is as long as can be."""


def add_choices(parser: argparse.ArgumentParser) -> None:
    """Add the options that make choices; `choices_of` reads them."""
    parser.add_argument(
        "--open", dest="seed", metavar="SEED", type=between(0, (1 << 64) - 1), help="make open choices by SEED; 0: none"
    )
    parser.add_argument("--kinds", metavar="KIND,...", type=_kinds, help=f"of these kinds only: {', '.join(KINDS)}")
    number = between(1, LAST)
    parser.add_argument("--open-from", metavar="N", type=number, help="the first instruction with choices")
    parser.add_argument("--open-to", metavar="N", type=number, help="the last instruction with choices")
    parser.add_argument("--open-elements", metavar="A-B", type=_elements, help="the elements with choices")


def choices_of(arguments: argparse.Namespace) -> Choices:
    """Return the choices that options ask for. Raises LabError for options without a seed, and for an empty range."""
    asked = (arguments.kinds, arguments.open_from, arguments.open_to, arguments.open_elements)
    if arguments.seed is None:
        if any(each is not None for each in asked):
            raise LabError("--kinds, --open-from, --open-to and --open-elements need --open SEED")
        return NOTHING
    low, high = arguments.open_elements or (0, LAST_ELEMENT)
    choices = Choices(
        arguments.seed, arguments.kinds or KINDS, arguments.open_from or 1, arguments.open_to or LAST, low, high
    )
    if choices.first > choices.last or low > high:
        raise LabError("the first instruction or element with choices is after the last one")
    return choices


def _kinds(word: str) -> tuple[str, ...]:
    """Return the kinds of an argument, in the order of KINDS."""
    names = word.split(",")
    if unknown := [name for name in names if name not in KINDS]:
        raise argparse.ArgumentTypeError(f"{unknown[0]!r} is no kind of choice; kinds are {', '.join(KINDS)}")
    return tuple(kind for kind in KINDS if kind in names)


def _elements(word: str) -> tuple[int, int]:
    """Return the first and the last element of an argument."""
    found = re.fullmatch("([0-9]{1,3})-([0-9]{1,3})", word)
    if found is None or int(found[2]) > LAST_ELEMENT:
        raise argparse.ArgumentTypeError(f"{word!r} is no range of elements from 0 to {LAST_ELEMENT}; 3-3 is")
    return int(found[1]), int(found[2])
