"""Compares, and sees that as much was compared as is stored."""

import pathlib

import pytest

from tests.isolation.comparison import GRAMMAR, HOSTILE_ROUNDS, eight_users
from tests.isolation.slicing import PROGRAMS, compare_program
from tests.program import built, difference

STORED = (pathlib.Path(__file__).parent / "stdout").read_text("ascii").splitlines(keepends=True)


@pytest.mark.parametrize("place, name", enumerate(PROGRAMS), ids=PROGRAMS)
def test_slice_length_does_not_change_output(place: int, name: str) -> None:
    assert compare_program(built(), GRAMMAR, name) == STORED[place]


def test_eight_users_equal_private_machines() -> None:
    shown = difference("".join(eight_users(built(), HOSTILE_ROUNDS)), "".join(STORED[len(PROGRAMS) :]))
    assert not shown, shown
