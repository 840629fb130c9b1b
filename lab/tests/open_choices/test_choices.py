"""The choices of a run, as options of the recorder and of `run`."""

import argparse

import pytest

from vecmon_lab import LabError
from vecmon_lab.runs.choices import NOTHING, Choices, add_choices, choices_of


def test_options_name_what_is_restricted() -> None:
    assert NOTHING.options() == [] and Choices(3).options() == ["--open", "3"]
    choices = Choices(2, ("tail", "length"), 5, 9, 1, 1)
    assert " ".join(choices.options()) == "--open 2 --kinds tail,length --open-from 5 --open-to 9 --open-elements 1-1"
    assert Choices(2, first=5, last=4).options() == [] and Choices(2, low=2, high=1).options() == []


def parsed(*words: str) -> Choices:
    """The choices of command line arguments."""
    parser = argparse.ArgumentParser()
    add_choices(parser)
    return choices_of(parser.parse_args(words))


def test_options_are_read_as_written() -> None:
    choices = Choices(2, ("tail", "length"), 5, 9, 1, 3)
    assert parsed(*choices.options()) == choices
    assert parsed() == NOTHING and parsed("--open", "7") == Choices(7)


@pytest.mark.parametrize(
    "words",
    [
        "--open 1 --kinds tails",
        "--open x",
        "--open 1 --open-elements 3",
        "--open 1 --open-elements 3-256",
        f"--open {1 << 64}",
    ],
)
def test_unreadable_options_are_refused(words: str, capsys: pytest.CaptureFixture[str]) -> None:
    with pytest.raises(SystemExit):
        parsed(*words.split())
    assert "error: argument" in capsys.readouterr().err


@pytest.mark.parametrize(
    "words", ["--kinds tail", "--open-to 3", "--open 1 --open-from 3 --open-to 2", "--open 1 --open-elements 3-2"]
)
def test_options_that_choose_nothing_are_refused(words: str) -> None:
    with pytest.raises(LabError):
        parsed(*words.split())
