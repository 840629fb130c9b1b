"""The form of answers: each stored line is read, and printed as it was."""

import re
from collections import Counter
from collections.abc import Iterator

import pytest

from support.places import TOP
from support.printed import printed
from vecmon_lab.machine.answers import Granted, Stop, answers_by_user, read

PATTERN = re.compile(
    r"^[1-8] pc [0-9a-f]{16}\n(?:\d x\d.*\n){8}|^[1-8*] (?!\[|.*\.\. \(\d+ bytes\)$).+\n", re.MULTILINE
)


def stored_answers() -> Iterator[list[str]]:
    """The answers in the stored output of command lines, but for those that a page cuts; `regs` has nine lines."""
    for path in sorted((TOP / "tests" / "command_lines" / "expected").rglob("*")):
        if path.is_file():
            yield from (found[0].splitlines() for found in PATTERN.finditer(path.read_text("latin-1")))


def test_parsed_answers_print_unchanged() -> None:
    kinds = Counter[str]()
    for answer in stored_answers():
        parsed = read(answer)
        assert [f"{answer[0][0]} {part}" for part in printed(parsed).split("\n")] == answer
        kinds[type(parsed).__name__] += 1
    assert kinds.total() > 100_000 and len(kinds) == 16


def test_slice_stops_belong_to_their_users() -> None:
    answer = ["2 ebreak pc=0000000000010000", "1 exit 3 pc=0000000000020000", "* granted 5"]
    stops = (("2", Stop("ebreak", 0x10000)), ("1", Stop("exit", 0x20000, 3)))
    assert read(answer) == Granted(5, stops) and answers_by_user(answer) == [*stops, ("*", Granted(5, stops))]


@pytest.mark.parametrize(
    "line", ["", "1", "1 ", "1 dance", "1 loaded", "1 state pc=0", "1 x0 0", "* granted", "1 fault"]
)
def test_other_line_is_no_answer(line: str) -> None:
    with pytest.raises(ValueError):
        read([line])
