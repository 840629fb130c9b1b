"""Breakpoints stay at their lines when a source changes, also one of thousands of equal lines."""

from difflib import SequenceMatcher

import pytest

from vecmon_lab.assembler.source import read_source
from vecmon_lab.classes.core import moved_breakpoints as module
from vecmon_lab.classes.core.moved_breakpoints import MAX_EQUAL_PAIRS, moved_breakpoints


def moved(old: str, new: str, *addresses: int) -> list[int]:
    """The addresses of breakpoints of a source in a changed one."""
    return moved_breakpoints(addresses, read_source(old), old, read_source(new), new)


def test_breakpoints_follow_their_lines() -> None:
    """By hand: a line is inserted after the first one, another is deleted, and one is changed."""
    old, new = "nop\nli x5, 1\nli x6, 2\nli x7, 3\n", "nop\nli x8, 0\nli x5, 1\nli x7, 4\n"
    assert moved(old, new, 0x10000, 0x10004, 0x10008) == [0x10000, 0x10008]


def test_few_of_many_equal_lines_are_compared(monkeypatch: pytest.MonkeyPatch) -> None:
    """Equal lines at both ends aren't compared. Too many equal lines between two changes count as replaced."""

    class FewLines(SequenceMatcher[str]):
        def __init__(self, junk: None, before: list[str], after: list[str], autojunk: bool) -> None:
            assert sum(map(after.count, before)) <= MAX_EQUAL_PAIRS
            super().__init__(junk, before, after, autojunk)

    monkeypatch.setattr(module, "SequenceMatcher", FewLines)
    empty = "\n" * 5_000
    assert moved(f"nop\n{empty}ebreak\n", f"nop\nnop\n{empty}ebreak\n", 0x10000, 0x10004) == [0x10000, 0x10008]
    assert moved(f"nop\nli x5, 1\n{empty}ebreak\n", f"nop\n{empty}nop\nli x5, 2\n", 0x10000, 0x10008) == [
        0x10000,
        0x10008,
    ]
    assert moved(f"nop\nli x5, 1\n{empty}ebreak\n", f"nop\n{empty}li x5, 2\n", 0x10000, 0x10008) == [0x10000]
