"""Compares pages and command lines with what is stored, and runs of the same program with one another."""

import pytest

from tests.command_lines.pages import ALL_TEMPLATES, page
from tests.command_lines.stored import LINES, record, stored
from tests.command_lines.words import by_names_and_words, has_names
from tests.program import built, difference, lines_of

STORED = stored()

SAME_TICKS = [
    ('["--quantum", "1", "twelve_slices"]', '["--quantum", "12", "one_slice"]'),
    ('["--quantum", "4", "three_slices"]', '["--quantum", "12", "one_slice"]'),
    ('["--quantum", "4", "own_word_behind_a_fault"]', '["--quantum", "12", "own_word_behind_a_fault"]'),
]
"""Command lines that grant a program the same ticks, in slices of other lengths."""


@pytest.mark.parametrize("name", ALL_TEMPLATES)
def test_page_equals_stored_page(name: str) -> None:
    shown = difference(page(built(), ALL_TEMPLATES[name]), STORED.pages[name])
    assert not shown, shown


@pytest.mark.parametrize("line", LINES)
def test_command_line_equals_stored_record(line: str) -> None:
    shown = difference(record(built(), line), STORED.records[line])
    assert not shown, shown


@pytest.mark.parametrize("line, other", SAME_TICKS)
def test_equal_ticks_in_other_slices_print_same_output(line: str, other: str) -> None:
    """However its ticks are divided, a user's lines are the same."""
    reply, expected = ([it for it in lines_of(record(built(), each)) if it.startswith("1 ")] for each in (line, other))
    assert reply == expected


@pytest.mark.parametrize("line", [it for it in LINES if has_names(it)])
def test_poked_words_equal_instructions_by_name(line: str) -> None:
    """An instruction that is poked by its word does what it does by name."""
    poked, named = by_names_and_words(built(), line)
    assert poked == named
