"""The lengths that vset instructions may choose, by lines of a log."""

from vecmon_lab.open_choices.effects import commit_of
from vecmon_lab.open_choices.requests import LengthRequest, length_before, length_requests

VSET_BY_12 = "core   0: 0 0x0000000000010000 (0x0d0672d7) x5  0x0000000000000008 e32 m1 l8\n"
"""vsetvli x5, x12, e32, m1, ta, ma: VLMAX is 8."""

VSET_BY_5 = "core   0: 0 0x0000000000010004 (0x0ce2f357) x6  0x0000000000000004 e16 mf4 l4\n"
"""vsetvli x6, x5, e16, mf4, ta, ma: VLMAX is 4."""

ADD_6 = "core   0: 0 0x0000000000010008 (0x02840457) v8  0x" + "00" * 32 + " e32 m1 l6\n"
CSRR_6 = "core   0: 0 0x0000000000010008 (0xc2002573) x10 0x0000000000000006\n"


def requests(lines: list[str], avl: int) -> list[LengthRequest]:
    """The requests of a run that starts with an AVL in x12."""
    return [*length_requests(lines, [f"x12 {avl:x}", "v12 " + "00" * 32])]


def test_avl_between_vlmax_and_twice_it_is_open() -> None:
    assert requests([VSET_BY_12], 12) == [LengthRequest(1, 12, 8)]
    assert requests([VSET_BY_12], 15) == [LengthRequest(1, 15, 8)]
    assert requests([VSET_BY_12], 8) == requests([VSET_BY_12], 16) == []


def test_scalar_registers_are_followed() -> None:
    """addi x12, x0, 9 gives the AVL."""
    line = "core   0: 0 0x000000000000fffc (0x00900613) x12 0x0000000000000009\n"
    assert requests([line, VSET_BY_12], 0) == [LengthRequest(2, 9, 8)]


def test_immediate_is_the_avl() -> None:
    """vsetivli x5, 9, e32, m1, ta, ma."""
    line = "core   0: 0 0x0000000000010000 (0xcd04f2d7) x5  0x0000000000000008 e32 m1 l8\n"
    assert requests([line], 0) == [LengthRequest(1, 9, 8)]


def test_all_elements_are_no_request() -> None:
    """vsetvli x5, x0, e32, m1, ta, ma, and vsetvli x0, x0."""
    lines = [f"core   0: 0 0x0000000000010000 (0x{word}) e32 m1 l8\n" for word in ("0d0072d7", "0d007057")]
    assert requests(lines, 12) == []


def test_chosen_length_is_unknown_until_it_is_shown() -> None:
    assert requests([VSET_BY_12, VSET_BY_5], 12) == [LengthRequest(1, 12, 8), LengthRequest(2, None, 4)]
    assert requests([VSET_BY_12, ADD_6, VSET_BY_5], 12) == [LengthRequest(1, 12, 8), LengthRequest(3, 6, 4)]


def test_length_that_an_instruction_finds() -> None:
    found = [length_before(commit) for line in (VSET_BY_12, ADD_6, CSRR_6) if (commit := commit_of(line))]
    assert found == [None, 6, 6]
