"""Where parts of functions are entered, by the listing that `objdump -d` makes of the same images, and by words from it."""

import pathlib

import pytest
from elftools.elf.elffile import ELFFile

from support.places import PREFIX_SUMS, TOTAL
from vecmon_lab.guest.jumps import Code, jump_target


def code_of(path: pathlib.Path) -> Code:
    """The code of an image."""
    with path.open("rb") as file:
        return Code(ELFFile(file))


def test_rotated_loop_has_one_entry() -> None:
    """11330 jumps over the end of the loop to its begin, 11354; 11370 and 11374 jump within it, and 11350 out of it."""
    code, main = code_of(PREFIX_SUMS[1]), [(0x11284, 0x113F8)]
    assert code.word(0x11330) == 0x0240006F and code.word(0x113F8 + 0x10000) == 0
    assert code.entries([(0x11334, 0x11378)], main) == [0x11354]
    assert code.entries([(0x1138C, 0x113CC)], main) == [0x1138C], "behind a call"
    assert code.entries([(0x11284, 0x11290)], main) == [0x11284], "with the function"


def test_gap_is_no_entry() -> None:
    code, main = code_of(TOTAL[1]), [(0x10120, 0x101DC)]
    assert code.entries([(0x1018C, 0x10194), (0x10198, 0x101A0)], main) == [0x1018C]
    assert code.entries([(0x10190, 0x10194)], main) == [0x10190], "also from 1019c, backwards"
    assert code.entries([(0x101DC, 0x10210)], main) == [], "another function"
    assert code.entries([(1 << 60, 1 << 61)], [(0x101DC, 1 << 62)]) == [], "where there is no code, no path goes on"


@pytest.mark.parametrize("version", [0, 1])
def test_branch_targets_are_entries(version: int) -> None:
    """bltu at 1135c goes back to 11334, bgeu at 11370 to 11364, beqz at 11350 on to 11378."""
    code, main = code_of(PREFIX_SUMS[version]), [(0x11284, 0x113F8)]
    assert code.entries([(0x11334, 0x11338)], main) == [0x11334]
    assert code.entries([(0x11364, 0x11368)], main) == [0x11364] and code.entries([(0x11378, 0x1137C)], main) == [
        0x11378
    ]


@pytest.mark.parametrize(
    "word, target",
    [
        (0xFE0318E3, 0x0FFF0),  # bnez t1, -16
        (0x0080006F, 0x10008),  # j 8
        (0xFFDFF0EF, 0x0FFFC),  # jal -4
        (0x00008067, None),  # ret
        (0x00128293, None),  # addi t0, t0, 1
    ],
)
def test_target_of_branch_and_jump(word: int, target: int | None) -> None:
    """The distances are those of `objdump`."""
    assert jump_target(0x10000, word) == target
