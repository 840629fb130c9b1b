"""Calls with more bytes than they write: reported once, unless the program goes on with the rest."""

import pathlib

import pytest

from support.commands import Lab
from support.images import make_image
from support.sources import EXIT

WRITES = f"""
# Writes COUNT bytes from its first instruction on, and then COUNT bytes from STEP after that on.
        lui s1, 0x10
        li s0, 2
next:   li a0, 1
        mv a1, s1
        li a2, COUNT
        li a7, 64
        ecall
        add s1, s1, STEP
        addi s0, s0, -1
        bnez s0, next
        li a0, 0
        {EXIT}
        .zero 800
"""


@pytest.mark.parametrize(
    "count, step, is_reported",
    [
        (256, "zero", False),  # all that is given is written
        (255, "zero", False),
        (257, "zero", True),
        (300, "a0", False),  # the second call goes on behind what the first one wrote
        (300, "a2", True),
    ],
)
def test_short_write_is_reported(
    lab: Lab, program: pathlib.Path, tmp_path: pathlib.Path, count: int, step: str, is_reported: bool
) -> None:
    image = tmp_path / "writes"
    make_image(program, image, WRITES.replace("COUNT", str(count)).replace("STEP", step))
    status, output, errors = lab("run", image)
    assert (status, len(output)) == (0, 2 * min(256, count))
    line = f"the call was given {count} bytes and wrote 256, the most that one writes: a0 has how many"
    assert errors == (f"vecmon-lab: {image}: 10018: {line}\n" if is_reported else "")


def test_last_call_is_checked(lab: Lab, program: pathlib.Path, tmp_path: pathlib.Path) -> None:
    """Reported if no other call follows, next to the cause of the stop."""
    source = "li a0, 1\nlui a1, 0x10\nli a2, 500\nli a7, 64\necall\nebreak\n.zero 800"
    make_image(program, tmp_path / "writes", source)
    status, output, errors = lab("run", tmp_path / "writes")
    lines = errors.splitlines()
    assert (status, len(output), len(lines)) == (133, 256, 2)
    assert "ebreak" in lines[0] and "10010: the call was given 500 bytes and wrote 256" in lines[1]
