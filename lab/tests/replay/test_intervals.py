"""How many ticks an instruction takes at most, by the recorder's counts."""

import pathlib
import subprocess

from support.images import make_image
from vecmon_lab.machine.program import find_recorder
from vecmon_lab.replay.intervals import MAX_TICKS

# A group of 256 elements, the largest one, at the end of the stack; of the second load the last element faults.
SOURCE = """\
        li a1, 256
        lui a0, 0x7ffff
        addi a2, a0, -256
        addi a3, a0, -255
        vsetvli t0, a1, e8, m8, ta, ma
        vle8ff.v v8, (a2)
        vle8ff.v v8, (a3)
        vl8re8.v v8, (a2)
        vs8r.v v8, (a2)
        ebreak
"""


def test_instruction_takes_at_most_256_ticks(program: pathlib.Path, tmp_path: pathlib.Path) -> None:
    make_image(program, tmp_path / "image", SOURCE)
    counts = tmp_path / "counts"
    subprocess.run([find_recorder(), "--counts", counts, "--ticks", "10000", tmp_path / "image"], check=True)
    lines = [line.split() for line in counts.read_text("ascii").splitlines()]
    ticks = [int(line[4]) for line in lines if line[0] == "at"]
    assert ticks == [1] * 5 + [256] * 4
    assert MAX_TICKS == 256
