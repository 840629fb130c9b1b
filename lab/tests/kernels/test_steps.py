"""The steps of a call, and why elements have their values then."""

import array
import pathlib

import pytest

from vecmon_lab import Kernel, LabError

SOURCE = """
scaled: vsetvli t0, a1, e32, m1, tu, mu
        vle32.v v8, (a0)
        vmul.vx v8, v8, a2
        vse32.v v8, (a0)
        ret
"""


def test_steps_yield_instructions_with_changes(tmp_path: pathlib.Path) -> None:
    path = tmp_path / "source.s"
    path.write_text(SOURCE)
    numbers = array.array("i", [5, -6, 7])
    with Kernel(path) as kernel:
        steps = list(kernel.steps("scaled", numbers, 3, 10))
        texts = [step.text.partition(" ")[0] for step in steps]
        assert texts == ["vsetvli", "vle32.v", "vmul.vx", "vse32.v", "jalr"]
        assert steps[0].why("t0").value == 3 and str(steps[0].why("x6")).startswith("x6 kept its value 0")
        assert str(steps[1].why("v8", 1)).endswith("] = -6") and steps[1].why("v8", 1).value == 4294967290
        assert str(steps[2].why("v8", 0)) == "v8[0] = v8[0] * x12 = 5 * 10 = 50"
        assert steps[2].why("v8", 3).text == "v8[3] kept its value 0: tail, since 3 >= vl = 3"
        assert "it is stored: memory[0x" in str(steps[3].why("v8", 2))
        assert "v8.e32[0..2]=00000032," in str(steps[2])
        with pytest.raises(LabError, match="40 isn't one"):
            steps[2].why("v8", 40)
        with pytest.raises(LabError, match="has no symbol absent"):
            next(kernel.steps("absent"))
        assert kernel.call("scaled", numbers, 3, 2).arrays[0] == array.array("i", [10, -12, 14])
