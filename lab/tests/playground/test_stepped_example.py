"""The loop that the first page of the site steps through."""

import pathlib
from typing import Any

from support.class_tabs import patched
from vecmon_lab.playground.build import stepped_example


def test_frames_start_at_first_vector_instruction(program: pathlib.Path) -> None:
    """The results of vmacc.vx are y[i] + 3 x[i] where x[i] is above 4, worked out by hand; both rounds are there."""
    example: dict[str, Any] = stepped_example(program)
    states, state = [], dict[str, Any]()
    for patch in example["states"]:
        states.append(state := patched(state, patch))
    texts = [state["code"][state["instruction"]][9:] for state in states]
    assert texts[0].startswith("vsetvli") and [text.split()[0] for text in texts].count("vmacc.vx") == 2
    assert len(texts) == len(example["notes"]) == 22 and texts[-1].startswith("bne") and example["used"] == [0, 8, 9]
    results = [int.from_bytes(bytes.fromhex(states[4]["v"]["9"])[at : at + 4], "little") for at in range(0, 32, 4)]
    assert texts[4].startswith("vmacc.vx") and results == [127, 100, 121, 100, 124, 100, 118, 100]
    assert example["first"] == 4  # the page opens at the masked multiply-add
    assert example["notes"][4] == "Elements that are masked off keep their values, since the type has `mu`."
