"""Why an element has its value, as a student asks for it, without a server."""

import json
import pathlib
from collections.abc import Mapping
from typing import Any

from support.desk import Desk

SOURCE = "li a1, 3\nvsetivli x0, 4, e32, m1, tu, mu\nvid.v v8\nvmacc.vx v8, a1, v8\nvle32.v v9, (x0)\nebreak"


def asked(desk: Desk, **request: object) -> Mapping[str, Any]:
    """The answer to a request."""
    return desk.respond(json.dumps({"id": 1, **request}))


def test_why_explains_element(program: pathlib.Path) -> None:
    desk = Desk(program, {}, 100_000)
    asked(desk, ask="source", text=SOURCE)
    assert "step first" in asked(desk, ask="why", name="v8[1]")["error"]
    for _ in range(4):
        asked(desk, ask="lines", do=["step 1"])
    sentence = "v8[3] = v8[3] * x11 + v8[3] = 3 * 3 + 3 = 12"
    assert asked(desk, ask="why", name="v8[3]")["why"] == sentence
    assert (
        asked(desk, ask="lines", do=[], look=["vreg v8 32"])["look"]
        and asked(desk, ask="why", name="v8 3")["why"] == sentence
    )
    named = asked(desk, ask="why", name="v8[3]", form="hexadecimal", abi=True)["why"]
    assert named == "v8[3] = v8[3] * a1 + v8[3] = 0x3 * 0x3 + 0x3 = 0xc"
    assert "signed, unsigned or hexadecimal" in asked(desk, ask="why", name="v8[3]", form="octal")["error"]
    assert asked(desk, ask="why", name="v8[9]")["error"] == "v8 has the elements 0 to 7 of 32 bits, and 9 isn't one"
    assert "names no element" in asked(desk, ask="why", name="")["error"]
    asked(desk, ask="lines", do=["step 1"])
    shown = "v9[2] kept its value 0: the access of element 0 faults, so it isn't reached"
    assert asked(desk, ask="why", name="v9[2]")["why"] == shown
    asked(desk, ask="lines", do=["set x10 1"])
    assert "step first" in asked(desk, ask="why", name="v8[1]")["error"]
    desk.close()
