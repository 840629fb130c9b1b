"""States of the machine before and after one instruction of each kind, for tests of the pane of elements."""

import json
import pathlib
from collections.abc import Mapping
from typing import Any, cast

from support.places import DATA
from vecmon_lab.lessons.frames import make_frames
from vecmon_lab.lessons.script import read_assembled
from vecmon_lab.page.state import State, add_executed

FILE = DATA / "element_states.json"
MEMORY = """
        .data
        .balign 64
numbers: .word 3, -1, 4, 1, -5, 9, 2, -6, 5, 3, 5, -8, 9, 7, -9, 3
pixels: .byte 10, 20, 30, 11, 21, 31, 12, 22, 32, 13, 23, 33, 14, 24, 34, 15, 25, 35
        .balign 64
places: .word 28, 0, 12, 4, 20, 8, 24, 16
order:  .word 3, 0, 9, 1, 1, 7, 2, 2
        .balign 64
out:    .word 0, 0, 0, 0, 0, 0, 0, 0, 0, 0, 0, 0
bits:   .byte 0xa5, 0x0f
        .text
"""
LOADED = "la a0, numbers\nvsetivli t0, 8, e32, m1, ta, mu\nvle32.v v4, (a0)\n"
MASKED = f"{LOADED}vmslt.vx v0, v4, zero\n"
BYTES = "la a1, pixels\nvsetivli t0, 6, e8, m1, tu, mu\nvle8.v v4, (a1)\nli t1, 77\n"
NEAR_END = "li a6, 0x11fec\n"  # five words before the end of the last page
PROGRAMS = {
    "multiply and add, masked": f"{MASKED}vid.v v8\nli a1, 3\nvmacc.vx v8, a1, v4, v0.t",
    "add an immediate": f"{LOADED}vadd.vi v9, v4, -2",
    "unsigned minimum": f"{LOADED}li a1, 4\nvminu.vx v9, v4, a1",
    "widening": f"{BYTES}vwmulu.vx v8, v4, t1",
    "narrowing": f"{BYTES}vwmulu.vx v8, v4, t1\nvnsrl.wi v10, v8, 6",
    "comparison": f"{LOADED}vmslt.vx v0, v4, zero",
    "merge": f"{MASKED}vmerge.vim v13, v4, 0, v0",
    "carry": f"{MASKED}vadc.vvm v13, v4, v4, v0",
    "masks": f"{MASKED}vmsne.vi v2, v4, 3\nvmandn.mm v3, v2, v0",
    "count of ones": f"{MASKED}vcpop.m a2, v0",
    "first one": f"{MASKED}vfirst.m a2, v0",
    "prefix count": f"{MASKED}viota.m v15, v0",
    "numbers of elements": "vsetivli t0, 3, e16, mf2, ta, ma\nvid.v v3",
    "sum": f"{LOADED}li a1, 100\nvmv.s.x v5, a1\nvredsum.vs v6, v4, v5",
    "sum, masked": f"{MASKED}li a1, 100\nvmv.s.x v5, a1\nvredsum.vs v6, v4, v5, v0.t",
    "scalar to element 0": f"{LOADED}li a1, 100\nvmv.s.x v5, a1",
    "element 0 to scalar": f"{LOADED}vmv.x.s a1, v4",
    "slide up": f"{LOADED}vmv.v.i v16, 7\nvslideup.vi v16, v4, 3",
    "slide down": f"{LOADED}li a1, 2\nvslidedown.vx v16, v4, a1",
    "slide a scalar in": f"{LOADED}li a4, 8\nvslide1down.vx v17, v4, a4",
    "gather": f"la a2, order\n{LOADED}vle32.v v5, (a2)\nvrgather.vv v6, v4, v5",
    "gather one": f"{LOADED}vrgather.vi v6, v4, 4",
    "compress": f"{MASKED}vmv.v.i v14, 5\nvcompress.vm v14, v4, v0",
    "load": LOADED.strip(),
    "load with a stride": f"{LOADED}li a4, 8\nvlse32.v v18, (a0), a4",
    "indexed load": f"{LOADED}la a2, places\nvsetivli t0, 5, e32, m1, tu, mu\nvle32.v v1, (a2)\nvluxei32.v v19, (a0), v1",
    "load of segments": "la a1, pixels\nvsetivli t0, 6, e8, m1, ta, ma\nvlseg3e8.v v4, (a1)",
    "load of a mask": "la a3, bits\nvsetivli t0, 11, e8, m1, ta, ma\nvlm.v v7, (a3)",
    "load of whole registers": f"{LOADED}vsetivli t0, 3, e32, m1, ta, ma\nvl2re32.v v6, (a0)",
    "load up to a fault": f"{LOADED}vmv.v.i v20, 7\n{NEAR_END}vle32ff.v v20, (a6)",
    "load with a fault": f"{LOADED}vmv.v.i v20, 7\n{NEAR_END}vle32.v v20, (a6)",
    "store, masked": f"{MASKED}la a3, out\nvse32.v v4, (a3), v0.t",
    "store of segments": f"la a3, out\n{BYTES}vsetivli t0, 4, e8, m1, ta, ma\nvlseg3e8.v v4, (a1)\nvsseg3e8.v v4, (a3)",
    "store of a mask": f"{MASKED}la a3, out\nvsm.v v0, (a3)",
    "move of whole registers": f"{LOADED}vsetivli t0, 3, e32, m1, ta, ma\nvmv2r.v v6, v4",
    "group of two": "la a0, numbers\nvsetivli t0, 13, e32, m2, ta, ma\nvle32.v v4, (a0)\nvadd.vv v6, v4, v4",
    "group of eight": "la a0, numbers\nvsetivli t0, 9, e32, m8, ta, ma\nvle32.v v8, (a0)\nvsra.vi v8, v8, 1",
    "an eighth of a register": f"{BYTES}vsetivli t0, 3, e8, mf8, ta, ma\nvadd.vi v5, v4, 1",
    "start above 0": f"{LOADED}csrwi vstart, 3\nvadd.vi v9, v4, 1",
    "illegal": f"{LOADED}vwadd.vv v4, v4, v5",
    "no vector operands": f"{LOADED}xori a1, a0, 1",
}
"""Programs by name, whose last instruction is the one that is shown."""
BEFORE = ("pc", "x", "v", "vtype", "vl", "vstart", "vxrm", "vxsat", "policy", "memory")
AFTER = (*BEFORE, "groups", "instruction", "faulted", "illegal", "stop")


def captured(name: str, program: pathlib.Path) -> dict[str, dict[str, Any]]:
    """The states before and after the last instruction of a program, without zeros at the end of registers."""
    script = read_assembled(f"{MEMORY}{PROGRAMS[name]}\nnop\nebreak\n", name)
    states = [dict[str, Any](frame.states["1"]) for frame in make_frames(script, program)]
    last = PROGRAMS[name].splitlines()[-1].split()[0]
    place = max(at for at, state in enumerate(states) if _executed(state).startswith(f"{last} "))
    before, after = (
        {key: state[key] for key in keys if key in state} for keys, state in zip((BEFORE, AFTER), states[place - 1 :])
    )
    for key in ("code", "operands"):
        after[key] = {
            at: each for at, each in states[place][key].items() if at == after["instruction"] or "scalar" in name
        }
    for state in (before, after):
        state["x"] = {number: digits for number, digits in state["x"].items() if digits != "0"}
        state["v"] = {number: digits.rstrip("0") for number, digits in state["v"].items() if digits.strip("0")}
        state["memory"] = {
            row: digits for row, digits in state["memory"].items() if digits.strip("0") and row[:2] == "11"
        }
    shown: dict[str, dict[str, Any]] = json.loads(json.dumps({"before": before, "state": after}))
    return shown


def _executed(state: Mapping[str, Any]) -> str:
    return str(state["code"][state["instruction"]][9:]) if "instruction" in state else ""


def stored() -> dict[str, dict[str, Any]]:
    """The stored states by the name of their program, with all registers whole, and with the elements of the last instruction."""
    found: dict[str, dict[str, Any]] = json.loads(FILE.read_text("ascii"))
    for state in (each for pair in found.values() for each in pair.values()):
        state["x"] = {f"{number}": state["x"].get(f"{number}", "0") for number in range(32)}
        state["v"] = {f"{number}": state["v"].get(f"{number}", "").ljust(64, "0") for number in range(32)}
    for pair in found.values():
        add_executed(cast(State, pair["state"]), cast(State, pair["before"]))
    return found
