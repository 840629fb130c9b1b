"""Single instructions: the cases of `vecmon-lab vectors`, executed by `vecmon` and by QEMU in user mode, compared one by one.

A case has a random word of an instruction, and random registers, vector state and memory (docs/GOLDEN_VECTORS.md).
"""

import json
import os
from collections.abc import Mapping, Sequence
from concurrent.futures import ProcessPoolExecutor
from contextlib import redirect_stderr
from functools import partial

from tests.peers.tally import Tally
from vecmon_lab.instructions.table import instruction_table
from vecmon_lab.machine.answers import VILL
from vecmon_lab.machine.program import find_program
from vecmon_lab.meanings.extensions import names_lacked_by
from vecmon_lab.vectors import on_qemu
from vecmon_lab.vectors.command import golden_results

UNKNOWN = "unknown"
LOADS_AND_STORES = (0x03, 0x07, 0x23, 0x27)
_TOGETHER = 8  # instructions whose cases go through one process of QEMU
_FILLED = {"vm": "mask results", "vlm.v": "vlm.v", "vl": "a load that shortened vl", "vcompress": "vcompress"}
_UNFILLED = ("vmv.s.x", "vslidedown.v")

Case = Mapping[str, object]
Differing = Mapping[str, tuple[object, object]]
"""Differences by name: the value that `vecmon` leaves, and QEMU's."""


def names() -> list[str]:
    """Return the names of the instructions that QEMU 7.2 has, in the order of the table."""
    return [name for name in instruction_table() if name not in names_lacked_by("qemu")]


def compare(names: Sequence[str], cases: int | None, seed: int, policy: str) -> Tally:
    """Compares a number of cases of each instruction, or its whole plan, on all cores."""
    parts = [names[at : at + _TOGETHER] for at in range(0, len(names), _TOGETHER)]
    with ProcessPoolExecutor(os.cpu_count()) as pool:
        tallies = pool.map(partial(_compare_some, cases=cases, seed=seed, policy=policy), parts)
        return sum(tallies, Tally(f"instructions on QEMU, policy {policy}"))


def drawn_cases(names: Sequence[str], cases: int | None, seed: int, policy: str = "keep") -> list[Case]:
    """Cases with `vecmon`'s results, as their lines in a file have them."""
    program, table = find_program(), instruction_table()
    results = (it for name in names for it in golden_results(program, table[name], cases, seed, policy))
    with open(os.devnull, "w", encoding="ascii") as unread, redirect_stderr(unread):  # notes of calls
        return [json.loads(json.dumps(result)) for result in results]


def tally_of(drawn: Sequence[Case], what: str = "") -> Tally:
    """Executes cases of one policy on QEMU, and compares the results."""
    shown = [case for case in drawn if on_qemu.can_run(case)]
    tally = Tally(what)
    tally.left_out["calls, and jumps to misaligned targets, which end QEMU"] += len(drawn) - len(shown)
    for case, differing in zip(shown, on_qemu.differences(shown), strict=True):
        reason = reason_of(case, differing)
        if reason == UNKNOWN:
            tally.differing.append(f"{case['word']} {case['text']}: {', '.join(differing)}")
        elif reason:
            tally.left_out[f"QEMU differs: {reason}"] += 1
        else:
            tally.agreeing += 1
    return tally


def _compare_some(names: Sequence[str], cases: int | None, seed: int, policy: str) -> Tally:
    return tally_of(drawn_cases(names, cases, seed, policy))


def reason_of(case: Case, differing: Differing) -> str:
    """Why QEMU 7.2 differs: empty if it doesn't; docs/GOLDEN_VECTORS.md has each reason."""
    if not differing:
        return ""
    name, word, names = str(case["name"]), int(str(case["word"]), 16), set(differing)
    if name in ("csrrs", "csrrc") and case["end"] == "fault" and differing.get("end", ("", ""))[1] == "ran":
        return "no bits of a register that can't be written are set or cleared"
    if names == {"vxrm"} and name.startswith("csrr"):
        return "vxrm keeps all bits"
    if name.startswith("vmv") and name.endswith("r.v") and (case["vstart"] or case["vtype"] == f"{VILL:x}"):
        return "moves of whole registers with vstart or vill"
    if name.startswith("vset") and names <= {"vl", "vtype"} and not word & 0x000F8F80:
        return "the length is kept with another VLMAX"
    if case["policy"] == "ones" and "v" in names and (reason := _reason_of_ones(case, differing)):
        names -= {"v"}
        return reason if not names else _reason_of_state(case, differing, names)
    return _reason_of_state(case, differing, names)


def _reason_of_state(case: Case, differing: Differing, names: set[str]) -> str:
    """Why vstart, a fault's value, or what a faulting segment leaves differs."""
    is_access = int(str(case["word"]), 16) & 0x7F in LOADS_AND_STORES
    if names == {"vstart"} and 0 < int(str(case["vstart"])) == differing["vstart"][1]:
        return "vstart at or past the length stays"
    if "seg" in str(case["name"]) and names <= {"v", "memory", "value"}:
        return "fields before the fault of a segment are done"
    if names == {"value"} and is_access:
        mine, other = (int(str(value)) for value in differing["value"])
        if 0 < other - mine < 8:
            return "the value is the first byte that is refused"
        if mine >= 1 << 47 and other == 0:
            return "the value is 0 past what the host addresses"
    return UNKNOWN


def _reason_of_ones(case: Case, differing: Differing) -> str:
    """Why QEMU has more or fewer ones in vector registers under the policy `ones`."""
    mine, other = differing["v"]
    before = on_qemu.state(case)["v"]
    if not isinstance(mine, bytes) or not isinstance(other, bytes) or not isinstance(before, bytes):
        return ""
    name, odd = str(case["name"]), [(a, b, old) for a, b, old in zip(mine, other, before, strict=True) if a != b]
    if name.startswith(_UNFILLED) and all(a == 0xFF and b == old for a, b, old in odd):
        return "with ones, agnostic elements of vmv.s.x and vslidedown stay"
    kinds = [kind for start, kind in _FILLED.items() if name.startswith(start)]
    if kinds and not any(a & ~b for a, b, _ in odd):
        return f"with ones, also what is past the end of {kinds[0]}"
    return ""
