"""Small programs that each rely on one open choice, and the same programs without it."""

from collections.abc import Iterator
from typing import NamedTuple

EXIT = "        andi a0, a0, 255\n        li a7, 93\n        ecall\n"
DATA = "        .data\n        .balign 64\nnumbers:\n" + "".join(
    f"        .byte {', '.join(f'{number}' for number in range(first, first + 8))}\n" for first in range(1, 33, 8)
)
DATA += "        .zero 256\nroom:   .zero 512\n"

ALL = "        vsetvli t0, zero, e8, m1, ta, ma\n"
SUM = f"{ALL}        vmv.s.x v31, zero\n        vredsum.vs v31, v8, v31\n        vmv.x.s a0, v31\n"
"""The sum of all bytes of v8."""

FIVE = f"        la a1, numbers\n{ALL}        vmv.v.i v8, 0\n        vle8.v v9, (a1)\n        vmv.v.i v0, 5\n"
FIVE += "        vmv.v.i v10, 3\n        vmv.v.i v11, 3\n"
FIVE += "        vsetivli t0, 5, e8, m1, {tail}, ma\n"
"""Five elements, after which v8 is 0 and v9 isn't."""

ODD = f"        la a1, numbers\n{ALL}        vmv.v.i v8, 0\n        vle8.v v9, (a1)\n"
ODD += "        vand.vi v10, v9, 1\n        vmsne.vi v0, v10, 0\n        vsetvli t0, zero, e8, m1, ta, {mask}\n"
"""A mask of the even elements 0, 2, 4, ..., whose numbers are odd."""


class Planted(NamedTuple):
    """A program that relies on a choice of the instruction at the label `here`, and one that doesn't.

    element: one that matters: the first element whose choice changes the result; None for a length, and of loads
    """

    name: str
    kind: str
    element: int | None
    relying: str
    sound: str


TAILS = {
    "vadd.vv v8, v9, v9": 5,
    "vmv.v.i v8, 3": 5,
    "vid.v v8": 5,
    "vslidedown.vi v8, v9, 1": 5,
    "vrgather.vi v8, v9, 2": 5,
    "vmerge.vim v8, v9, 1, v0": 5,
    "vadc.vvm v8, v9, v9, v0": 5,
    "vsadd.vv v8, v9, v9": 5,
    "vnsrl.wi v8, v10, 1": 5,
    "viota.m v8, v0": 5,
    "vmul.vx v8, v9, a1": 5,
    "vmacc.vv v8, v9, v9": 5,
    "vredsum.vs v8, v9, v9": 1,
    "vmv.s.x v8, a1": 1,
}
"""Operations with an open tail, and its first element: five elements are written, or one."""

LOADS = ("vle8.v v8, (a1)", "vlse8.v v8, (a1), t0", "vluxei8.v v8, (a1), v9")
"""Loads, whose tails are varied only together with all other agnostic elements."""

MASKED = (
    "vadd.vv v8, v9, v9, v0.t",
    "vsll.vi v8, v9, 1, v0.t",
    "vslideup.vi v8, v9, 1, v0.t",
    "vid.v v8, v0.t",
    "vminu.vv v8, v9, v9, v0.t",
    "vrgather.vv v8, v9, v10, v0.t",
)
"""Masked operations, whose element 1 is masked off."""


def planted() -> Iterator[Planted]:
    """The programs."""
    for text, element in TAILS.items():
        source = f"{FIVE}here:   {text}\n{SUM}{EXIT}{DATA}"
        yield Planted(f"tail of {text}", "tail", element, source.format(tail="ta"), source.format(tail="tu"))
    for text in MASKED:
        source = f"{ODD}here:   {text}\n{SUM}{EXIT}{DATA}"
        yield Planted(f"masked {text}", "masked", 1, source.format(mask="ma"), source.format(mask="mu"))
    for text in LOADS:
        source = f"{FIVE}here:   {text}\n{SUM}{EXIT}{DATA}"
        yield Planted(f"tail of {text}", "ones", None, source.format(tail="ta"), source.format(tail="tu"))
        source = f"{ODD}        vmv.v.i v10, 0\nhere:   {text.replace('v9', 'v10')}, v0.t\n{SUM}{EXIT}{DATA}"
        yield Planted(f"masked {text}", "ones", None, source.format(mask="ma"), source.format(mask="mu"))
    yield from _tails_elsewhere()
    yield from _lengths()


def _tails_elsewhere() -> Iterator[Planted]:
    """Tails of twice the width, of a second field, after VLMAX, and in memory that was stored as a whole register."""
    start = f"        la a1, numbers\n{ALL}        vle8.v v2, (a1)\n        vsetvli t0, zero, e16, m2, ta, ma\n        vmv.v.i v8, 0\n"
    wide = f"{start}        vsetivli t0, 5, e8, m1, {{tail}}, ma\nhere:   vwaddu.vv v8, v2, v2\n"
    wide += "        vsetvli t0, zero, e16, m2, ta, ma\n        vmv.s.x v31, zero\n        vredsum.vs v31, v8, v31\n"
    wide += f"        vmv.x.s a0, v31\n{EXIT}{DATA}"
    yield Planted("tail of twice the width", "tail", 5, wide.format(tail="ta"), wide.format(tail="tu"))
    fields = f"{FIVE}        vmv.v.i v9, 0\nhere:   vlseg2e8.v v8, (a1)\n{ALL}        vmv.v.v v8, v9\n{SUM}{EXIT}{DATA}"
    fields = fields.replace("        vsetivli", "        vmv.v.i v9, 0\n        vsetivli", 1)
    fields = fields.replace("ma\n        vmv.v.i v9, 0\nhere", "ma\nhere")
    yield Planted("tail of a second field", "ones", None, fields.format(tail="ta"), fields.format(tail="tu"))
    part = f"        la a1, numbers\n{ALL}        vmv.v.i v8, 0\n        vsetivli t0, 4, e8, mf4, {{tail}}, ma\n"
    part += f"here:   vadd.vi v8, v8, 1\n{SUM}{EXIT}{DATA}"
    yield Planted("tail after a fraction of 8", "tail", 4, part.format(tail="ta"), part.format(tail="tu"))
    stored = f"{FIVE}        la a2, room\nhere:   vadd.vv v8, v9, v9\n        vs1r.v v8, (a2)\n        lbu a0, 20(a2)\n{EXIT}{DATA}"
    yield Planted("tail read from memory", "tail", 20, stored.format(tail="ta"), stored.format(tail="tu"))


def _lengths() -> Iterator[Planted]:
    """Lengths of fault-only-first loads and of vset instructions."""
    twelve = f"        la a1, numbers\n{ALL}        vmv.v.i v8, 0\n        li t1, 12\n        vsetvli t0, t1, e8, m1, ta, ma\n"
    first_only = f"{twelve}here:   vle8ff.v v8, (a1)\n"
    sums = "        vmv.s.x v31, zero\n        vredsum.vs v31, v8, v31\n"
    again = "        la a1, numbers\n        li t1, 12\n        li a0, 0\nnext:   vsetvli t0, t1, e8, m1, ta, ma\n"
    again += f"        vle8ff.v v8, (a1)\n        csrr t0, vl\n{sums}        vmv.x.s t2, v31\n        add a0, a0, t2\n"
    again += f"        add a1, a1, t0\n        sub t1, t1, t0\n        bnez t1, next\n{EXIT}{DATA}"
    trimmed = f"{first_only}{sums}        vmv.x.s a0, v31\n{EXIT}{DATA}"
    yield Planted("trimmed length", "trim", None, trimmed, again)
    length = "        li t1, 12\nhere:   vsetvli t0, t1, e32, m1, ta, ma\n        vsetvli t2, zero, e32, m1, ta, ma\n"
    counted = "        li t1, 12\n        li a0, 0\nnext:   vsetvli t0, t1, e32, m1, ta, ma\n        add a0, a0, t0\n"
    counted += f"        sub t1, t1, t0\n        bnez t1, next\n{EXIT}"
    yield Planted("length of a vset", "length", None, f"{length}        sub a0, t2, t0\n{EXIT}", counted)
