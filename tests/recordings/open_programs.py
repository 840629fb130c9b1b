"""Small programs that each rely on one open choice, and the same programs without it."""

from collections.abc import Iterator
from typing import NamedTuple

EXIT = "        andi a0, a0, 255\n        li a7, 93\n        ecall\n"
DATA = "        .data\n        .balign 64\nnumbers:\n" + "".join(
    f"        .byte {', '.join(f'{number}' for number in range(first, first + 8))}\n" for first in range(1, 33, 8)
)
"""The numbers 1 to 32."""

ALL = "        vsetvli t0, zero, e8, m1, ta, ma\n"
SUM = f"{ALL}        vmv.s.x v31, zero\n        vredsum.vs v31, v8, v31\n        vmv.x.s a0, v31\n"
"""The sum of all bytes of v8."""

FIVE = f"        la a1, numbers\n{ALL}        vmv.v.i v8, 0\n        vle8.v v9, (a1)\n        vmv.v.i v0, 5\n"
FIVE += "        vmv.v.i v10, 3\n        vmv.v.i v11, 3\n"
FIVE += "        vsetivli t0, 5, e8, m1, {tail}, ma\n"
"""Five elements, after which v8 is 0 and v9 isn't."""

ODD = f"        la a1, numbers\n{ALL}        vmv.v.i v8, 0\n        vle8.v v9, (a1)\n"
ODD += "        vand.vi v10, v9, 1\n        vmsne.vi v0, v10, 0\n        vsetvli t0, zero, e8, m1, ta, {mask}\n"
"""A mask of the elements 0, 2, 4, ..., whose numbers are odd."""


class OpenProgram(NamedTuple):
    """A program that relies on a choice of the instruction at the label `here`, and one that doesn't."""

    name: str
    kind: str
    relying: str
    sound: str


TAILS = (
    "vadd.vv v8, v9, v9",
    "vmv.v.i v8, 3",
    "vid.v v8",
    "vslidedown.vi v8, v9, 1",
    "vrgather.vi v8, v9, 2",
    "vmerge.vim v8, v9, 1, v0",
    "vadc.vvm v8, v9, v9, v0",
    "vsadd.vv v8, v9, v9",
    "vnsrl.wi v8, v10, 1",
    "viota.m v8, v0",
    "vcompress.vm v8, v9, v0",
    "vmul.vx v8, v9, a1",
    "vmacc.vv v8, v9, v9",
    "vredsum.vs v8, v9, v9",
    "vmv.s.x v8, a1",
)
"""Instructions with an open tail, one of each kind: five elements are written, or one."""

MASKED = (
    "vadd.vv v8, v9, v9, v0.t",
    "vsll.vi v8, v9, 1, v0.t",
    "vslideup.vi v8, v9, 1, v0.t",
    "vid.v v8, v0.t",
    "vminu.vv v8, v9, v9, v0.t",
    "vrgather.vv v8, v9, v10, v0.t",
    "vnclipu.wi v8, v10, 1, v0.t",
    "vmacc.vv v8, v9, v9, v0.t",
)
"""Masked instructions, whose element 1 is masked off."""


def open_programs() -> Iterator[OpenProgram]:
    """The programs."""
    for text in TAILS:
        source = f"{FIVE}here:   {text}\n{SUM}{EXIT}{DATA}"
        yield OpenProgram(f"tail of {text}", "tail", source.format(tail="ta"), source.format(tail="tu"))
    for text in MASKED:
        source = f"{ODD}here:   {text}\n{SUM}{EXIT}{DATA}"
        yield OpenProgram(f"masked {text}", "masked", source.format(mask="ma"), source.format(mask="mu"))
    yield _wide_tail()
    yield _tail_after_a_fraction()
    yield _trimmed_length()
    yield _length_of_a_vset()


def _wide_tail() -> OpenProgram:
    """The tail of a group of twice the width."""
    source = f"        la a1, numbers\n{ALL}        vle8.v v2, (a1)\n        vsetvli t0, zero, e16, m2, ta, ma\n"
    source += "        vmv.v.i v8, 0\n        vsetivli t0, 5, e8, m1, {tail}, ma\nhere:   vwaddu.vv v8, v2, v2\n"
    source += "        vsetvli t0, zero, e16, m2, ta, ma\n        vmv.s.x v31, zero\n        vredsum.vs v31, v8, v31\n"
    source += f"        vmv.x.s a0, v31\n{EXIT}{DATA}"
    return OpenProgram("tail of twice the width", "tail", source.format(tail="ta"), source.format(tail="tu"))


def _tail_after_a_fraction() -> OpenProgram:
    """The elements of a register behind VLMAX, which belong to the tail."""
    source = f"        la a1, numbers\n{ALL}        vmv.v.i v8, 0\n        vle8.v v9, (a1)\n"
    source += f"        vsetivli t0, 4, e8, mf4, {{tail}}, ma\nhere:   vadd.vv v8, v9, v9\n{SUM}{EXIT}{DATA}"
    return OpenProgram("tail after a fraction of 8", "tail", source.format(tail="ta"), source.format(tail="tu"))


def _trimmed_length() -> OpenProgram:
    """The length of a fault-only-first load: the sound program loads again until all 12 numbers are added."""
    sums = "        vmv.s.x v31, zero\n        vredsum.vs v31, v8, v31\n"
    relying = f"        la a1, numbers\n{ALL}        vmv.v.i v8, 0\n        li t1, 12\n"
    relying += f"        vsetvli t0, t1, e8, m1, ta, ma\nhere:   vle8ff.v v8, (a1)\n{sums}"
    relying += f"        vmv.x.s a0, v31\n{EXIT}{DATA}"
    sound = "        la a1, numbers\n        li t1, 12\n        li a0, 0\nnext:   vsetvli t0, t1, e8, m1, ta, ma\n"
    sound += f"here:   vle8ff.v v8, (a1)\n        csrr t0, vl\n{sums}        vmv.x.s t2, v31\n"
    sound += "        add a0, a0, t2\n        add a1, a1, t0\n        sub t1, t1, t0\n        bnez t1, next\n"
    return OpenProgram("trimmed length", "trim", relying, f"{sound}{EXIT}{DATA}")


def _length_of_a_vset() -> OpenProgram:
    """The length for an AVL of 12, with a VLMAX of 8: the sound program takes lengths until none of the 12 is left."""
    relying = "        li t1, 12\nhere:   vsetvli t0, t1, e32, m1, ta, ma\n        vsetvli t2, zero, e32, m1, ta, ma\n"
    relying += f"        sub a0, t2, t0\n{EXIT}"
    sound = "        li t1, 12\n        li a0, 0\nhere:   vsetvli t0, t1, e32, m1, ta, ma\n        add a0, a0, t0\n"
    sound += f"        sub t1, t1, t0\n        bnez t1, here\n{EXIT}"
    return OpenProgram("length of a vset", "length", relying, sound)
