"""Drawn programs whose `vset` instructions leave elements undisturbed, and mutants in which one of them makes these elements agnostic."""

import random
from collections.abc import Iterator
from typing import NamedTuple

from .planted import DATA

OPERATIONS = (
    "vadd.vv {d}, {a}, {b}{mask}",
    "vsub.vx {d}, {a}, a1{mask}",
    "vxor.vi {d}, {a}, 5{mask}",
    "vmul.vv {d}, {a}, {b}{mask}",
    "vmacc.vv {d}, {a}, {b}{mask}",
    "vsll.vi {d}, {a}, 3{mask}",
    "vsaddu.vv {d}, {a}, {b}{mask}",
    "vmaxu.vv {d}, {a}, {b}{mask}",
    "vslidedown.vi {d}, {a}, 2{mask}",
    "vrgather.vv {d}, {a}, {b}{mask}",
    "vid.v {d}{mask}",
    "vredsum.vs {d}, {a}, {b}{mask}",
    "vmv.v.v {d}, {a}",
    "vmerge.vvm {d}, {a}, {b}, v0",
)
"""Operations with a destination that is none of their sources."""

TYPES = {"e8, m1": 32, "e16, m1": 16, "e32, m1": 8, "e8, mf2": 16}
"""Vector types, each with its VLMAX."""

GROUPS = 6
"""`vset` instructions of a program, each with some operations."""

END = """        la a1, room
        vsetvli t0, zero, e8, m8, ta, ma
        vse8.v v8, (a1)
        li a0, 1
        li a2, 256
        li a7, 64
        ecall
        li a0, 0
        li a7, 93
        ecall
"""
"""Writes v8 to v15."""


class Mutant(NamedTuple):
    """A program with one agnostic kind of elements.

    kind: `tail` or `masked`; vset: the label of the `vset` instruction; source: of the program
    sound: the same program, whose elements are all undisturbed
    """

    kind: str
    vset: str
    source: str
    sound: str


def mutants(seed: int) -> Iterator[Mutant]:
    """Draw programs, and yield the mutants of each: two for each `vset` instruction."""
    draw = random.Random(seed)
    while True:
        groups = [[*_operations(draw)] for _ in range(GROUPS)]
        names = [draw.choice([*TYPES]) for _ in groups]
        types = [(draw.randint(1, TYPES[name] - 1), name) for name in names]
        sound = _source(types, groups, None, "")
        for at in range(GROUPS):
            yield Mutant("tail", f"set{at}", _source(types, groups, at, "ta, mu"), sound)
            yield Mutant("masked", f"set{at}", _source(types, groups, at, "tu, ma"), sound)


def _operations(draw: random.Random) -> Iterator[str]:
    """Draw the operations after a `vset` instruction."""
    for text in draw.sample(OPERATIONS, 3):
        destination, *sources = draw.sample(range(8, 16), 3)
        mask = draw.choice(("", ", v0.t"))
        yield text.format(d=f"v{destination}", a=f"v{sources[0]}", b=f"v{sources[1]}", mask=mask)


def _source(types: list[tuple[int, str]], groups: list[list[str]], agnostic: int | None, policies: str) -> str:
    """Return a program's source. agnostic: the number of the group with these policies"""
    lines = ["        la a1, numbers", "        vsetvli t0, zero, e8, m8, ta, ma", "        vle8.v v8, (a1)"]
    lines += ["        vsetvli t0, zero, e8, m1, ta, ma", "        vand.vi v0, v8, 3", "        vmsne.vi v0, v0, 2"]
    for at, ((length, name), operations) in enumerate(zip(types, groups)):
        lines.append(f"set{at}:   vsetivli zero, {length}, {name}, {policies if at == agnostic else 'tu, mu'}")
        lines += [f"        {text}" for text in operations]
    return "\n".join(lines) + f"\n{END}{DATA}"
