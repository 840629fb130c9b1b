"""Requests of a student: all assembler sources of the repository are stepped and checked, and others are drawn."""

import random
from collections.abc import Iterator
from typing import Any

from support.places import TOP
from vecmon_lab.exercises.exercise import OURS

Request = dict[str, Any]

MAX_LETTERS = 60_000  # of a source
COUNTED = """start: li a7, 64
 li a0, 1
 lui a1, 0x20
 li a2, 5
 li t0, 300
loop: ecall
 li a0, 1
 addi t0, t0, -1
 bnez t0, loop
 ebreak
 .data
 .ascii "hallo"
"""
STEPS = ["step 1", "step 1", "step 2", "step 7", "step 100", "step 256"]
LOOKS = ["state", "regs", "vcsr", "vreg v1 8", "vreg v8 64", "peek 20000 16", "dis 10000 4", "breaks"]
INSTRUCTIONS = [
    "addi x5, x5, -1",
    "addi x10, x10, 8",
    "lui x11, 32",
    "ld x6, 0(x11)",
    "sd x5, 8(x11)",
    "vsetivli x0, 8, e32, m1, ta, ma",
    "vsetvli x5, x10, e8, m2, tu, mu",
    "vid.v v2",
    "vadd.vv v1, v1, v2",
    "vadd.vi v8, v2, 3, v0.t",
    "vmslt.vi v0, v2, 4",
    "vle8.v v4, (x11)",
    "vse32.v v4, (x11)",
    "vredsum.vs v3, v1, v2",
    "vdiv.vv v1, v2, v3",
    "ecall",
    "ebreak",
    "nop",
]
BAD_LINES = ["foo", "peek 1", "set x1 gg", "vset v1 00", "step 0", "step 257", "enter now", "asm 10000 addq x1, x2"]
NONSENSE: list[Request] = [
    {"ask": "nonsense"},
    {"ask": "lines", "do": 3},
    {"ask": "lines", "do": ["out "]},
    {"ask": "lines", "look": ["step 1"]},
    {"ask": "lines", "slices": 101},
    {"ask": "version", "number": "1"},
    {"ask": "draft", "text": "nop"},
    {"ask": "source", "text": 5},
    {"ask": "source", "text": "nop", "language": 99},
    {"ask": "source", "text": "int x;", "language": 1},
    {"ask": "check", "exercise": "none", "text": "ret"},
    {"ask": "case", "exercise": "doubles", "text": 1},
    {"ask": "give", "seat": "A1", "text": "nop"},
    {"ask": "name", "name": "x" * 100},
]


def source_requests() -> list[Request]:
    """Each assembler source of the repository is written and stepped; one prints in a loop."""
    paths = sorted({*(TOP / "lab").rglob("*.s"), *(TOP / "tests").rglob("*.s")})
    texts = [path.read_text("utf-8", "replace") for path in paths if "harness" not in path.parts]
    requests = list[Request]()
    for number, text in enumerate(text for text in texts if len(text) < MAX_LETTERS):
        requests += [{"ask": "source", "text": text}, *[_lines("step 1")] * 6]
        requests.append(_lines("step 100", "out", look=["regs", "vreg v1 8"]))
        if number % 4 == 0:
            places = ["break 10008", "set x10 20000", "poke 20000 0102", "step 3", "unbreak 10008"]
            requests += [{"ask": "again"}, _lines(*places)]
    requests += [{"ask": "source", "text": COUNTED}, _lines("map 20000 1 rw", "poke 20000 68616c6c6f"), _lines("go")]
    requests += [{"ask": "draft", "text": "nop", "number": 0}, {"ask": "name", "name": "Ada"}, _lines(*BAD_LINES[:4])]
    requests += [{"ask": "version", "number": 3}, {"ask": "version", "number": 9999}, {"ask": "nonsense"}]
    requests += [_lines("out "), {"ask": "lines", "do": 3}, {"ask": "case", "exercise": "doubles", "text": "ret"}]
    return requests


def exercise_requests() -> list[Request]:
    """Each assembler source of the exercises is checked, and tried in the case that failed first."""
    requests = list[Request]()
    for folder in sorted(OURS.iterdir()):
        for path in sorted(folder.rglob("*.s")):
            answer = {"exercise": folder.name, "text": path.read_text()}
            requests += [{"ask": "check", **answer}, {"ask": "case", **answer}, _lines("step 20")]
    return requests


def drawn_requests(draws: random.Random, number: int) -> Iterator[Request]:
    """Draw a number of requests: lines of all kinds, sources with and without mistakes, drafts, versions, and refused requests.

    Programs run only in the slices that a request grants, since the place where a clock stops one isn't known.
    """
    for _ in range(number):
        match draws.randrange(20):
            case 0:
                yield draws.choice(NONSENSE)
            case 1 | 2 | 9 | 10:
                yield {"ask": "source", "text": _drawn_source(draws)}
            case 3:
                yield {"ask": "again"}
            case 4:
                yield {"ask": "draft", "text": _drawn_source(draws), "number": draws.choice((0, 1, 2, 50))}
            case 5:
                yield {"ask": "version", "number": draws.randrange(60)}
            case 6:
                yield {"ask": "name", "name": draws.choice(("Ada", "Grace", "", "a\0"))}
            case 7:
                yield {"ask": "step", "by": "line"}
            case 8:
                yield _lines("setpc 10000", "go", slices=draws.choice((1, 5)))
            case _:
                yield _lines(*(_drawn_line(draws) for _ in range(draws.randrange(1, 7))), look=draws.sample(LOOKS, 2))


def _lines(*do: str, look: list[str] = [], slices: int = 0) -> Request:
    return {"ask": "lines", "do": [*do], "look": look, "slices": slices}


def _drawn_source(draws: random.Random) -> str:
    """A loop that ends, and sometimes has a mistake."""
    body = draws.choices(INSTRUCTIONS, k=draws.randrange(1, 9))
    body += ["addq x1, x2"] * (draws.randrange(8) == 0) + ["vadd.vv v1, v2"] * (draws.randrange(8) == 0)
    rows = [f"        li s0, {draws.randrange(1, 30)}", "loop:"]
    return "\n".join(
        [
            *rows,
            *(f"        {it}" for it in body),
            "        addi s0, s0, -1",
            "        bnez s0, loop",
            "        ebreak\n",
        ]
    )


def _drawn_line(draws: random.Random) -> str:
    """A line of a student's."""
    address = draws.choice((0x10000, 0x10004, 0x10008, 0x20000, 0x20FFC, 0x30000))
    return draws.choice(
        [
            draws.choice(STEPS),
            draws.choice(STEPS),
            draws.choice(LOOKS),
            draws.choice(BAD_LINES),
            f"asm {address:x} {draws.choice(INSTRUCTIONS)}",
            f"set x{draws.randrange(33)} {draws.getrandbits(draws.choice((4, 32, 64))):x}",
            f"vset v{draws.randrange(33)} {draws.randbytes(32).hex()}",
            f"poke {address:x} {draws.randbytes(draws.randrange(1, 9)).hex()}",
            f"map {draws.choice((0x20000, 0x30000)):x} 1 {draws.choice(('r', 'rw', 'rwx'))}",
            f"setpc {address:x}",
            f"{draws.choice(('break', 'unbreak'))} {address:x}",
            f"policy {draws.choice(('ones', 'keep', 'none'))}",
            draws.choice(("leave", *["enter", "stop", "out"] * 5)),
        ]
    )
