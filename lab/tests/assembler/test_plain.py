"""Instructions that depend only on their line: sources are read the same with and without them."""


import pytest

from support.places import EXAMPLES, TOP
from vecmon_lab.assembler import source
from vecmon_lab.assembler.line import Line
from vecmon_lab.assembler.plain import plain_instruction
from vecmon_lab.assembler.source import read_source

SOURCES = [*sorted(EXAMPLES.rglob("*.s")), *sorted((TOP / "lab" / "vecmon_lab" / "exercises").rglob("*.s"))]

TEXTS = [
    "add = 5\nli a0, add\n",
    ".equ t0, 5\nadd t1, t0, t0\n.set e32, 3\nvsetvli t0, a0, e32, m1, ta, ma\n",
    ".macro vadd.vv a, b, c\nnop\nnop\n.endm\nvadd.vv v1, v2, v3\n",
    ".data\nx: .byte 1\nadd a0, a0, a0\n.text\ny: nop\n",
    ".byte 1\nnop\na: b: add a0, a0, 5\n1: addi a1, a1, 1b - .\n2: j 2b\n",
    "a: nop\na: nop\nnop nop\nadd a0, a1,\nadd ,a0\nli a0, 010\nli a1, 1 << 63 + (2*3)\nli a2, 0x1b\n",
    "vsetvli t0, a0, e8\nvsetvli t0, a0, e8, ta, ma\nlw a0, (a1)\nlw a0, 4 + 4(a1)\nvle8.v v0, 0(a1)\nvle8.v v0, 4(a1)\n",
    "VADD.VV v1, v2, v3; Nop\nfence rw, rw\ncsrr a0, vl\ncsrr a0, 0xc20\nvmsgeu.vi v1, v2, 0\nvmslt.vi v1, v2, -15\n",
    ".section .note\nnop\n.text\nret\n.if 0\nnop\n.endif\nneg a0, a1\nbeqz a0, 8\njr 5\ncall 8\n",
    "_start: nop\nloop: nop; nop\n.align 3\nmain: ecall\n",
]
"""Statements whose reading depends on names, macros, sections or places, and some that have mistakes."""


def read_as_text(text: str) -> str:
    """All that is known of a source."""
    program = read_source(text)
    mistakes = [(each.line, each.column, each.message, each.fix) for each in program.mistakes]
    warnings = [(each.line, each.column, each.message, each.fix) for each in program.warnings]
    shown = (program.lines, program.labels, program.statements, program.entry, mistakes, program.data, warnings)
    return repr((*shown, program.end, program.exported))


@pytest.mark.parametrize("text", [*TEXTS, *(path.read_text("utf-8") for path in SOURCES)])
def test_source_is_read_the_same_without_plain_instructions(text: str, monkeypatch: pytest.MonkeyPatch) -> None:
    found = [read_as_text(text), read_as_text(text), read_as_text(f"\n{text}")]
    monkeypatch.setattr(source, "plain_instruction", lambda line: None)
    assert [read_as_text(text), read_as_text(text), read_as_text(f"\n{text}")] == found


def test_instructions_with_names_or_mistakes_are_not_plain() -> None:
    names = [
        "j loop",
        "li a0, x",
        "la a0, y",
        "addi a0, a0, %lo(y)",
        "addi a0, a0, . - 4",
        "addi a0, a0, 1f",
        ".byte 1",
    ]
    mistakes = ["add a0, a1,", "li a0, 010", "vle8.v v0, 4(a1)", "nop nop", "vsetvli t0, a0, e8", "add = 5", '"x": nop']
    assert [text for text in [*names, *mistakes, "", "x:"] if plain_instruction(Line(text, 1))] == []
    plain = ["x: vadd.vv v1, v2, v3, v0.t", "li a0, 1 << 40", "lw a0, 4*2(a1)", "csrr a0, vl", "ret", "a: b: mv a0, a1"]
    assert all(plain_instruction(Line(text, 1)) for text in plain)
    assert plain_instruction(Line("nop", 1, within=("in macro M",))) is None
