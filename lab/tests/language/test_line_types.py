"""The vector types at lines of a source: by hand, and compared with what the language server says of the same source."""

import pathlib

import pytest

from support.language_client import Editor
from support.places import EXAMPLES, TOURS
from vecmon_lab.assembler.source import LineType
from vecmon_lab.guest.changes import vtype_text
from vecmon_lab.language.line_types import MAX_STATEMENTS, read_typed_source
from vecmon_lab.machine.answers import VILL, ControlRegisters

# Each line at which a type is shown ends with it, by sections 3.4, 6 and 7.7 of V 1.0 with VLEN 256.
TYPED = """\
        .macro set width
        vsetvli t0, a0, e\\width, m1, ta, ma
        .endm
_start: vadd.vv v1, v1, v1              # vill 0
        li a0, 13
loop:   vsetvli t0, a0, e32, m2, ta, mu # e32,m2,ta,mu ?
        vle32.v v8, (a1)
        sub a0, a0, t0
        bnez a0, loop
        set 16                          # e16,m1,ta,ma ?
        beqz a1, 1f
        vsetivli x0, 4, e8, m1, ta, ma  # e8,m1,ta,ma 4
1:      nop                             # e8,m1,ta,ma|e16,m1,ta,ma ?
        vadd.vv v1, v1, v1
        vsetivli x0, 5, e8, m1, ta, ma  # e8,m1,ta,ma 5
        beqz a1, 2f
2:      vle8ff.v v8, (a2)
        vadd.vv v1, v1, v1              # e8,m1,ta,ma ?
        beqz a1, 3f
        vsetivli x0, 6, e8, m1, ta, ma  # e8,m1,ta,ma 6
3:      nop
        addi a0, a0, 1
        call sets
        vadd.vv v1, v1, v1              # e64,m1,tu,mu 4
        vsetvl t0, x0, a5               # ? ?
        vadd.vv v1, v1, v1
        ebreak
sets:   vsetvli t0, x0, e64, m1, tu, mu # e64,m1,tu,mu 4
        ret
        vsetvli t0, x0, e8, m1, tu, mu
        vadd.vv v1, v1, v1
"""


def said(typed: LineType) -> str:
    """Types at a line as TYPED has them."""
    return f"{'|'.join(vtype_text(int(each, 16)) for each in typed['types']) or '?'} {typed.get('vl', '?')}"


def test_types_by_hand(program: pathlib.Path) -> None:
    """Those that no instruction takes aren't shown, nor any where nothing leads."""
    lines = enumerate(TYPED.split("\n"), 1)
    expected = {number: line.partition("#")[2].strip() for number, line in lines if "#" in line}
    read = read_typed_source(TYPED, program)
    assert not read.mistakes and {each["line"]: said(each) for each in read.types} == expected


def test_half_typed_source(program: pathlib.Path) -> None:
    """A line that may set another type makes it unknown, which is shown where an instruction takes it."""
    read = read_typed_source("vsetivli x0, 4, e8, m1, ta, ma\nvsetvl\nvadd.vv v1, v1, v1\nvadd.vv v1\n", program)
    assert [each.line for each in read.mistakes] == [2, 4]
    assert [(each["line"], said(each)) for each in read.types] == [(1, "e8,m1,ta,ma 4"), (3, "? ?")]


def test_long_source_has_none(program: pathlib.Path) -> None:
    text = "vsetivli x0, 4, e8, m1, ta, ma\n.rept {}\nnop\n.endr\n"
    assert read_typed_source(text.format(MAX_STATEMENTS - 1), program).types
    assert not read_typed_source(text.format(MAX_STATEMENTS), program).types


SOURCES = [*sorted(EXAMPLES.rglob("*.s")), *sorted(TOURS.glob("*.s"))]


@pytest.mark.parametrize("text", [TYPED, *(path.read_text("utf-8") for path in SOURCES)])
def test_types_are_those_of_the_language_server(program: pathlib.Path, text: str) -> None:
    """Where both say something about a line: after an instruction that sets a type, and at a label with another one than above."""
    with Editor() as editor:
        editor.set_text(text)
        hints = editor.hints()
    read = read_typed_source(text, program)
    typed = {each["line"] - 1: each for each in read.types}
    setting = {each.line - 1 for each in read.statements if each.text.startswith("vset") and not each.within}
    compared = 0
    for line in setting:
        assert (line in typed) == (line in hints) or typed[line]["types"] == []
        if line in hints:
            compared += 1
            assert hints[line].split("; ")[-1] == after_set(typed[line])
    for line in typed.keys() & hints.keys() - setting:
        types = " or ".join(vtype_text(int(each, 16)) for each in typed[line]["types"])
        said_there = hints[line].split("; ")[0]
        if said_there.startswith(("here", "type differs")):
            compared += 1
            assert said_there in (f"here {types}", f"type differs by the way here: {types}")
    assert compared >= len(setting & hints.keys())


def after_set(typed: LineType) -> str:
    """A type that an instruction sets as docs/LANGUAGE_SERVER.md has it."""
    (vtype,) = (int(each, 16) for each in typed["types"])
    if vtype == VILL:
        return "vill, vl 0"
    most = ControlRegisters(vtype=vtype).vlmax
    return f"vl {typed['vl']}, VLMAX {most}" if "vl" in typed else f"vl ≤ {most}, VLMAX {most}"
