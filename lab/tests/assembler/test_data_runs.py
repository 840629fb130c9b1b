"""The types and numbers of data that directives lay in memory, worked out by hand."""

from vecmon_lab.assembler.data_runs import DataRun
from vecmon_lab.assembler.source import read_source

SOURCE = """nop
.data
xs: .word 1, -2, 3
 .word 4
bytes: .byte 200, 5
 .byte -1
 .align 1
halves: .half 5, 0x7fff
longs: .dword xs, -1
greeting: .asciz "hallo"
 .ascii "!"
room: .zero 8
ys: .word 0xffffffff
zs: .word 1
"""


def test_data_runs_by_label() -> None:
    """-1 fits a byte with 200 as 255; .zero has no type; a label begins another run."""
    assert read_source(SOURCE).data == {
        0x11000: DataRun("i32", 4),
        0x11010: DataRun("u8", 3),
        0x11014: DataRun("i16", 2),
        0x11018: DataRun("i64", 2),
        0x11028: DataRun("text", 7),
        0x11037: DataRun("u32", 1),
        0x1103B: DataRun("i32", 1),
    }


def test_instructions_and_mistakes_have_no_data() -> None:
    assert read_source(".word 0x13\nnop").data == {}
    assert read_source(f"{SOURCE}\n.word x y").data == {}


def test_type_changes_within_a_label() -> None:
    assert read_source('.data\nrow: .word 1\n.half 2\n.ascii "a"\n.byte 1').data == {
        0x10000: DataRun("i32", 1),
        0x10004: DataRun("i16", 1),
        0x10006: DataRun("text", 1),
        0x10007: DataRun("i8", 1),
    }


def test_summary_counts_instructions_and_bytes() -> None:
    """16 + 3, 4 + 16 + 7 and 4 + 4 bytes; the gap and the 8 bytes of `.zero` aren't counted."""
    assert read_source(SOURCE).summary() == "1 instruction, from 0x10000; 54 bytes of data, from 0x11000"
    assert read_source("nop\nli a0, 0x12345\n").summary() == "3 instructions, from 0x10000"
