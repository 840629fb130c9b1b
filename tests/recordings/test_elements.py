"""Elements that the recorder counts of one instruction, worked out by hand from the manual."""

import pathlib

import pytest

from tests.recordings.recorder import read_counts, record

EBREAK = 0x00100073

# VLEN is 256 bits and the vector type is e32, m2 (vtype 11), so VLMAX is 256 * 2 / 32 = 16 elements. In v0 bits 1 and 4
# are set. By the sections of the "V" Vector Extension 1.0:
# - 3.7, 5.3, 5.4: the body is the elements from vstart to vl, the tail those from vl to VLMAX. Of a masked instruction
#   the elements of the body whose bit in v0 is 0 are masked off.
# - 11.4, 11.15: vm is 0 in vadc, vsbc and vmerge, and in vmadc and vmsbc with a carry. v0 is an operand there, and all
#   elements of the body are computed and written: all are active, whatever v0 is.
# - 14, 15.4, 15.9: a reduction, vmsbf and vid work on the active elements, as vadd and vmseq do.
# - 16.1: vmv.x.s reads element 0, also where vl is 0 or vstart is vl or more. vmv.s.x writes element 0 where vstart is
#   less than vl, and nothing else.
# - 16.3: vslideup by 3 leaves elements 0 to 2 of the destination, which are elements of the body all the same.
# - 16.5: vcompress can't be masked.
# - 16.6: vmv2r.v copies 2 registers, 2 * 256 / 32 = 16 elements, from vstart on, whatever vl is.
CASES = [
    ("vmadc.vvm v2, v4, v6, v0", 0x44430157, 16, 0, 16, 0, 0),
    ("vmadc.vxm v2, v4, x6, v0", 0x44434157, 16, 0, 16, 0, 0),
    ("vmadc.vim v2, v4, 3, v0", 0x4441B157, 16, 0, 16, 0, 0),
    ("vmsbc.vvm v2, v4, v6, v0", 0x4C430157, 16, 0, 16, 0, 0),
    ("vmsbc.vxm v2, v4, x6, v0", 0x4C434157, 16, 0, 16, 0, 0),
    ("vmadc.vvm v2, v4, v6, v0", 0x44430157, 5, 1, 4, 0, 11),
    ("vmadc.vxm v2, v4, x6, v0", 0x44434157, 5, 1, 4, 0, 11),
    ("vmadc.vim v2, v4, 3, v0", 0x4441B157, 5, 1, 4, 0, 11),
    ("vmsbc.vvm v2, v4, v6, v0", 0x4C430157, 5, 1, 4, 0, 11),
    ("vmsbc.vxm v2, v4, x6, v0", 0x4C434157, 5, 1, 4, 0, 11),
    ("vmadc.vvm v2, v4, v6, v0", 0x44430157, 0, 0, 0, 0, 16),
    ("vmsbc.vxm v2, v4, x6, v0", 0x4C434157, 0, 0, 0, 0, 16),
    ("vmadc.vv v2, v4, v6", 0x46430157, 5, 0, 5, 0, 11),
    ("vadc.vvm v2, v4, v6, v0", 0x40430157, 5, 0, 5, 0, 11),
    ("vsbc.vxm v2, v4, x6, v0", 0x48434157, 5, 1, 4, 0, 11),
    ("vmerge.vim v2, v4, 3, v0", 0x5C41B157, 16, 0, 16, 0, 0),
    ("vmv.s.x v2, x6", 0x42036157, 16, 0, 1, 0, 0),
    ("vmv.s.x v2, x6", 0x42036157, 5, 1, 1, 0, 0),
    ("vmv.s.x v2, x6", 0x42036157, 0, 0, 0, 0, 0),
    ("vmv.s.x v2, x6", 0x42036157, 1, 1, 0, 0, 0),
    ("vmv.x.s x6, v2", 0x42202357, 16, 0, 1, 0, 0),
    ("vmv.x.s x6, v2", 0x42202357, 0, 0, 1, 0, 0),
    ("vmv.x.s x6, v2", 0x42202357, 5, 1, 1, 0, 0),
    ("vmv.x.s x6, v2", 0x42202357, 1, 1, 1, 0, 0),
    ("vadd.vv v2, v4, v6, v0.t", 0x00430157, 16, 0, 2, 14, 0),
    ("vadd.vv v2, v4, v6, v0.t", 0x00430157, 5, 2, 1, 2, 11),
    ("vmseq.vv v2, v4, v6, v0.t", 0x60430157, 5, 0, 2, 3, 11),
    ("vid.v v2, v0.t", 0x5008A157, 5, 0, 2, 3, 11),
    ("vmsbf.m v2, v4, v0.t", 0x5040A157, 5, 0, 2, 3, 11),
    ("vredsum.vs v2, v4, v6, v0.t", 0x00432157, 5, 0, 2, 3, 11),
    ("vslideup.vi v2, v4, 3, v0.t", 0x3841B157, 5, 0, 2, 3, 11),
    ("vcompress.vm v2, v4, v6", 0x5E432157, 5, 0, 5, 0, 11),
    ("vmv2r.v v2, v4", 0x9E40B157, 0, 0, 16, 0, 0),
    ("vmv2r.v v2, v4", 0x9E40B157, 5, 1, 15, 0, 0),
]


@pytest.mark.parametrize("text, word, vl, vstart, active, masked, tail", CASES)
def test_recorder_counts_elements_of_instruction(
    tmp_path: pathlib.Path, text: str, word: int, vl: int, vstart: int, active: int, masked: int, tail: int
) -> None:
    (tmp_path / "code").write_bytes(word.to_bytes(4, "little") + EBREAK.to_bytes(4, "little"))
    state = f"pc 1000\nvtype 11\nvl {vl:x}\nvstart {vstart:x}\nv0 12{62 * '0'}\n"
    (tmp_path / "registers").write_text(state, "ascii")
    completed = record(tmp_path, "--memory", "1000:x:code", "--registers", "registers")
    counts = read_counts(completed.counts)
    assert (completed.status, counts.instructions, counts.end) == (0, 1, "ebreak pc=0000000000001004"), text
    assert counts.words[0x1000, word] == (1, 1, active, masked, tail), text
