"""Which results the standard leaves open, by hand from its rules: of an instruction, the state before it and its fault."""

import pytest

from vecmon_lab.instructions.left_open import Executed, left_open, open_result
from vecmon_lab.machine.answers import VILL, ControlRegisters
from vecmon_lab.tables.table import read_table

E8, E32M2 = 0xC0, 0xD1  # ta, ma
NO_X = dict[int, int]()
VLE32, VSE32, VSSE32 = 0x02056407, 0x02056427, 0x0AB56427  # v8, (x10); vsse32.v has x11 as its stride
VSEG = 0x22050427  # vsseg2e8.v v8, (x10)


def step(word: int, text: str, **given: object) -> Executed:
    """An instruction with these registers x, and control, cause and element."""
    x = [0] * 32
    named = given.pop("x", NO_X)
    assert isinstance(named, dict)
    for number, value in named.items():
        x[number] = value
    control = given.pop("control", ControlRegisters(4, E32M2))
    assert isinstance(control, ControlRegisters)
    return Executed(word, text, x, control, bytes(1024), **given)  # type: ignore[arg-type]


FIXED = [
    step(0x022180D7, "vadd.vv v1, v2, v3", control=ControlRegisters(4, E8)),
    step(0x02218057, "vadd.vv v0, v2, v3", control=ControlRegisters(), cause=2),  # vill
    step(0x022120D7, "vredsum.vs v1, v2, v2", control=ControlRegisters(4, E8, vstart=2), cause=2),  # chapter 14
    step(VLE32, "vle32.v v8, (x10)", x={10: 0x20004}),
    step(VLE32, "vle32.v v8, (x10)", x={10: 0x20FF4}, cause=5, element=3),  # of the last element
    step(VSSE32, "vsse32.v v8, (x10), x11", x={10: 0x20000, 11: 4}),
    step(0x00A52223, "sw x10, 4(x10)", x={10: 0x20000}),
    step(0x00A52223, "sw x10, 4(x10)", x={10: 0x21000}, cause=7),
    step(0x0D1572D7, "vsetvli x5, x10, 209", x={10: 16}, control=ControlRegisters()),  # e32, m2: VLMAX is 16
    step(0x0D1572D7, "vsetvli x5, x10, 209", x={10: 32}, control=ControlRegisters()),
    step(0x0D107057, "vsetvli x0, x0, 209"),
    step(0x00A51073, "csrrw x0, vxrm, x10", x={10: 3}),
    step(0x00852073, "csrrs x0, vstart, x10", x={10: 255}),
    step(0x00A022F3, "csrrs x5, vxrm, x0"),
    step(0x5E2120D7, "vcompress.vm v1, v2, v2", control=ControlRegisters(4, 0)),
]


@pytest.mark.parametrize("given", FIXED, ids=[given.text for given in FIXED])
def test_fixed_results_have_no_reason(given: Executed) -> None:
    if given.text.startswith("vcompress"):
        given = step(0x5E31A0D7, "vcompress.vm v1, v3, v3", control=ControlRegisters(4, 0))
        assert open_result(given) is not None  # v3 is a mask and elements
        given = step(0x5E3220D7, "vcompress.vm v1, v3, v4", control=ControlRegisters(4, 0))
    assert open_result(given) is None


OPEN = [
    ("a vstart that it never", step(0x022180D7, "vadd.vv v1, v2, v3", control=ControlRegisters(4, E8, vstart=1))),
    ("reads a register with two", step(0x00010257, "vadd.vv v4, v0, v2, v0.t", control=ControlRegisters(4, E8))),
    ("no result for these operands", step(0x022180D7, "vadd.vv v1, v2, v3", cause=2)),  # e32, m2: odd registers
    ("a misaligned access", step(VLE32, "vle32.v v8, (x10)", x={10: 0x20002})),
    ("a misaligned access", step(0x00A52223, "sw x10, 4(x10)", x={10: 0x20001})),
    ("elements after the one", step(VLE32, "vle32.v v8, (x10)", x={10: 0x20FF8}, cause=5, element=2)),
    ("a segment that faults", step(VSEG, "vsseg2e8.v v8, (x10)", control=ControlRegisters(1, E8), cause=7)),
    ("the order of stores", step(VSSE32, "vsse32.v v8, (x10), x11", x={10: 0x20000, 11: 0})),
    ("may shorten vl at will", step(0x03056407, "vle32ff.v v8, (x10)", x={10: 0x20000})),
    ("between VLMAX and twice", step(0x0D1572D7, "vsetvli x5, x10, 209", x={10: 17}, control=ControlRegisters())),
    ("a change of VLMAX", step(0x0C007057, "vsetvli x0, x0, 192")),
    ("an element width above LMUL x ELEN", step(0x0CD572D7, "vsetvli x5, x10, 205", x={10: 1})),  # e16, mf8
    ("how many bits vxrm", step(0x00A51073, "csrrw x0, vxrm, x10", x={10: 4})),
    ("how many bits vxrm", step(0x00A2D073, "csrrwi x0, vxrm, 5")),
    ("are the tail by the standard", step(0x5E3220D7, "vcompress.vm v1, v3, v4", control=ControlRegisters(4, E8))),
    ("a move of whole registers", step(0x9E203157, "vmv1r.v v2, v2", control=ControlRegisters(vtype=VILL), cause=2)),
    ("isn't divisible by 4", step(0x0020006F, "jal x0, 2", cause=0)),
]


@pytest.mark.parametrize("part, given", OPEN, ids=[f"{part}: {given.text}" for part, given in OPEN])
def test_open_results_have_their_reason(part: str, given: Executed) -> None:
    reason = open_result(given)
    assert reason is not None and part in reason


def test_every_row_is_found_by_its_kind() -> None:
    for kind, _, sentence in read_table("left_open"):
        assert sentence in (open_result(given) for _, given in OPEN) or kind in ("vl", "vstart", "trap"), sentence
    assert left_open("vadd.vv v1, v2, v3", ["order", "trap"]) is None
