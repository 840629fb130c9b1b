"""Encodings that read a register with two element widths: by hand from V 1.0, section 5.2, and by what QEMU refuses."""

from collections.abc import Iterator

import pytest

from vecmon_lab.instructions.reserved import registers_of_two_widths
from vecmon_lab.instructions.table import Row, instruction_table
from vecmon_lab.instructions.words import decode
from vecmon_lab.machine.answers import ControlRegisters
from vecmon_lab.programs.draw import draw_program
from vecmon_lab.vectors.cases import draw_case, plan

LEAST_SEEDS, SEEDS = 6, 100
"""The drawn programs that are tried, at least and at most: added instructions change which ones have a multiply-add."""
TYPES = {"e8,m1": 0, "e16,m1": 8, "e16,m2": 9}

# Vector type, word and text; the registers that are read with two widths, by hand; and whether QEMU 10.0.13 and 11.1.3
# (-cpu rv64,v=true,vext_spec=v1.0,vlen=256,elen=64) raise SIGILL there: both, one of them, or none.
ENCODINGS = """\
e8,m1  | 00010257 | vadd.vv v4, v0, v2, v0.t         | 0     | 10 11
e8,m1  | 00200257 | vadd.vv v4, v2, v0, v0.t         | 0     | 10 11
e8,m1  | 00218257 | vadd.vv v4, v2, v3, v0.t         |       |
e8,m1  | 02010257 | vadd.vv v4, v0, v2               |       |
e8,m1  | 0000b257 | vadd.vi v4, v0, 1, v0.t          | 0     | 10 11
e8,m1  | 00050027 | vse8.v v0, (x10), v0.t           | 0     |
e8,m1  | 02050027 | vse8.v v0, (x10)                 |       |
e8,m1  | 000500a7 | vse8.v v1, (x10), v0.t           |       |
e8,m1  | 08b50027 | vsse8.v v0, (x10), x11, v0.t     | 0     |
e8,m1  | 20050027 | vsseg2e8.v v0, (x10), v0.t       | 0     |
e8,m1  | 04050207 | vluxei8.v v4, (x10), v0, v0.t    | 0     | 10 11
e8,m1  | 06050207 | vluxei8.v v4, (x10), v0          |       |
e8,m1  | 24050207 | vluxseg2ei8.v v4, (x10), v0, v0.t | 0     | 10 11
e8,m1  | 04050227 | vsuxei8.v v4, (x10), v0, v0.t    | 0     | 10 11
e8,m1  | 04450027 | vsuxei8.v v0, (x10), v4, v0.t    | 0     | 10 11
e8,m1  | 06455227 | vsuxei16.v v4, (x10), v4         | 4     | 10 11
e8,m1  | 0e4552a7 | vsoxei16.v v5, (x10), v4         | 5     | 10 11
e8,m1  | 06450227 | vsuxei8.v v4, (x10), v4          |       |
e16,m2 | 0e450227 | vsoxei8.v v4, (x10), v4          | 4     | 10 11
e8,m1  | 5c010257 | vmerge.vvm v4, v0, v2, v0        | 0     | 10 11
e8,m1  | 5c218257 | vmerge.vvm v4, v2, v3, v0        |       |
e8,m1  | 5c054257 | vmerge.vxm v4, v0, x10, v0       | 0     | 10 11
e8,m1  | 40010257 | vadc.vvm v4, v0, v2, v0          | 0     |
e8,m1  | 4000b257 | vadc.vim v4, v0, 1, v0           | 0     |
e8,m1  | 44200257 | vmadc.vvm v4, v2, v0, v0         | 0     |
e8,m1  | 4c054257 | vmsbc.vxm v4, v0, x10, v0        | 0     |
e8,m1  | 5e212257 | vcompress.vm v4, v2, v2          | 2     |
e8,m1  | 5e21a257 | vcompress.vm v4, v2, v3          |       |
e8,m1  | 50082257 | viota.m v4, v0, v0.t             |       |
e8,m1  | 66002257 | vmand.mm v4, v0, v0              |       |
e8,m1  | 400822d7 | vcpop.m x5, v0, v0.t             |       |
e8,m1  | 5000a257 | vmsbf.m v4, v0, v0.t             |       |
e8,m1  | 5008a257 | vid.v v4, v0.t                   |       |
e8,m1  | 00012257 | vredsum.vs v4, v0, v2, v0.t      | 0     | 11
e8,m1  | 00202257 | vredsum.vs v4, v2, v0, v0.t      | 0     | 11
e8,m1  | 02212257 | vredsum.vs v4, v2, v2            |       |
e8,m1  | c6210257 | vwredsum.vs v4, v2, v2           | 2     | 11
e8,m1  | f622a257 | vwmacc.vv v4, v5, v2             | 5     | 10 11
e8,m1  | f6512257 | vwmacc.vv v4, v2, v5             | 5     | 10 11
e8,m1  | f6232257 | vwmacc.vv v4, v6, v2             |       |
e8,m1  | fe556257 | vwmaccsu.vx v4, x10, v5          | 5     | 10 11
e8,m1  | fa556257 | vwmaccus.vx v4, x10, v5          | 5     | 10 11
e16,m2 | f2452457 | vwmaccu.vv v8, v10, v4           | 10 11 | 10 11
e8,m1  | b6422257 | vmacc.vv v4, v4, v4              |       |
e8,m1  | b4202257 | vmacc.vv v4, v0, v2, v0.t        | 0     | 10 11
e8,m1  | a4056257 | vmadd.vx v4, x10, v0, v0.t       | 0     | 10 11
e8,m1  | bc202257 | vnmsac.vv v4, v0, v2, v0.t       | 0     | 10 11
e8,m1  | ac012257 | vnmsub.vv v4, v2, v0, v0.t       | 0     | 10 11
e8,m1  | c6512257 | vwadd.vv v4, v5, v2              |       |
e8,m1  | ee512257 | vwmul.vv v4, v5, v2              |       |
e8,m1  | d663a257 | vwadd.wv v4, v6, v7              | 7     | 10 11
e8,m1  | d6642257 | vwadd.wv v4, v6, v8              |       |
e8,m1  | da632257 | vwsubu.wv v4, v6, v6             | 6     | 10 11
e8,m1  | b2638257 | vnsrl.wv v4, v6, v7              | 7     | 10 11
e8,m1  | bc054257 | vnclip.wx v4, v0, x10, v0.t      | 0     | 10 11
e8,m1  | 3a210257 | vrgatherei16.vv v4, v2, v2       | 2     | 10 11
e16,m1 | 3a210257 | vrgatherei16.vv v4, v2, v2       |       |
e8,m1  | 30010257 | vrgather.vv v4, v0, v2, v0.t     | 0     | 10 11
e16,m1 | 4803a257 | vsext.vf2 v4, v0, v0.t           | 0     | 10 11
e8,m1  | 60010257 | vmseq.vv v4, v0, v2, v0.t        | 0     |
e8,m1  | 68054257 | vmsltu.vx v4, v0, x10, v0.t      | 0     |
e8,m1  | 3800b257 | vslideup.vi v4, v0, 1, v0.t      | 0     | 10 11
e8,m1  | 3c056257 | vslide1down.vx v4, v0, x10, v0.t | 0     | 10 11
e8,m1  | 3c20b257 | vslidedown.vi v4, v2, 1, v0.t    |       |
e8,m1  | 420022d7 | vmv.x.s x5, v0                   |       |"""
CASES = [[cell.strip() for cell in line.split("|")] for line in ENCODINGS.splitlines()]


@pytest.mark.parametrize("vtype, word, text, registers, refusals", CASES, ids=[case[2] for case in CASES])
def test_registers_read_with_two_widths_are_reserved(
    vtype: str, word: str, text: str, registers: str, refusals: str
) -> None:
    view = ControlRegisters(vtype=TYPES[vtype])
    instruction = decode(int(word, 16), view.sew, view.lmul)
    assert instruction is not None
    assert registers_of_two_widths(instruction) == [int(number) for number in registers.split()]


def test_qemu_refuses_only_reserved_encodings() -> None:
    refused = [registers for _, _, _, registers, refusals in CASES if refusals]
    assert len(refused) == 33 and all(refused)


def widths_read(row: Row, word: int, sew: int, lmul: int) -> Iterator[tuple[int, int]]:
    """The registers that the encodings tried below read, each with a width, by the manual's fields of the word.

    lmul: in eighths of a register
    """
    vd, vs1, vs2 = word >> 7 & 31, word >> 15 & 31, word >> 20 & 31
    opcode, funct3, is_masked = word & 0x7F, word >> 12 & 7, not word >> 25 & 1
    if is_masked:
        yield 0, 1
    if opcode in (0x07, 0x27) and word >> 26 & 1:  # indexed
        width = {0: 8, 5: 16, 6: 32, 7: 64}[funct3]
        yield from ((vs2 + at, width) for at in range(max(1, lmul * width // sew // 8)))
    if opcode == 0x27 and (word >> 26 & 3 or not word >> 20 & 31):  # what is stored, of whole registers apart
        width = sew if word >> 26 & 1 else {0: 8, 5: 16, 6: 32, 7: 64}[funct3]
        group = max(1, lmul * width // sew // 8)
        yield from ((vd + at, width) for at in range(group * ((word >> 29) + 1)))
    if opcode == 0x57 and row.name.startswith("vwmacc"):
        yield from ((vd + at, 2 * sew) for at in range(max(1, lmul * 2 // 8)))
        sources = [vs2, vs1] if funct3 == 2 else [vs2]
        yield from ((source + at, sew) for source in sources for at in range(max(1, lmul // 8)))
    elif opcode == 0x57 and is_masked and word >> 26 not in (0x10, 0x14):  # operations on masks apart
        yield from [(vs2, sew)] if "vs2" in row.fields() else []
        yield from [(vs1, sew)] if "vs1" in row.fields() else []


def assert_one_width(row: Row, word: int, vtype: int) -> None:
    """Asserts that a word reads each register with one width, as far as `widths_read` knows."""
    sew, lmul = 8 << (vtype >> 3 & 7), (8, 16, 32, 64, 0, 1, 2, 4)[vtype & 7]
    read = set(widths_read(row, word, sew, lmul))
    assert len({number for number, _ in read}) == len(read), (row.name, f"{word:08x}", f"{vtype:x}")


def test_vectors_contain_no_reserved_encoding() -> None:
    rows = instruction_table()
    names = [
        "vwmacc.vv",
        "vwmaccus.vx",
        "vse16.v",
        "vsse16.v",
        "vsseg2e32.v",
        "vsoxseg2ei64.v",
        "vsuxseg3ei32.v",
        "vluxei8.v",
    ]
    tried = 0
    for row in (rows[name] for name in names):
        for number, kind in enumerate(plan(row, 0)):
            case = draw_case(row, number, 0)
            if not kind.is_illegal:
                assert_one_width(row, case.word, case.control.vtype)
                tried += 1
    assert tried > 200


def test_programs_contain_no_reserved_encoding() -> None:
    """Vector types are followed by the words: those of vset, and the constants that `vsetvl` reads."""
    rows = [(row, int(row.bits.replace("-", "0"), 2), int(row.bits.replace("0", "1").replace("-", "0"), 2))
            for row in instruction_table().values()]  # fmt: skip
    masked = multiply_adds = 0
    for seed in range(SEEDS):
        if seed >= LEAST_SEEDS and masked > 100 and multiply_adds > 3:
            break
        vtype, constants = 0, dict[int, int]()
        words = iter(draw_program(f"{seed}", 400, False).words)
        for word in words:
            if word < 0:
                next(words, None)
                continue
            row = next(row for row, bits, mask in rows if word & mask == bits)
            if row.name == "addi" and not word >> 15 & 31:
                constants[word >> 7 & 31] = word >> 20
            elif row.name.startswith("vset"):
                vtype = constants[word >> 20 & 31] if row.name == "vsetvl" else word >> 20 & 0xFF
            assert_one_width(row, word, vtype)
            masked += "v0.t" in row.operands and not word >> 25 & 1
            multiply_adds += row.name.startswith("vwmacc")
    assert masked > 100 and multiply_adds > 3
