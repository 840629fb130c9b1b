"""Stops in words: reasons where the machine says cause 2 and nowhere else, and the sentences."""

import pathlib
import random
import re
import subprocess

import pytest

from support.images import MARCH
from support.machine_cases import machine_says, random_case, view_of
from support.places import DOCS
from vecmon_lab.instructions.reasons import describe_stop, illegal_reasons
from vecmon_lab.instructions.table import instruction_table
from vecmon_lab.instructions.words import CONTROL_REGISTERS
from vecmon_lab.machine.answers import ControlRegisters, Position, Stop, read

VILL = ControlRegisters()


def view(sew: int, lmul: str, vstart: int = 0) -> ControlRegisters:
    """The state with a vector type, by its element width and its group multiplier as assembler text has it."""
    return ControlRegisters(
        0,
        (8, 16, 32, 64).index(sew) << 3 | {"m1": 0, "m2": 1, "m4": 2, "m8": 3, "mf8": 5, "mf4": 6, "mf2": 7}[lmul],
        vstart,
    )


def test_reason_is_given_exactly_for_cause_2(program: pathlib.Path) -> None:
    draws = random.Random(30000)
    cases = [random_case(draws) for _ in range(30000)]
    answers = machine_says(program, cases)
    differ = [
        (f"{case.word:08x}", state, answer)
        for case, (state, answer) in zip(cases, answers)
        if ("cause=2" in answer) != (illegal_reasons(case.word, state) != [])
    ]
    assert differ == []
    illegal = sum("cause=2" in answer for _, answer in answers)
    assert 10000 < illegal < 20000


def test_fences_and_control_register_reads_are_legal() -> None:
    assert all(illegal_reasons(0x0000000F | bits << 15, VILL) == [] for bits in (0, 1, 0x1FFFF))
    assert all(illegal_reasons(0x000022F3 | number << 20, VILL) == [] for number in CONTROL_REGISTERS)


M2_ODD = "The vector type has LMUL 2, so register groups begin at even registers"
BOTH_BEGIN = "they may overlap only where both begin with the same register."
BOTH_END = "they may overlap only where both end with the same register."
NO_TYPE = "The vector type is vill: no vset instruction has set one that is supported."
V0_READ = "It reads a mask from v0, so v0 can't be its destination."

REASONS: list[tuple[str, ControlRegisters, list[str]]] = [
    # sections 3.4.4 and 3.7: vill, vstart
    ("vadd.vv v1, v2, v3", VILL, [NO_TYPE]),
    ("vle8.v v8, (x10)", VILL, [NO_TYPE]),
    ("vlm.v v8, (x10)", VILL, [NO_TYPE]),
    ("vmv1r.v v8, v9", VILL, [NO_TYPE]),
    ("vl1re8.v v8, (x10)", VILL, []),
    ("vs8r.v v8, (x10)", VILL, []),
    ("vsetvli x5, x10, 1024", VILL, []),
    ("vredsum.vs v1, v2, v3", view(32, "m1", 3), ["vstart is 3, and vredsum has to begin with element 0."]),
    ("vcpop.m x5, v2", ControlRegisters(vstart=1), [NO_TYPE, "vstart is 1, and vcpop has to begin with element 0."]),
    ("vmsbf.m v1, v2", view(8, "m1", 7), ["vstart is 7, and vmsbf has to begin with element 0."]),
    ("vcompress.vm v1, v2, v3", view(8, "m1", 7), ["vstart is 7, and vcompress has to begin with element 0."]),
    ("vadd.vv v1, v2, v3", view(8, "m1", 7), []),
    # section 3.4.2: groups
    ("vadd.vv v1, v2, v4", view(32, "m2"), [f"{M2_ODD}: v1 is odd."]),
    ("vadd.vv v1, v3, v5", view(32, "m2"), [f"{M2_ODD}: v1, v3 and v5 are odd."]),
    (
        "vadd.vx v4, v6, x5",
        view(32, "m4"),
        ["The vector type has LMUL 4, so register groups begin at registers divisible by 4: v6 is not."],
    ),
    ("vadd.vv v1, v3, v5", view(32, "mf2"), []),
    (
        "vmv4r.v v2, v5",
        view(8, "m1"),
        ["It names 4 whole registers, so register groups begin at registers divisible by 4: v2 and v5 are not."],
    ),
    (
        "vl2re8.v v3, (x10)",
        VILL,
        ["It names 2 whole registers, so register groups begin at even registers: v3 is odd."],
    ),
    (
        "vwadd.vv v2, v8, v10",
        view(16, "m2"),
        [
            "The destination has EMUL 4 (EEW 32 / SEW 16 x LMUL 2),"
            " so register groups begin at registers divisible by 4: v2 is not."
        ],
    ),
    # section 5.2: widths, multipliers, overlaps
    (
        "vwadd.vv v8, v1, v2",
        view(64, "m1"),
        ["The destination would have elements of 128 bits (2 x SEW 64), and ELEN is 64."],
    ),
    (
        "vnsrl.wi v8, v16, 1",
        view(32, "m8"),
        ["The source would have EMUL 16 (EEW 64 / SEW 32 x LMUL 8), and EMUL is 1/8 to 8."],
    ),
    (
        "vzext.vf8 v8, v16",
        view(32, "m1"),
        ["The source would have elements of 4 bits (SEW 32 / 8), and 8 is the least."],
    ),
    (
        "vzext.vf2 v8, v16",
        view(8, "mf8"),
        [
            "The source would have elements of 4 bits (SEW 8 / 2), and 8 is the least.",
            "The source would have EMUL 1/16 (EEW 4 / SEW 8 x LMUL 1/8), and EMUL is 1/8 to 8.",
        ],
    ),
    (
        "vluxei64.v v8, (x10), v16",
        view(8, "m2"),
        ["The index would have EMUL 16 (EEW 64 / SEW 8 x LMUL 2), and EMUL is 1/8 to 8."],
    ),
    (
        "vse64.v v8, (x10)",
        view(8, "m2"),
        ["The data would have EMUL 16 (EEW 64 / SEW 8 x LMUL 2), and EMUL is 1/8 to 8."],
    ),
    ("vwadd.vv v2, v3, v8", view(8, "m1"), []),
    (
        "vwadd.vv v2, v2, v8",
        view(8, "m1"),
        [f"The destination v2 to v3 (16 bits) has wider elements than the source v2 (8 bits): {BOTH_END}"],
    ),
    (
        "vzext.vf4 v4, v4",
        view(32, "m2"),
        [
            "The destination v4 to v5 (32 bits) has wider elements than the source v4 (8 bits), which has EMUL 1/2:"
            " they may not overlap."
        ],
    ),
    ("vnsrl.wi v2, v2, 1", view(8, "m1"), []),
    (
        "vnsrl.wi v3, v2, 1",
        view(8, "m1"),
        [f"The destination v3 (8 bits) has narrower elements than the source v2 to v3 (16 bits): {BOTH_BEGIN}"],
    ),
    ("vmseq.vv v2, v2, v4", view(8, "m2"), []),
    (
        "vmseq.vv v5, v2, v4",
        view(8, "m2"),
        [f"The destination v5 (1 bit) has narrower elements than the source v4 to v5 (8 bits): {BOTH_BEGIN}"],
    ),
    ("vredsum.vs v5, v4, v5", view(8, "m2"), []),
    ("vmand.mm v5, v5, v5", view(8, "m8"), []),
    # section 5.3: v0 as the destination of a masked instruction
    ("vadd.vv v0, v2, v4, v0.t", view(8, "m1"), [V0_READ]),
    ("vadc.vvm v0, v2, v4, v0", view(8, "m1"), [V0_READ]),
    ("vlseg2e8.v v0, (x10), v0.t", view(8, "m1"), [V0_READ]),
    ("vse8.v v0, (x10), v0.t", view(8, "m1"), []),
    ("vmseq.vv v0, v2, v4, v0.t", view(8, "m1"), []),
    ("vredsum.vs v0, v2, v4, v0.t", view(8, "m1"), []),
    ("vmsof.m v0, v2, v0.t", view(8, "m1"), [V0_READ]),
    # section 7.8: segments
    ("vlseg3e32.v v8, (x10)", view(32, "m4"), ["3 fields of 4 registers each are 12, and 8 is the most."]),
    (
        "vsseg4e32.v v30, (x10)",
        view(32, "m1"),
        ["The data takes 4 registers from v30 on, and v31 is the last."],
    ),
    (
        "vluxseg2ei8.v v4, (x10), v5",
        view(8, "m1"),
        ["The destination of an indexed segment load may not overlap its index: v5 is in both."],
    ),
    ("vsuxseg2ei8.v v4, (x10), v5", view(8, "m1"), []),
    ("vluxei8.v v4, (x10), v4", view(8, "m1"), []),
    # sections 11.10 and 12.3: high products
    ("vmulh.vv v1, v2, v3", view(64, "m1"), ["Zve64x has no vmulh at SEW 64."]),
    ("vsmul.vx v1, v2, x3", view(64, "m1"), ["Zve64x has no vsmul at SEW 64."]),
    ("vmul.vv v1, v2, v3", view(64, "m1"), []),
    # chapters 15 and 16: no overlap at all
    ("viota.m v2, v2", view(8, "m1"), ["The destination of viota may not overlap its source: v2 is in both."]),
    (
        "vslideup.vi v2, v2, 1",
        view(8, "m2"),
        ["The destination of vslideup may not overlap its source: v2 to v3 are in both."],
    ),
    ("vslidedown.vi v2, v2, 1", view(8, "m2"), []),
    (
        "vrgather.vv v2, v4, v2",
        view(8, "m1"),
        ["The destination of vrgather may not overlap its source: v2 is in both."],
    ),
    (
        "vrgatherei16.vv v2, v4, v3",
        view(32, "m2"),
        [
            "The destination of vrgatherei16 may not overlap its index: v3 is in both.",
        ],
    ),
    (
        "vcompress.vm v2, v4, v3",
        view(8, "m2"),
        ["The destination of vcompress may not overlap its source: v3 is in both."],
    ),
    # several reasons at once
    (
        "vslideup.vi v0, v1, 1, v0.t",
        view(8, "m2"),
        [f"{M2_ODD}: v1 is odd.", V0_READ, "The destination of vslideup may not overlap its source: v1 is in both."],
    ),
    (
        "vwredsum.vs v1, v3, v5",
        view(64, "m2", 1),
        [
            "The destination would have elements of 128 bits (2 x SEW 64), and ELEN is 64.",
            "The source would have elements of 128 bits (2 x SEW 64), and ELEN is 64.",
            f"{M2_ODD}: v3 is odd.",
            "vstart is 1, and vwredsum has to begin with element 0.",
        ],
    ),
    # no instruction
    (
        ".word 0x00000000",
        VILL,
        ["The word is 0, as in memory where nothing was written: is an ebreak or ret missing before it?"],
    ),
    (
        ".word 0x00010001",
        VILL,
        [
            f"Its lowest bits aren't 11: it would be a compressed instruction, and the machine has none: compile with {MARCH}."
        ],
    ),
    (
        ".word 0xffffffff",
        VILL,
        ["Its lowest bits are 11111: it would be longer than 32 bits, and the machine has none such."],
    ),
    (".word 0x1005252f", VILL, [f"It would be an atomic instruction, and the machine has none: compile with {MARCH}."]),
    (
        ".word 0x02a50553",
        VILL,
        [f"It would be a floating-point instruction, and the machine has none: compile with {MARCH}."],
    ),
    (".word 0x00053507", VILL, [f"It would be a floating-point load, and the machine has none: compile with {MARCH}."]),
    (
        ".word 0x02209057",
        VILL,
        [f"It would be a vector floating-point instruction, and Zve64x has none: compile with {MARCH}."],
    ),
    (".word 0x0000100f", VILL, ["There is no fence.i: a fetch sees every earlier store."]),
    (".word 0x0000000b", VILL, ["No instruction has the opcode 0001011."]),
    (".word 0x00002063", VILL, ["No instruction with the opcode 1100011 has funct3 010."]),
    (
        ".word 0x40001033",
        VILL,
        [
            f"It would be an instruction of another extension, as Zba or Zbb, and the machine has none: compile with {MARCH}."
        ],
    ),
    (
        ".word 0x10500073",
        VILL,
        ["Of opcode SYSTEM with funct3 000 programs in user mode have ecall and ebreak alone."],
    ),
    (
        "csrrs x5, 0xc00, x0",
        VILL,
        ["There is no control register 0xc00: there are vstart, vxsat, vxrm, vcsr, vl, vtype and vlenb alone."],
    ),
    (
        "csrrw x0, 0xc00, x0",
        VILL,
        [
            "It is unimp, a trap that compilers emit: for __builtin_trap, for code that can't be reached, and for failed"
            " checks of -fsanitize."
        ],
    ),
    ("csrrw x0, vl, x0", VILL, ["It writes vl, which can only be read."]),
    ("csrrci x5, vtype, 1", VILL, ["It writes vtype, which can only be read."]),
    ("csrrsi x5, vlenb, 0", VILL, []),
    (".word 0x0a20b057", view(8, "m1"), ["There is no form with an immediate of vsub."]),
    (".word 0x2210b057", view(8, "m1"), ["No vector instruction with funct3 011 has funct6 001000."]),
    (".word 0x42208057", view(8, "m1"), ["vadc has vm = 0, and this word has vm = 1."]),
    (
        ".word 0x5e208057",
        view(8, "m1"),
        ["vmerge has vm = 0, vmv.v has vm = 1 and vs2 = 0, and this word has vm = 1 and vs2 = 2."],
    ),
    (".word 0x12050407", view(8, "m1"), ["Its bit 28 (mew) is 1, which is reserved for elements above 64 bits."]),
    (".word 0x02150407", view(8, "m1"), ["No unit-stride load has 00001 at bits 24 to 20."]),
    (".word 0x03050427", view(8, "m1"), ["No unit-stride store has 10000 at bits 24 to 20."]),
    (
        ".word 0x42850427",
        VILL,
        ["A store of whole registers takes 1, 2, 4 or 8 of them, unmasked, by width 000."],
    ),
    (".word 0x00b50407", VILL, ["A load of a mask takes one register, unmasked, by width 000."]),
    (".word 0x82007057", VILL, ["No vset instruction begins with the bits 10 but vsetvl, with 1000000."]),
]


def test_illegal_reasons_equal_hand_worked_reasons(program: pathlib.Path) -> None:
    """Each reason by hand from the manual's rules; the words are the machine's own for the text."""
    lines = ["1 enter", "1 map 10000 1 rwx", *(f"1 asm 10000 {text}" for text, _, _ in REASONS)]
    completed = subprocess.run([program], input="\n".join(lines).encode(), stdout=subprocess.PIPE, check=True)
    words = [int(answer.split()[2], 16) for answer in completed.stdout.decode().splitlines()[2:]]
    given = [(text, state, illegal_reasons(word, state)) for word, (text, state, _) in zip(words, REASONS)]
    assert given == REASONS


# As llvm-mc 19 assembles them, without masks; masked ones of OP-V have bit 25 clear.
OTHER_EXTENSIONS = {
    "Zvkb": "vandn.vv=06950457 vandn.vx=06954457 vbrev8.v=4a942457 vrev8.v=4a94a457 vrol.vv=56950457 vrol.vx=56954457 vror.vv=52950457 vror.vx=52954457 vror.vi=5292b457 vror.vi=5692b457",
    "Zvbb": "vbrev.v=4a952457 vclz.v=4a962457 vctz.v=4a96a457 vcpop.v=4a972457 vwsll.vv=d6a60457 vwsll.vx=d6a54457 vwsll.vi=d6a1b457",
    "Zvbc": "vclmul.vv=32952457 vclmul.vx=32956457 vclmulh.vv=36952457 vclmulh.vx=36956457",
    "Zvkg": "vghsh.vv=b2952477 vgmul.vv=a298a477",
    "Zvkned": "vaesdf.vv=a290a477 vaesdf.vs=a690a477 vaesdm.vv=a2902477 vaesdm.vs=a6902477 vaesef.vv=a291a477 vaesef.vs=a691a477 vaesem.vv=a2912477 vaesem.vs=a6912477 vaesz.vs=a693a477 vaeskf1.vi=8a91a477 vaeskf2.vi=aa91a477",
    "Zvknha or Zvknhb": "vsha2ms.vv=b6952477 vsha2ch.vv=ba952477 vsha2cl.vv=be952477",
    "Zvksed": "vsm4k.vi=8691a477 vsm4r.vv=a2982477 vsm4r.vs=a6982477",
    "Zvksh": "vsm3c.vi=ae91a477 vsm3me.vv=82952477",
}


@pytest.mark.parametrize("extension", OTHER_EXTENSIONS)
def test_instructions_of_vector_cryptography_are_named(extension: str) -> None:
    named = [each.split("=") for each in OTHER_EXTENSIONS[extension].split()]
    for name, digits in (each for each in named if each[0] not in instruction_table()):
        reason = [f"It would be {name} of {extension}, which the machine lacks: compile with {MARCH}."]
        assert illegal_reasons(int(digits, 16), view(32, "m1")) == reason
        if int(digits, 16) & 0x7F == 0x57:
            assert illegal_reasons(int(digits, 16) & ~(1 << 25), VILL) == reason


STOPS = [
    ("1 stepped 3 pc=000000000001000c", "Instructions executed: 3. The next one is at 0x1000c."),
    ("running pc=0000000000010000", "The program runs, from 0x10000 on."),
    ("8 stopped pc=0000000000010000", "The program was stopped at 0x10000."),
    ("1 state running pc=0000000000010000", "The program runs, and is at 0x10000."),
    ("1 state stopped pc=0000000000010008", "The program is stopped at 0x10008."),
    ("1 break pc=0000000000010004", "Stopped at the breakpoint at 0x10004; its instruction is the next one."),
    ("1 ebreak pc=0000000000010008", "Stopped at the ebreak at 0x10008."),
    ("1 exit 3 pc=0000000000010008", "The program has ended with status 3, at 0x10008."),
    (
        "1 outfull pc=0000000000010008",
        "The write at 0x10008 waits: the output buffer has no room until `out` empties it.",
    ),
    (
        "1 fault cause=0 pc=0000000000010000 value=0000000000010002",
        "The jump or branch at 0x10000 goes to 0x10002, which isn't divisible by 4.",
    ),
    (
        "1 fault cause=1 pc=0000000000000000 value=0000000000000000",
        "No instruction can be fetched at 0x0: its page isn't mapped, or has no permission x.",
    ),
    ("1 fault cause=2 pc=0000000000010004 value=0000000000000000", "Illegal instruction at 0x10004: 0x00000000."),
    (
        "1 fault cause=5 pc=0000000000010000 value=0000000000020000",
        "The load at 0x10000 may not read from 0x20000 on: a page isn't mapped, or has no permission r.",
    ),
    (
        "1 fault cause=7 pc=0000000000010000 value=0000000000020000",
        "The store at 0x10000 may not write from 0x20000 on: a page isn't mapped, or has no permission w.",
    ),
]


def position_of(line: str) -> Position | Stop:
    """Where the line says that a program is, with the user's digit or without. Raises ValueError for another line."""
    answer = read([line if re.match("[1-8*] ", line) else f"1 {line}"])
    if not isinstance(answer, Position | Stop):
        raise ValueError(line)
    return answer


@pytest.mark.parametrize("line, sentence", STOPS)
def test_stop_line_is_described(line: str, sentence: str) -> None:
    assert describe_stop(position_of(line)) == sentence


def test_illegal_instruction_is_named_with_reasons() -> None:
    stop = position_of("1 fault cause=2 pc=0000000000010008 value=00000000022200d7")
    assert (
        describe_stop(stop, 0x022200D7, view(32, "m2"), "vadd.vv v1, v2, v4")
        == f"Illegal instruction at 0x10008: vadd.vv v1, v2, v4. {M2_ODD}: v1 is odd."
    )
    assert describe_stop(stop, view=VILL) == f"Illegal instruction at 0x10008: 0x022200d7. {NO_TYPE}"


def test_vector_access_fault_names_element() -> None:
    stop = position_of("1 fault cause=5 pc=0000000000010008 value=0000000000020000")
    assert describe_stop(stop, 0x02056407, view(32, "m2", 5)).endswith("no permission r. It stopped at element 5.")
    assert describe_stop(stop, 0x00053283, view(32, "m2", 5)).endswith("no permission r.")


@pytest.mark.parametrize("cause", [5, 7])
@pytest.mark.parametrize(
    "address, is_full", [(0x7FFFAFFF, True), (0x7FEFB000, True), (0x7FEFAFFF, False), (0x7FFFF000, False), (0, False)]
)
def test_fault_below_stack_is_called_overflow(cause: int, address: int, is_full: bool) -> None:
    """The stack is from 7fffb000 to 7ffff000 (docs/IMAGES.md), and a user has 1 MiB of memory."""
    stop = position_of(f"1 fault cause={cause} pc=0000000000010008 value={address:016x}")
    text = " The stack is full: it has 16 KiB, from 0x7fffb000 on."
    assert (text in describe_stop(stop)) == is_full
    assert (text in describe_stop(stop, 0x02056407, view(32, "m2", 5))) == is_full


@pytest.mark.parametrize("line", ["", "1 ok", "1 E07", "1 out 0", "1 fault cause=3 pc=0000000000010008", "* granted 1"])
def test_other_line_is_refused(line: str) -> None:
    with pytest.raises(ValueError):
        position_of(line)


def test_every_documented_stop_is_described() -> None:
    pages = "\n".join(page.read_text() for page in DOCS.glob("*.md"))
    lines = re.findall(r"^[1-8] .* pc=[0-9a-f]{16}(?: value=[0-9a-f]{16})?$", pages, re.MULTILINE)
    stops = [line for line in lines if not line.startswith(("1 loaded", "2 loaded"))]
    assert len(stops) > 40 and all(describe_stop(position_of(line)) for line in stops)


def test_control_registers_are_read_from_vcsr() -> None:
    assert view_of("1 vl=3 vtype=00000000000000c8 vstart=2 vxrm=0 vxsat=0") == ControlRegisters(0, 0xC8, 2)
    assert view_of("vl=0 vtype=8000000000000000 vstart=0 vxrm=0 vxsat=0") == VILL
