"""Lock-step: accesses, vector types and control registers, worked out by hand; ends of logs; QEMU's vector unit."""

import gzip
import pathlib
import subprocess

import pytest

from support.commands import Lab
from support.images import make_image
from support.places import DATA, SUM
from vecmon_lab.machine.program import find_recorder
from vecmon_lab.vectors.on_qemu import QEMU

SOURCE = """\
        addi a1, sp, -64
        vsetivli t0, 3, e32, m1, ta, ma
        vid.v v8
        vse32.v v8, (a1)
        lw a2, 4(a1)
        vlseg2e16.v v4, (a1)
        csrwi vxrm, 2
        sh a2, 2(a1)
        ebreak
"""
# By hand, in the form of Spike's --log-commits: words by the manual's encodings; the stack pointer is 7fffefc0.
LOG = """\
core   0: 3 0x0000000000001000 (0x00000297) x5  0x0000000000001000
core   0: 3 0x0000000000010000 (0xfc010593) x11 0x000000007fffef80
core   0: 3 0x0000000000010004 (0xcd01f2d7) x5  0x0000000000000003 e32 m1 l3 c3104_vl 0x0000000000000003 c3105_vtype 0x00000000000000d0
core   0: 3 0x0000000000010008 (0x5208a457) e32 m1 l3 v8  0x0000000000000000000000000000000000000000000000020000000100000000
core   0: 3 0x000000000001000c (0x0205e427) e32 m1 l3 mem 0x000000007fffef80 0x00000000 mem 0x000000007fffef84 0x00000001 mem 0x000000007fffef88 0x00000002
core   0: 3 0x0000000000010010 (0x0045a603) x12 0x0000000000000001 mem 0x000000007fffef84
core   0: 3 0x0000000000010014 (0x2205d207) e32 m1 l3 v4  0x0000000000000000000000000000000000000000000000000000000200010000 v5  0x0 mem 0x000000007fffef80 mem 0x000000007fffef82 mem 0x000000007fffef84 mem 0x000000007fffef86 mem 0x000000007fffef88 mem 0x000000007fffef8a
core   0: 3 0x0000000000010018 (0x00a15073) c10_vxrm 0x0000000000000002
core   0: 3 0x000000000001001c (0x00c59123) mem 0x000000007fffef82 0x0001
""".replace(
    "v5  0x0 ", f"v5  0x{0:064x} "
)
ENDS = "8 instructions agree; 10020: ebreak: Stopped at the ebreak at 0x10020."
NOTHING_OPEN = "not allowed: the standard leaves nothing open here"


@pytest.fixture
def image(program: pathlib.Path, tmp_path: pathlib.Path) -> pathlib.Path:
    """The image of SOURCE."""
    path = tmp_path / "image"
    make_image(program, path, SOURCE)
    return path


def compared(lab: Lab, image: pathlib.Path, text: str) -> tuple[int, list[str], str]:
    """The status, the lines that are printed, and the error."""
    log = image.with_name("log")
    log.write_text(text, "ascii")
    status, output, error = lab("lockstep", image, log)
    return status, output.decode().splitlines(), error


def test_accesses_and_control_registers_are_compared(lab: Lab, image: pathlib.Path) -> None:
    assert compared(lab, image, LOG) == (0, [ENDS], "")


def test_spike_disassembly_is_ignored(lab: Lab, image: pathlib.Path) -> None:
    """With -l there is one before each instruction."""
    lines = LOG.splitlines(keepends=True)
    shown = [f"{line[: line.index(')') + 1].replace(': 3 ', ': ')} vse32.v v8, (a1)\n{line}" for line in lines]
    assert compared(lab, image, "".join(shown)) == (0, [ENDS], "")


@pytest.mark.parametrize(
    ("instruction", "old", "new", "lines"),
    [
        (4, "0x00000001", "0x00000003", ["[7fffef80]: 000000000100000002000000 here, 000000000300000002000000 in the log"]),
        (4, " mem 0x000000007fffef88 0x00000002", "", ["stored: 7fffef88 to 7fffef8b here, not in the log"]),
        (4, "7fffef88", "7fffef8c", ["stored: 7fffef88 to 7fffef8b here, not in the log", "stored: 7fffef8c to 7fffef8f in the log, not here"]),
        (8, "0x0001", "0x0101", ["[7fffef82]: 0100 here, 0101 in the log"]),
        (8, " mem 0x000000007fffef82 0x0001", "", ["stored: 7fffef82 to 7fffef83 here, not in the log"]),
        (5, "ef84", "ef94", ["loaded: 7fffef84 here, not in the log", "loaded: 7fffef94 in the log, not here"]),
        (6, " mem 0x000000007fffef86", "", ["loaded: 7fffef86 here, not in the log"]),
        (7, "000002", "000002 mem 0x0000000000000010 0x22", ["stored: 10 in the log, not here"]),
        (3, "l3", "l2", ["vector type and vl: e32 m1 l3 here, e32 m1 l2 in the log"]),
        (3, "e32", "e16", ["vector type and vl: e32 m1 l3 here, e16 m1 l3 in the log"]),
        (3, " m1", " mf2", ["vector type and vl: e32 m1 l3 here, e32 mf2 l3 in the log"]),
        (2, "00d0", "0050", ["vtype: d0 here, 50 in the log"]),
        (2, " c3105_vtype 0x00000000000000d0", "", ["vtype: d0 here, 8000000000000000 in the log"]),
        (3, "e32", "c8_vstart 0x0000000000000001 e32", ["vstart: 0 here, 1 in the log"]),
        (5, "x12", "c9_vxsat 0x0000000000000001 x12", ["vxsat: 0 here, 1 in the log"]),
    ],
)  # fmt: skip
def test_memory_and_control_differences_are_reported(
    lab: Lab, image: pathlib.Path, instruction: int, old: str, new: str, lines: list[str]
) -> None:
    log = LOG.splitlines(keepends=True)
    assert log[instruction].count(old) == 1
    log[instruction] = log[instruction].replace(old, new)
    status, printed, _ = compared(lab, image, "".join(log))
    assert status == 1 and printed[0].startswith(f"instruction {instruction}: ")
    assert printed[2:] == [*lines, NOTHING_OPEN]


@pytest.mark.parametrize(
    ("kept", "agreed", "place"),
    [(LOG.splitlines(True)[:5], 4, "10010"), ([LOG[:-20]], 7, "1001c"), ([LOG[:-1]], 7, "1001c")],
)
def test_truncated_log_is_reported(lab: Lab, image: pathlib.Path, kept: list[str], agreed: int, place: str) -> None:
    """It ends between two instructions, or inside one."""
    status, printed, error = compared(lab, image, "".join(kept))
    truncated = f"{agreed} instructions agree, and then the log is truncated: the program goes on at {place}"
    expected = f"vecmon-lab: {image.with_name('log')}: {truncated}. Record all of it, or less of the program\n"
    assert (status, printed, error) == (2, [], expected)


def test_recorder_logs_agree_and_report_end(lab: Lab, tmp_path: pathlib.Path) -> None:
    log = tmp_path / "log"
    subprocess.run([find_recorder(), "--log", log, "--ticks", "100000", SUM], stdout=subprocess.DEVNULL, check=True)
    status, output, error = lab("lockstep", SUM, log)
    assert (status, output[:25], error) == (0, b"250 instructions agree; 1", "")
    lines = log.read_text("ascii").splitlines(keepends=True)
    log.write_text("".join([*lines[:100], "running pc=0000000000011248 100 100\n"]), "ascii")
    limited = b"100 instructions agree, up to the limit of ticks of the log\n"
    assert lab("lockstep", SUM, log) == (0, limited, "")
    log.write_text(
        "".join([*lines[:100], "fault cause=5 pc=0000000000011248 value=0000000000000000 100 100\n"]), "ascii"
    )
    status, output, _ = lab("lockstep", SUM, log)
    assert status == 1 and output.splitlines()[2] == b"executed here, fault cause=5 in the log"


def test_other_vlen_is_refused(lab: Lab, image: pathlib.Path) -> None:
    width = "in the log vector registers have 128 bits, and here they have 256"
    error = f"vecmon-lab: {image.with_name('log')}: {width}: run the other device with a VLEN of 256 (QEMU: vlen=256)\n"
    assert compared(lab, image, LOG.replace("0x" + 32 * "0", "0x")) == (2, [], error)


QEMUS_SOURCE = """\
        vsetivli t0, 4, e8, m1, ta, ma
        vid.v v2
        vmsle.vi v0, v2, 1
        csrwi vxrm, 2
        addi a1, sp, -64
        vse8.v v2, (a1)
        lw a2, 0(a1)
        vadd.vv v4, v0, v2, v0.t
        ebreak
"""
RESERVED = (
    "reserved: the standard has no result for an encoding that reads a register with two element widths (V 1.0, 5.2); "
    "here it is executed"
)


@pytest.fixture(params=["10", "11"])
def newer(request: pytest.FixtureRequest, program: pathlib.Path, tmp_path: pathlib.Path) -> tuple[pathlib.Path, str]:
    """The image of QEMUS_SOURCE, and what QEMU 10.0.13 or 11.1.3 logged of it.

    The command is `qemu-riscv64 -cpu rv64,v=true,vext_spec=v1.0,vlen=256,elen=64 -one-insn-per-tb -d nochain,cpu,vpu,strace`.
    """
    image = tmp_path / "image"
    make_image(program, image, QEMUS_SOURCE)
    return image, gzip.decompress((DATA / "qemu" / f"qemu_{request.param}.log.gz").read_bytes()).decode("ascii")


def test_reserved_encoding_refused_by_new_qemu_is_explained(lab: Lab, newer: tuple[pathlib.Path, str]) -> None:
    """All before it agrees: registers, control registers, and what was stored, which a load reads."""
    status, printed, _ = compared(lab, *newer)
    assert status == 1 and printed[0] == "instruction 8: 1001c: vadd.vv v4, v0, v2, v0.t"
    assert printed[2:] == ["executed here, SIGILL in the log", RESERVED]


@pytest.mark.parametrize(
    ("state", "name", "old", "new", "line"),
    [
        (3, "v2", "03020100", "03020000", "v2.e8[1]: 1 here, 0 in the log"),
        (5, "vxrm", "2", "1", "vxrm: 2 here, 1 in the log"),
        (2, "vl", "4", "3", "vl: 4 here, 3 in the log"),
        (2, "vtype", "c0", "40", "vtype: c0 here, 40 in the log"),
        (8, "x12/a2", "03020100", "03020101", "x12: 3020100 here, 3020101 in the log"),
    ],
)
def test_new_qemu_difference_is_located(
    lab: Lab, newer: tuple[pathlib.Path, str], state: int, name: str, old: str, new: str, line: str
) -> None:
    """In all states from one on, so that it is one instruction that differs: the one before."""
    image, text = newer
    head, *states = text.split(" pc  ")
    for number in range(state - 1, len(states)):
        before, found, after = states[number].partition(f" {name} ")
        value, behind = after[: after.index(old) + len(old)], after[after.index(old) + len(old) :]
        states[number] = before + found + value.removesuffix(old) + new + behind
    status, printed, _ = compared(lab, image, " pc  ".join([head, *states]))
    assert status == 1 and printed[0].startswith(f"instruction {state - 1}: ") and printed[2] == line


def test_truncated_qemu_log_is_reported(lab: Lab, newer: tuple[pathlib.Path, str]) -> None:
    image, text = newer
    head, *states = text.split(" pc  ")
    continues = "3 instructions agree, and then the log is truncated: the program goes on at 1000c"
    error = f"vecmon-lab: {image.with_name('log')}: {continues}. Record all of it, or less of the program\n"
    inside = " pc  ".join([head, *states[:4]]) + " pc  " + states[4][:1500]
    assert compared(lab, image, inside) == (2, [], error)
    assert compared(lab, image, inside[: inside.rindex("\n") + 1]) == (2, [], error)
    between = " pc  ".join([head, *states[:4]])
    either = "executed here, the end of the log: refused there, or the log is truncated (QEMU's -d strace shows which)"
    assert compared(lab, image, between)[1][2] == either
    assert compared(lab, image, between.replace(" pc  ", "12 getpid() = 12\n pc  ", 1)) == (2, [], error)


@pytest.mark.usefixtures("qemu")
def test_qemu_72_log_with_calls_agrees(lab: Lab, program: pathlib.Path, tmp_path: pathlib.Path) -> None:
    """The documented command: QEMU names a signal, and the exit."""
    image, log = tmp_path / "image", tmp_path / "log"
    make_image(program, image, SOURCE.replace("ebreak", "li a0, 0\nli a7, 93\necall"))
    image.chmod(0o755)
    cpu = "rv64,v=true,vext_spec=v1.0,vlen=256,elen=64"
    subprocess.run([QEMU[0], "-cpu", cpu, "-singlestep", "-d", "nochain,cpu,strace", "-D", log, image], check=True)
    status, output, _ = lab("lockstep", image, log)
    assert status == 0 and output.startswith(b"11 instructions agree; 10028: ecall: ")
    text = log.read_text("ascii")
    log.write_text(text[: text.rindex(" pc ")] + "12 exit(0)\n", "ascii")
    status, output, _ = lab("lockstep", image, log)
    assert status == 1 and output.splitlines()[2] == b"executed here, exit in the log"
