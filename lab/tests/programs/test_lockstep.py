"""Logs of other devices: one of Spike's form, worked out by hand, and QEMU's own; with planted differences."""

import pathlib
import shutil
import subprocess

import pytest

from support.commands import Lab
from support.images import make_image
from support.places import SUM
from vecmon_lab.vectors.on_qemu import QEMU

SOURCE = """\
        li a0, 5
        vsetivli t0, 3, e32, m1, ta, ma
        vid.v v8
        vadd.vx v9, v8, a0
        vmul.vv v10, v9, v9
        add a1, a0, t0
        ebreak
"""
# by hand; elements of 32 bits, element 0 last
WRITTEN = ["x10 5", "x5 3", "v8 2:1:0", "v9 7:6:5", "v10 31:24:19", "x11 8"]
BEFORE = "it was left otherwise before:"
ONES = ":".join(["ffffffff"] * 5)


def spike_log(image: pathlib.Path, written: list[str]) -> list[str]:
    """A log in the form of Spike's --log-commits, behind an instruction of Spike's own start."""
    data = image.read_bytes()
    first = data.index(bytes.fromhex("13055000"))  # addi x10, x0, 5
    lines = ["core   0: 3 0x0000000000001000 (0x00000297) x5  0x0000000000001000", "core   0: >>>>  _start"]
    for number, change in enumerate(written):
        name, value = change.split()
        digits = "".join(f"{int(each, 16):08x}" for each in value.split(":"))
        word = int.from_bytes(data[first + 4 * number : first + 4 * number + 4], "little")
        place = f"core   0: 3 0x{0x10000 + 4 * number:016x} (0x{word:08x})"
        shown = f" e32 m1 l3 {name:<3} 0x{digits:0>64}" if name[0] == "v" else f" {name:<3} 0x{int(value, 16):016x}"
        lines.append(place + shown)
    return lines


@pytest.fixture
def image(program: pathlib.Path, tmp_path: pathlib.Path) -> pathlib.Path:
    """The image of SOURCE."""
    path = tmp_path / "image"
    make_image(program, path, SOURCE)
    return path


def run_lockstep(lab: Lab, image: pathlib.Path, lines: list[str]) -> tuple[int, list[str]]:
    """The status, and the lines that are printed."""
    log = image.with_name("log")
    log.write_text("\n".join(lines) + "\n", "ascii")
    status, output, problem = lab("lockstep", image, log)
    return status, output.decode().splitlines() + problem.splitlines()


@pytest.mark.by_command("lockstep")
def test_spike_log_agrees(lab: Lab, image: pathlib.Path) -> None:
    end = "6 instructions agree; 10018: ebreak: Stopped at the ebreak at 0x10018."
    assert run_lockstep(lab, image, spike_log(image, WRITTEN)) == (0, [end])


def test_planted_difference_is_reported(lab: Lab, image: pathlib.Path) -> None:
    wrong = run_lockstep(lab, image, spike_log(image, [*WRITTEN[:3], "v9 7:6:4", *WRITTEN[4:]]))
    before = "before: vl=3 vtype=e32,m1,ta,ma vstart=0 vxrm=0 v9=" + "00" * 32
    assert wrong[0] == 1 and wrong[1][0] == "instruction 4: 1000c: vadd.vx v9, v8, x10"
    assert wrong[1][1].startswith(before) and wrong[1][1].endswith(" x10=5")
    assert wrong[1][2:] == [
        "v9.e32[0]: 5 here, 4 in the log",
        "not allowed: the standard leaves nothing open here",
    ]
    open_ = run_lockstep(lab, image, spike_log(image, [*WRITTEN[:2], f"v8 {ONES}:2:1:0"]))
    assert open_[0] == 1 and open_[1][0] == "instruction 3: 10008: vid.v v8"
    assert open_[1][2:-1] == [f"v8.e32[{number}]: 0 here, ffffffff in the log" for number in range(3, 8)]
    assert open_[1][-1] == "allowed: these elements are tail, and agnostic: each stays or becomes ones"
    assert run_lockstep(lab, image, spike_log(image, [*WRITTEN[:5], "x11 9"]))[1][2:] == [
        "xb: 8 here, 9 in the log".replace("xb", "x11"),
        "not allowed: the standard leaves nothing open here",
    ]


def test_control_flow_difference_is_reported(lab: Lab, image: pathlib.Path) -> None:
    lines = spike_log(image, WRITTEN)
    status, printed = run_lockstep(lab, image, [*lines[:4], *lines[5:]])
    assert (
        status == 1
        and printed[0] == "instruction 3: 10008: vid.v v8"
        and printed[2:]
        == [
            "executed here, and the log goes on at 1000c",
            "not allowed: the standard leaves nothing open here",
        ]
    )
    stopped = run_lockstep(lab, image, [*lines, "core   0: 3 0x0000000000010018 (0x00100073)"])
    assert stopped[0] == 1 and stopped[1][2] == "ebreak here, executed in the log"
    path = image.with_name("log")
    assert run_lockstep(lab, image, lines[:1]) == (2, [f"vecmon-lab: {path} has no instruction where {image} begins"])


def qemu_log(image: pathlib.Path, *properties: str) -> pathlib.Path:
    """QEMU's log of an image, with more properties of its processor."""
    log = image.with_name("log")
    image.chmod(0o755)
    command: list[object] = [
        *QEMU[:-1],
        ",".join([QEMU[-1], *properties]),
        "-singlestep",
        "-d",
        "nochain,cpu,strace",
        "-D",
        log,
        image,
    ]
    subprocess.run([str(word) for word in command], stdout=subprocess.DEVNULL)
    return log


@pytest.mark.usefixtures("qemu")
def test_qemu_log_agrees(lab: Lab, tmp_path: pathlib.Path) -> None:
    image = tmp_path / "sum"
    shutil.copyfile(SUM, image)
    log = qemu_log(image)
    status, output, _ = lab("lockstep", image, log)
    assert status == 0 and output.startswith(b"250 instructions agree; 112dc _start+0x14c: ecall")
    before, name, after = log.read_text("ascii").partition(" x11/a1   000000000000001a")
    log.write_text(f"{before} x11/a1   000000000000001b{after}", "ascii")
    reply = b"instruction 4: 1119c _start+0xc: addi x11, x0, 26\n"
    status, output, _ = lab("lockstep", image, log)
    assert name and status == 1 and output.startswith(reply) and b"\nx11: 1a here, 1b in the log\n" in output


@pytest.mark.usefixtures("qemu")
def test_call_result_comes_from_log(lab: Lab, program: pathlib.Path, tmp_path: pathlib.Path) -> None:
    """The number of the process, which the machine doesn't print."""
    make_image(program, tmp_path / "image", "li a7, 172\necall\nmv a1, a0\nli a0, 0\nli a7, 93\necall\n")
    log = qemu_log(tmp_path / "image")
    status, output, _ = lab("lockstep", tmp_path / "image", log)
    assert status == 0 and output.startswith(b"6 instructions agree; ")


BEGIN = "addi a1, sp, -64\nli t0, 7\nsb t0, 0(a1)\nvsetivli x0, 2, e8, m1, ta, mu\n"
VSTART = "csrwi vstart, 5\nvadd.vv v8, v8, v8\n"  # QEMU leaves a vstart past the length
REFUSED = "perhaps allowed: a device may refuse a vstart that it never leaves; here each is taken, and is 0 after the instruction"
TAIL = "allowed: these elements are tail, and agnostic: each stays or becomes ones"


@pytest.mark.usefixtures("qemu")
@pytest.mark.parametrize(
    ("source", "differs", "line", "cause", "sentence"),
    [
        (f"{VSTART}csrr a2, vstart", 7, "x12: 0 here, 5 in the log", 6, REFUSED),
        (f"{VSTART}vse8.v v8, (a1)\nlb a2, 0(a1)", 8, "x12: 0 here, 7 in the log", 6, REFUSED),
        (f"{VSTART}nop\nvmsbf.m v1, v2", 8, "executed here, SIGILL in the log", 6, REFUSED),
        ("vid.v v8\nvs1r.v v8, (a1)\nlh a2, 1(a1)", 7, "x12: 1 here, ffffffffffffff01 in the log", 5, TAIL),
        ("vid.v v8\nvmv1r.v v9, v8\nvsetivli x0, 4, e8, m1, ta, mu\nvredsum.vs v1, v9, v9\nvmv.x.s a2, v1",
         9, "x12: 1 here, ffffffffffffffff in the log", 5, f"perhaps {TAIL.replace(':', ': some of', 1)}"),
    ],
)  # fmt: skip
def test_earlier_open_difference_is_reported_as_cause(
    lab: Lab,
    program: pathlib.Path,
    tmp_path: pathlib.Path,
    source: str,
    differs: int,
    line: str,
    cause: int,
    sentence: str,
) -> None:
    """Differences from QEMU, with agnostic elements that become ones: where they are seen, and what left them."""
    make_image(program, tmp_path / "image", f"{BEGIN}{source}\nebreak\n")
    log = qemu_log(tmp_path / "image", "rvv_ta_all_1s=true")
    status, output, _ = lab("lockstep", tmp_path / "image", log)
    printed = output.decode().splitlines()
    assert status == 1 and printed[0].startswith(f"instruction {differs}: ") and printed[2:4] == [line, BEFORE]
    assert printed[4].startswith(f"instruction {cause}: ") and printed[6:] == [sentence]
