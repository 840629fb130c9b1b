"""`vecmon-lab run --trace`, whole and in windows: compared with QEMU's, and with lines worked out by hand."""

import pathlib
import re

import pytest

from support.commands import Lab
from support.images import make_image
from support.places import DATA, SUM
from support.sources import EXIT
from vecmon_lab.guest.changes import vtype_text

QEMU = DATA / "qemu"  # the output of qemu-riscv64 7.2.22 of Debian 12
ROUNDS = (0x2FB << 12) - 0x10
LONG = f"""
        lui t0, 0x2fb
        addi t0, t0, -0x10
loop:   addi t0, t0, -1
        bnez t0, loop
        {EXIT}
"""
WRITES_MUCH = f"""
# Writes 200 bytes 100 times, five instructions each; three come before that, and two behind.
        lui a1, 0x10
        li s0, 100
        li a7, 64
next:   li a0, 1
        li a2, 200
        ecall
        addi s0, s0, -1
        bnez s0, next
        {EXIT}
        .zero 200
"""


def test_trace_equals_qemu_trace(lab: Lab, tmp_path: pathlib.Path) -> None:
    """The trace is of qemu-riscv64 with -cpu rv64,v=true,vext_spec=v1.0,vlen=256.

    A client of its gdb stub (-g) stepped it, and wrote down the program counter, and each scalar and vector register
    that changed, and vl and vtype; the addresses of its stack were moved to where this machine has its own.
    """
    assert lab("run", "--trace", tmp_path / "trace", SUM)[0] == 0
    ours, theirs = ((path.read_text().splitlines()) for path in (tmp_path / "trace", QEMU / "sum"))
    assert len(ours) == len(theirs) == 250
    machine, emulator = State(), State()
    for mine, other in zip(ours[:-1], theirs[:-1]):
        assert mine.split()[0] == other.split()[0]
        machine.apply(re.split(" {2,}", mine)[3:])
        emulator.apply([_as_ours(change) for change in other.split()[1:]])
        assert vars(machine) == vars(emulator), mine
    assert theirs[-1].split() == ["112dc", "W00"] and re.split(" {2,}", ours[-1])[:3] == [
        "112dc",
        "_start+0x14c",
        "ecall",
    ]


def _as_ours(change: str) -> str:
    """A change of QEMU's trace, which has numbers in hexadecimal, with vl and vtype as the lab's has them."""
    name, _, value = change.partition("=")
    expected = {"vl": lambda: f"{int(value, 16)}", "vtype": lambda: vtype_text(int(value, 16))}
    return f"{name}={expected[name]()}" if name in expected else change


class State:
    """Registers, as lines of a trace change them."""

    def __init__(self) -> None:
        self.registers: dict[str, str] = {}
        self.vectors = bytearray(1024)

    def apply(self, changes: list[str]) -> None:
        """Carries out changes; those of memory are left out."""
        for change in changes:
            if vector := re.fullmatch(r"v(\d+)\.e(\d+)\[(\d+)(?:\.\.\d+)?\]=(.*)", change):
                size = int(vector[2]) // 8
                values = b"".join(int(value, 16).to_bytes(size, "little") for value in vector[4].split(","))
                self._put(int(vector[1]) * 32 + int(vector[3]) * size, values)
            elif whole := re.fullmatch("v([0-9]+)=([0-9a-f]+)", change):
                self._put(int(whole[1]) * 32, int(whole[2], 16).to_bytes(32, "little"))
            elif not change.startswith("["):
                name, _, value = change.partition("=")
                self.registers[name] = value

    def _put(self, place: int, data: bytes) -> None:
        self.vectors[place : place + len(data)] = data


def traced(lab: Lab, folder: pathlib.Path, image: pathlib.Path, *arguments: str) -> list[str]:
    """The lines of a trace, by these words."""
    lab("run", "--trace", folder / "trace", *arguments, image)
    return (folder / "trace").read_text().splitlines()


def test_window_limits_trace(lab: Lab, tmp_path: pathlib.Path) -> None:
    """The addresses are those of QEMU's trace, and the lines those of a whole one."""
    whole = traced(lab, tmp_path, SUM)
    theirs = [line.split()[0] for line in (QEMU / "sum").read_text().splitlines()]
    assert traced(lab, tmp_path, SUM, "--from", "83", "--to", "90") == whole[82:90]
    assert [line.split()[0] for line in traced(lab, tmp_path, SUM, "--from", "83", "--to", "90")] == theirs[82:90]
    assert traced(lab, tmp_path, SUM, "--to", "2") == whole[:2]
    assert traced(lab, tmp_path, SUM, "--from", "250", "--to", "999") == whole[-1:]


def test_window_of_long_run_is_traced(lab: Lab, program: pathlib.Path, tmp_path: pathlib.Path) -> None:
    """Number 2 k + 1 is the subtraction that leaves k less in the register."""
    make_image(program, tmp_path / "long", LONG)
    lines = traced(lab, tmp_path, tmp_path / "long", "--from", "5000001", "--to", "5000003")
    expected = [f"10008 - addi x5, x5, -1 x5={ROUNDS - k:x}" for k in (2_500_000, 2_500_001)]
    assert [" ".join(line.split()) for line in lines] == [expected[0], "1000c - bne x5, x0, -4", expected[1]]


def test_window_after_much_output_is_traced(lab: Lab, program: pathlib.Path, tmp_path: pathlib.Path) -> None:
    """Each call finds room for its 200 bytes, as it does in the run itself: the 60th one is instruction 3 + 59 x 5 + 3."""
    make_image(program, tmp_path / "much", WRITES_MUCH)
    lines = traced(lab, tmp_path, tmp_path / "much", "--from", "301", "--to", "302")
    assert [" ".join(line.split()) for line in lines] == ["10014 - ecall x10=c8", "10018 - addi x8, x8, -1 x8=28"]
    assert len(lab("run", tmp_path / "much")[1]) == 20_000


def test_stopping_instruction_is_last_line(lab: Lab, program: pathlib.Path, tmp_path: pathlib.Path) -> None:
    make_image(program, tmp_path / "stops", "nop\nebreak")
    assert [line.split()[0] for line in traced(lab, tmp_path, tmp_path / "stops")] == ["10000", "10004"]
    assert [line.split()[2] for line in traced(lab, tmp_path, tmp_path / "stops", "--from", "2")] == ["ebreak"]


@pytest.mark.parametrize(
    "arguments, expected",
    [
        (["--from", "2"], "--from and --to are of a trace or a log: --trace FILE or --log FILE names its file"),
        (["--to", "2"], "--from and --to are of a trace or a log: --trace FILE or --log FILE names its file"),
        (["--trace", "trace", "--from", "3", "--to", "2"], "from instruction 3 to 2 there is none"),
        (["--trace", "trace", "--from", "251"], "the run has 250 instructions, and none from 251 on"),
    ],
)
def test_bad_window_is_refused(
    lab: Lab, monkeypatch: pytest.MonkeyPatch, tmp_path: pathlib.Path, arguments: list[str], expected: str
) -> None:
    monkeypatch.chdir(tmp_path)
    status, _, errors = lab("run", *arguments, SUM)
    assert (status, errors) == (2, f"vecmon-lab: {expected}\n")
