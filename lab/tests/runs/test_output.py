"""A program's output, which is the same under all commands: no call finds too little room for it in the machine's buffer."""

import pathlib
import shutil
import subprocess
import sys
from collections.abc import Callable, Sequence

import pytest

from support.commands import Lab
from support.gdb_output import run_in_gdb
from support.images import make_image
from support.places import DATA, TOP
from support.sources import EXIT
from vecmon_lab import Kernel
from vecmon_lab.compilers.compiler import Compiler
from vecmon_lab.compilers.compiling import compiled_image
from vecmon_lab.guest.guest import Guest, started
from vecmon_lab.machine.answers import Stop
from vecmon_lab.machine.session import Session

LINE = bytes(ord("a") + at % 26 for at in range(199)) + b"\n"
EXPECTED = {"lines": LINE * 20, "counted": bytes(4000)}
UNROLLED = f"""
# As lines.c, with zeros, and a call of its own for each line.
        {'''li a0, 1
        la a1, line
        li a2, 200
        li a7, 64
        ecall
        add s0, s0, a0
        ''' * 20}
        li t0, 4000
        sub a0, s0, t0
        snez a0, a0
        {EXIT}
        .data
line:   .zero 200
"""
WRITES_ITS_CALL = """
        lui x5, 0x10
        addi x6, x0, 0x73
        sw x6, 32(x5)
        addi x8, x0, 20
        addi x10, x0, 1
        lui x11, 0x10
        addi x12, x0, 200
        addi x17, x0, 64
        ebreak
        addi x8, x8, -1
        bne x8, x0, -24
        ebreak
"""
"""Writes an ECALL in place of its first EBREAK, and calls 20 times there."""


@pytest.fixture(scope="module")
def image(clang: Compiler, tmp_path_factory: pytest.TempPathFactory) -> Callable[[str], pathlib.Path]:
    """Compile one of the programs, with the lab's options for programs in C."""
    folder = tmp_path_factory.mktemp("images")

    def made(name: str) -> pathlib.Path:
        if not (folder / name).exists():
            shutil.copyfile(compiled_image(DATA / "output" / f"{name}.c"), folder / name)
            (folder / name).chmod(0o755)  # for QEMU
        return folder / name

    return made


@pytest.mark.parametrize("name", EXPECTED)
def test_commands_give_equal_output(lab: Lab, qemu: None, image: Callable[[str], pathlib.Path], name: str) -> None:
    """The bytes are worked out by hand."""
    path, expected = image(name), EXPECTED[name]
    command = ["qemu-riscv64", "-cpu", "rv64,v=true,vext_spec=v1.0,vlen=256", str(path)]
    emulated = subprocess.run(command, stdout=subprocess.PIPE, check=False)
    assert (emulated.returncode, emulated.stdout) == (0, expected)
    assert lab("run", path) == (0, expected, "")
    status, tables, errors = lab("profile", path)
    assert (status, errors) == (0, "") and b"; status 0\n" in tables
    status, compared, errors = lab("compare", path)
    assert (status, errors) == (0, "") and b"\nthe same with 8 seeds\n" in compared and b"; 4,000 bytes: " in compared
    command = [sys.executable, "-m", "vecmon_lab", "console", str(path)]
    shown = subprocess.run(command, cwd=TOP, input=b"run\n", capture_output=True, check=True)
    assert shown.stdout.count(expected) == 1 and b"ended with status 0," in shown.stdout and shown.stderr == b""
    output, end, errors = run_in_gdb(path)
    assert output == expected and "with status 0;" in end and errors == ""
    with Kernel(path) as kernel:
        result = kernel.call("main")
        assert (result.value, result.output) == (0, expected)


def test_endless_program_is_not_compared_at_tick_limit(lab: Lab, image: Callable[[str], pathlib.Path]) -> None:
    status, compared, errors = lab("compare", "--ticks", 14_000, image("endless"))
    assert (status, compared.count(b"\nundecided with 8 seeds"), errors) == (124, 1, "")


def test_calls_beyond_breakpoint_limit_are_reported(lab: Lab, program: pathlib.Path, tmp_path: pathlib.Path) -> None:
    make_image(program, tmp_path / "unrolled", UNROLLED)
    with started(tmp_path / "unrolled") as guest:
        stop = guest.go(1_000_000)
        assert stop and (stop.kind, stop.number) == ("exit", 0) and guest.output() == bytes(4000)
        assert not guest.runner.has_exact_ticks and guest.session.look("1 breaks") == ["1 breaks"]
    with started(tmp_path / "unrolled") as guest:
        guest.ask("break 10140")  # of another instruction, which follows the last line
        while (stop := guest.go(1_000_000)) and stop.kind == "break":
            pass
        assert stop and (stop.kind, stop.number) == ("exit", 0) and guest.output() == bytes(4000)


def with_code(session: Session, permissions: str, lines: Sequence[str]) -> Guest:
    """A guest with a page at 0x10000 that begins with instructions."""
    guest = Guest(session)
    code = (f"asm {0x10000 + 4 * at:x} {text.strip()}" for at, text in enumerate(lines))
    guest.ask("enter", f"map 10000 1 {permissions}", *code, "setpc 10000")
    return guest


def test_self_written_call_is_reported(session: Session) -> None:
    guest = with_code(session, "rwx", WRITES_ITS_CALL.strip().splitlines())
    assert guest.go(100_000) == Stop("ebreak", 0x1002C)
    code = guest.peek(0x10000, 200)
    assert guest.output() == code * 20 and code[32:36] == b"\x73\0\0\0"


def test_ticks_of_printing_program_are_counted(session: Session) -> None:
    """A call writes 256 bytes: four calls count as a slice; the go has 100 slices."""
    lines = ["addi x10, x0, 1", "lui x11, 0x10", "addi x12, x0, 256", "addi x17, x0, 64", "ecall", "jal x0, -20"]
    guest = with_code(session, "rx", lines)
    assert guest.go(10_000) is None and guest.ticks == 10_000 and guest.output() == guest.peek(0x10000, 256) * 400
