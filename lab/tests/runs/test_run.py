"""`vecmon-lab run`: output, statuses, arguments, bad input; counts."""

import pathlib
import signal
import subprocess
import sys

import pytest

from support.commands import Lab
from support.images import MARCH, make_image
from support.places import DATA, SORT, SQUARES, SQUARES_DWARF5, STOCK, SUM, TOP
from support.sources import ARGUMENTS, EXIT, FOREVER, WRITES

QEMU = DATA / "qemu"  # the output of qemu-riscv64 7.2.22 of Debian 12
CTRL_C = 130
NOT_THERE = "its page isn't mapped, or has no permission"
JUMP = "10004: jalr x0, 0(x5)"
ZERO = "10000: .word 0x00000000: Illegal instruction at 0x10000: .word 0x00000000."
VID = "10000: vid.v v8: Illegal instruction at 0x10000: vid.v v8."


@pytest.mark.by_command("run")
def test_stock_programs_run(lab: Lab) -> None:
    """As in QEMU, which also executes 509,200 instructions of the second one."""
    assert lab("run", SUM) == (0, b"328350\n", "")
    assert lab("run", SORT) == (42, (QEMU / "sortgcc").read_bytes(), "")
    assert lab("run", "--policy", "ones", SUM, "one", "two") == (0, b"328350\n", "")


def test_fault_is_reported(lab: Lab) -> None:
    why = (
        "The store at 0x10198 may not write from 0x12000 on: a page isn't mapped, or has no permission w. "
        "It stopped at element 14."
    )
    expected = f"vecmon-lab: {SQUARES}: 10198: vse32.v v8, (x10): {why}\n"
    assert lab("run", SQUARES) == (139, b"", expected)
    assert lab("run", SQUARES_DWARF5)[2].endswith(f": 10198 next+0x10: vse32.v v8, (x10): {why}\n")


@pytest.mark.parametrize("status", [0, 2, 124, 133, 139, 255])
def test_exit_status_is_passed_on(lab: Lab, program: pathlib.Path, tmp_path: pathlib.Path, status: int) -> None:
    make_image(program, tmp_path / "exits", f"li a0, {status}\nli a7, 93\necall")
    assert lab("run", tmp_path / "exits") == (status, b"", "")


@pytest.mark.parametrize(
    "source, status, expected",
    [
        ("nop\nebreak", 133, "10004: ebreak: Stopped at the ebreak at 0x10004."),
        ("jr zero", 139, f"0: No instruction can be fetched at 0x0: {NOT_THERE} x."),
        ("li t0, 2\njr t0", 139, f"{JUMP}: The jump or branch at 0x10004 goes to 0x2, which isn't divisible by 4."),
        (
            ".word 0",
            139,
            f"{ZERO} The word is 0, as in memory where nothing was written: is an ebreak or ret missing before it?",
        ),
        ("vid.v v8", 139, f"{VID} The vector type is vill: no vset instruction has set one that is supported."),
    ],
)
def test_stop_is_reported(
    lab: Lab, program: pathlib.Path, tmp_path: pathlib.Path, source: str, status: int, expected: str
) -> None:
    make_image(program, tmp_path / "stops", source)
    assert lab("run", tmp_path / "stops") == (status, b"", f"vecmon-lab: {tmp_path / 'stops'}: {expected}\n")


def test_unsupported_image_is_refused(lab: Lab, program: pathlib.Path, tmp_path: pathlib.Path) -> None:
    """By the psABI: e_flags at byte 48, where 1 is compressed instructions, 2 to 6 floating-point ABIs, 8 is RVE."""
    image, words = tmp_path / "image", f"compile with {MARCH}"
    make_image(program, image, "li a0, 3\nli a7, 93\necall\n.word 0x20b56533")
    data = image.read_bytes()
    for flags, kinds in {1: "compressed instructions", 4: "a floating-point ABI", 8: "", 16: ""}.items():
        image.write_bytes(data[:48] + bytes([flags]) + data[49:])
        errors = f"vecmon-lab: {image}: it is compiled for {kinds}, and the machine has none: {words} -mabi=lp64\n"
        assert lab("run", image) == ((2, b"", errors) if kinds else (3, b"", ""))
    image.write_bytes(data[:4] + b"\1" + data[5:])
    assert lab("run", image)[2].endswith(f"(E09 Class): the class isn't 2, 64 bits: {words} -mabi=lp64\n")
    make_image(program, image, ".word 0x20b56533")
    other = "It would be an instruction of another extension, as Zba or Zbb, and the machine has none"
    status, _, errors = lab("run", image)
    assert status == 139 and errors.endswith(f"10000: .word 0x20b56533. {other}: {words}.\n")


def test_tick_limit_is_reported(lab: Lab, program: pathlib.Path, tmp_path: pathlib.Path) -> None:
    image = tmp_path / "forever"
    make_image(program, image, FOREVER)
    errors = f"vecmon-lab: {image}: the ticks ran out at 10000\n"
    assert lab("run", "--ticks", "5000000", image) == (124, b"", errors)
    assert lab("run", "--ticks", "7", "--trace", tmp_path / "trace", image) == (124, b"", errors)
    assert (tmp_path / "trace").read_text() == "10000     -                   jal x0, 0\n" * 7
    status, _, errors = lab("run", "--ticks", "14", "--stats", image)
    assert (status, errors.splitlines()[0]) == (124, "14 instructions in 14 ticks")


def test_full_output_buffer_is_emptied(lab: Lab, program: pathlib.Path, tmp_path: pathlib.Path) -> None:
    make_image(program, tmp_path / "writes", WRITES)
    status, output, _ = lab("run", "--ticks", "100000", tmp_path / "writes")
    assert (status, output) == (124, b"1234567\n" * 5000)
    status, output, _ = lab("run", "--ticks", "1000", "--trace", tmp_path / "trace", tmp_path / "writes")
    assert (status, output) == (124, b"1234567\n" * 125)


def test_commands_execute_same_instructions(lab: Lab, program: pathlib.Path, tmp_path: pathlib.Path) -> None:
    """1,000 times eight instructions write seven bytes, which doesn't divide 1,024; one before that, and two behind."""
    source = WRITES.replace("5000", "1000").replace("1234567", "123456").replace("li a2, 8", "li a2, 7")
    make_image(program, tmp_path / "pieces", source.replace("loop:   j loop", EXIT))
    status, output, errors = lab("run", "--stats", "--trace", tmp_path / "trace", tmp_path / "pieces")
    assert (status, output) == (7, b"123456\n" * 1000) and errors.startswith("8,003 instructions in 8,003 ticks\n")
    assert len((tmp_path / "trace").read_text().splitlines()) == 8003
    assert lab("run", tmp_path / "pieces") == (7, output, "")
    assert lab("profile", tmp_path / "pieces")[1].endswith(b"8,003 instructions in 8,003 ticks; status 7\n")


def test_long_run_completes(lab: Lab, program: pathlib.Path, tmp_path: pathlib.Path) -> None:
    """Six million instructions: two that load a number, a loop of two, and two to exit."""
    make_image(
        program, tmp_path / "long", f"lui t0, 0x2fb\naddi t0, t0, -0x10\nloop: addi t0, t0, -1\nbnez t0, loop\n{EXIT}"
    )
    rounds = (0x2FB << 12) - 0x10
    status, _, errors = lab("run", "--stats", tmp_path / "long")
    assert (status, errors.splitlines()[0]) == (0, f"{4 + 2 * rounds:,} instructions in {4 + 2 * rounds:,} ticks")


def test_program_receives_arguments(lab: Lab, program: pathlib.Path, tmp_path: pathlib.Path) -> None:
    make_image(program, tmp_path / "arguments", ARGUMENTS)
    assert lab("run", tmp_path / "arguments") == (1, b"arguments\n", "")
    assert lab("run", "--", tmp_path / "arguments", "one", "--stats", "--") == (4, b"arguments\none\n--stats\n--\n", "")
    assert b"arguments: exit 2; 13 bytes: " in lab("compare", tmp_path / "arguments", "-2")[1].splitlines()[0]
    assert lab("profile", tmp_path / "arguments", "-2")[1].endswith(b"ticks; status 2\n")


def test_output_streams_and_ctrl_c_ends_run(program: pathlib.Path, tmp_path: pathlib.Path) -> None:
    make_image(program, tmp_path / "writes", WRITES.replace("5000", "1"))
    command = [sys.executable, "-m", "vecmon_lab", "run", str(tmp_path / "writes")]
    with subprocess.Popen(command, cwd=TOP, stdout=subprocess.PIPE, stderr=subprocess.PIPE) as run:
        assert run.stdout and run.stderr and run.stdout.read(8) == b"1234567\n"
        run.send_signal(signal.SIGINT)
        assert (run.wait(), run.stdout.read(), run.stderr.read()) == (CTRL_C, b"", b"")


@pytest.mark.parametrize(
    "arguments, expected",
    [
        ([], "vecmon-lab run: the following arguments are required: IMAGE; --help says more"),
        (["--ticks", "0", SUM], "vecmon-lab run: argument --ticks: 0 is no number from 1 to 9223372036854775808; "),
        (["--policy", "none", SUM], "vecmon-lab run: argument --policy: invalid choice: 'none' "),
        (["--dance", SUM], "vecmon-lab run: unrecognized arguments: --dance"),
        (["none"], "vecmon-lab: none: No such file or directory"),
        ([STOCK], f"vecmon-lab: {STOCK}: Is a directory"),
        (["--options", "O0", SUM], f"vecmon-lab: {SUM}: O0 is for C, and the name of such a source ends in .c"),
        (["--cc", "clang-19", SUM], f"vecmon-lab: {SUM}: --cc is for a source that is compiled: "),
        (
            [STOCK / "short"],
            f"vecmon-lab: {STOCK}/short: the machine refuses image (E09 Short): the file has less than",
        ),
        (["--trace", STOCK, SUM], f"vecmon-lab: {STOCK}: Is a directory"),
        ([SUM, "x" * 9000], f"vecmon-lab: {SUM}: arguments take 8,192 bytes of the stack at most"),
    ],
)
def test_bad_input_is_refused(lab: Lab, arguments: list[object], expected: str) -> None:
    status, output, errors = lab("run", *arguments)
    assert (status, output, errors.count("\n")) == (2, b"", 1)
    assert errors.startswith(expected)


@pytest.mark.parametrize(
    "more, expected",
    [
        (["--in", "/dev/null"], "symbol input not found"),
        (["--from", "500000"], "and none from 500,000 on"),
        (["--log", "nofolder/log", "--to", "5"], "vecmon-lab: nofolder/log: No such file or directory"),
    ],
)
def test_trace_of_a_refused_run_stays(lab: Lab, tmp_path: pathlib.Path, more: list[str], expected: str) -> None:
    kept = tmp_path / "trace"
    kept.write_text("precious\n")
    status, _, errors = lab("run", "--trace", kept, *more, SUM)
    assert status == 2 and expected in errors and kept.read_text() == "precious\n"


def test_full_trace_is_named(lab: Lab) -> None:
    status, _, errors = lab("run", "--trace", "/dev/full", SUM)
    assert (status, errors) == (2, "vecmon-lab: /dev/full: No space left on device\n")


@pytest.mark.parametrize("command", ["run", "profile", "lesson"])
def test_mistakes_of_a_source_are_listed(lab: Lab, tmp_path: pathlib.Path, command: str) -> None:
    """The first ones: the others are counted."""
    source = tmp_path / "two.s"
    source.write_text("foo\n nop\n addi a0, zz, 9\n")
    status, _, errors = lab(command, source)
    assert status == 2 and [line.partition("two.s:")[2][:4] for line in errors.splitlines()] == ["1:1:", "3:11"]
    source.write_text("foo\n" * 25)
    lines = lab(command, source)[2].splitlines()
    assert len(lines) == 21 and lines[-1].endswith("two.s: and 5 more")


def test_closed_output_is_refused() -> None:
    command = ["sh", "-c", 'exec "$0" -m vecmon_lab run "$1" >&-', sys.executable, str(SUM)]
    run = subprocess.run(command, cwd=TOP, stderr=subprocess.PIPE, text=True, check=False)
    assert (run.returncode, run.stderr) == (
        2,
        "vecmon-lab: standard output is closed; to discard it, use >/dev/null\n",
    )


def test_missing_program_is_refused(lab: Lab, monkeypatch: pytest.MonkeyPatch) -> None:
    monkeypatch.setenv("VECMON", "none")
    monkeypatch.delenv("VECMON_RECORD", raising=False)
    status, output, errors = lab("run", SUM)
    assert (status, output, errors.count("\n")) == (2, b"", 1)
    assert errors.startswith("vecmon-lab: VECMON=none is no program; ")


def test_missing_recorder_is_refused(lab: Lab, monkeypatch: pytest.MonkeyPatch) -> None:
    monkeypatch.setenv("VECMON_RECORD", "none")
    status, output, errors = lab("run", SUM)
    assert (status, output, errors.count("\n")) == (2, b"", 1)
    assert errors.startswith("vecmon-lab: there is no program none; counts and runs need it, ")


def test_full_standard_output_is_reported() -> None:
    with open("/dev/full", "wb") as full:
        command = [sys.executable, "-m", "vecmon_lab", "run", str(SUM)]
        run = subprocess.run(command, cwd=TOP, stdout=full, stderr=subprocess.PIPE, check=False)
    assert (run.returncode, run.stderr) == (2, b"vecmon-lab: [Errno 28] No space left on device\n")


def test_file_size_limit_is_reported(tmp_path: pathlib.Path) -> None:
    """The system takes five of seven, and says only at the next write why it takes no more."""
    limit = "import resource, vecmon_lab.__main__; resource.setrlimit(resource.RLIMIT_FSIZE, (1 << 20, 1 << 20))"
    code = f"{limit}; raise SystemExit(vecmon_lab.__main__.main())"
    with (tmp_path / "output").open("wb") as file:
        file.seek((1 << 20) - 5)
        command = [sys.executable, "-c", code, "run", str(SUM)]
        run = subprocess.run(command, cwd=TOP, stdout=file, stderr=subprocess.PIPE, check=False)
    assert (run.returncode, run.stderr) == (2, b"vecmon-lab: [Errno 27] File too large\n")
    assert (tmp_path / "output").read_bytes().lstrip(b"\0") == b"32835"


def test_run_prints_counts(lab: Lab) -> None:
    """Instructions and elements were counted by hand, in the listing that objdump makes of the program."""
    status, output, errors = lab("run", "--stats", SUM)
    assert (status, output) == (0, b"328350\n")
    lines = [line.split() for line in errors.splitlines()]
    assert lines[0] == "250 instructions in 721 ticks".split()
    assert ["7", "vle32.v"] in lines and ["1", "vredsum.vs"] in lines and ["2", "ecall"] in lines
    assert "43 vector instructions".split() in lines and lines[-1] in (
        ["1", "vl=4", "e32,m2,ta,ma"],
        ["1", "vl=4", "e32,m2,tu,ma"],
    )
    assert lab("run", "--count", SUM) == (0, b"328350\n", "250 instructions in 721 ticks\n")


def test_stopping_instruction_is_not_counted(lab: Lab, program: pathlib.Path, tmp_path: pathlib.Path) -> None:
    make_image(program, tmp_path / "stops", "nop\nnop\nebreak")
    status, _, errors = lab("run", "--count", tmp_path / "stops")
    assert status == 133 and errors.splitlines()[0] == "2 instructions in 2 ticks" and errors.count("\n") == 2
