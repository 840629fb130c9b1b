"""Golden vectors as programs: on vecmon, on QEMU, through a stock assembler; and a planted fault."""

import copy
import json
import pathlib
import re
import shutil
import subprocess
import sys
from typing import Any

import pytest

from support.commands import Lab
from support.skips import NO_BINUTILS, leave_out
from vecmon_lab.instructions.table import instruction_table
from vecmon_lab.vectors import on_qemu
from vecmon_lab.vectors.command import golden_results
from vecmon_lab.vectors.self_checking import Writer

SIGNATURE_LINES = 400  # two for each of 200 cases
NAMES = [
    "vadd.vv",
    "vmsbf.m",
    "vredsum.vs",
    "vsetvl",
    "csrrs",
    "beq",
    "jal",
    "lw",
    "vse16.v",
    "vle8ff.v",
    "vsoxseg2ei8.v",
]


def golden(program: pathlib.Path, name: str, cases: int, base: int = 0) -> list[dict[str, Any]]:
    """Cases of an instruction."""
    row = instruction_table()[name]
    return [json.loads(json.dumps(each)) for each in golden_results(program, row, cases, 3, base=base)]


def cases_of(folder: pathlib.Path, name: str) -> list[dict[str, Any]]:
    """The cases in the folder of a program."""
    return [json.loads(line) for line in (folder / f"{name}.jsonl").read_text("ascii").splitlines()]


def output_of(words: list[str | pathlib.Path]) -> tuple[int, list[str]]:
    """The status of a program, and its lines of output."""
    completed = subprocess.run(words, stdout=subprocess.PIPE, text=True)
    return completed.returncode, completed.stdout.splitlines()


def differing(lines: list[str], reference: pathlib.Path) -> list[int]:
    """The numbers of the cases whose digests aren't those of a reference."""
    words = reference.read_text("ascii").splitlines()
    assert len(lines) == SIGNATURE_LINES + 1 and len(words) == SIGNATURE_LINES
    return [at // 2 + 1 for at in range(0, SIGNATURE_LINES, 2) if lines[at : at + 2] != words[at : at + 2]]


def test_vecmon_passes_all_cases(lab: Lab, tmp_path: pathlib.Path) -> None:
    words = ["--cases", "12", "--choices", "--elf", tmp_path, "--environment", "vecmon"]
    status, output, _ = lab("vectors", *NAMES, *words)
    assert status == 0 and output.decode().splitlines()[0].endswith("cases in 10 programs")
    for name in NAMES:
        if name == "jal":  # all go to other pages
            continue
        status, output, errors = lab("run", tmp_path / f"{name}.elf")
        assert (status, errors) == (0, ""), name
        assert output.decode() == (tmp_path / f"{name}.reference").read_text("ascii") + "00000000\n"


@pytest.mark.usefixtures("qemu")
def test_missing_qemu_is_reported(tmp_path: pathlib.Path) -> None:
    command = [sys.executable, on_qemu.__file__, str(tmp_path / "golden.jsonl")]
    run = subprocess.run(command, env={"PATH": str(tmp_path)}, capture_output=True, text=True)
    assert (run.returncode, run.stdout) == (1, "")
    assert run.stderr == "on_qemu.py: qemu-riscv64 not found: sudo apt install qemu-user\n"


@pytest.mark.parametrize(
    "arguments, status, output, errors",
    [
        (["--help"], 0, "usage: on_qemu.py [-h] FILE\n", ""),
        ([], 2, "", "on_qemu.py: error: the following arguments are required: FILE\n"),
        (["none"], 2, "", "on_qemu.py: error: none: No such file or directory\n"),
    ],
)
def test_on_qemu_states_its_usage(
    monkeypatch: pytest.MonkeyPatch,
    capsys: pytest.CaptureFixture[str],
    arguments: list[str],
    status: int,
    output: str,
    errors: str,
) -> None:
    monkeypatch.setattr(sys, "argv", ["on_qemu.py", *arguments])
    monkeypatch.setattr(shutil, "which", lambda name: name)
    with pytest.raises(SystemExit) as stopped:
        on_qemu.main()
    found = capsys.readouterr()
    assert stopped.value.code == status and found.out.startswith(output) and found.err.endswith(errors)


def test_qemu_differs_in_known_cases(lab: Lab, tmp_path: pathlib.Path) -> None:
    assert lab("vectors", *NAMES, "--cases", "12", "--seed", "3", "--choices", "--elf", tmp_path)[0] == 0
    for name in NAMES:
        cases = cases_of(tmp_path, name)
        expected = [number for number, found in enumerate(on_qemu.differences(cases), 1) if found]
        status, lines = output_of([*on_qemu.QEMU, tmp_path / f"{name}.elf"])
        assert differing(lines, tmp_path / f"{name}.reference") == expected, name
        assert (status, int(lines[-1], 16)) == (expected[0] if expected else 0,) * 2


def test_planted_fault_is_reported_at_its_case(lab: Lab, program: pathlib.Path, tmp_path: pathlib.Path) -> None:
    right = golden(program, "vsub.vv", 24)
    right = [case for case in right if case["end"] == "ran" and "v" in case["after"]]
    for number in (1, 7, len(right)):
        wrong = copy.deepcopy(right)
        register, digits = next(iter(wrong[number - 1]["after"]["v"].items()))
        wrong[number - 1]["after"]["v"][register] = f"{digits[:-1]}{int(digits[-1], 16) ^ 1:x}"
        Writer(tmp_path, None, "vecmon", has_choices=True).write("wrong", wrong)
        status, output, _ = lab("run", tmp_path / "wrong.elf")
        assert status == number == int(output.split()[-1], 16)


def test_unavailable_cases_are_omitted(lab: Lab, tmp_path: pathlib.Path) -> None:
    expected = {}
    for environment in ("linux", "vecmon", "bare"):
        words = ["--choices", "--elf", tmp_path, "--environment", environment]
        status, output, _ = lab("vectors", "vle8.v", "ecall", "ebreak", *words)
        expected[environment] = output.decode().splitlines()
    # 22 types, masked or not, and 8; 24 and 8
    assert expected["linux"] == ["84 cases in 2 programs", "left out: 32 of call"]
    assert expected["vecmon"][0].endswith(" cases in 1 program")
    assert {line.rpartition(" of ")[2] for line in expected["vecmon"][1:]} == {"call", "ebreak", "fault 2", "fault 5"}
    assert {line.rpartition(" of ")[2] for line in expected["bare"][1:]} == {"call", "fault 5"}


OPEN_NAMES = ["vslideup.vi", "csrrw", "vl1re8.v", "vsseg3e8.v"]
"""Instructions with cases that the standard leaves open, and that QEMU 7.2 ends in another way than the machine."""


@pytest.mark.usefixtures("qemu")
def test_qemu_agrees_without_choices(lab: Lab, tmp_path: pathlib.Path) -> None:
    """With all choices each of these programs differs; without them each case agrees."""
    for option, expected in {"--choices": OPEN_NAMES, "--environment=linux": []}.items():
        folder, differ = tmp_path / option, list[str]()
        assert lab("vectors", *OPEN_NAMES, option, "--cases", "24", "--seed", "1", "--elf", folder)[0] == 0
        for name in OPEN_NAMES:
            assert len(cases_of(folder, name)) >= 8
            status, lines = output_of([*on_qemu.QEMU, folder / f"{name}.elf"])
            differ += [name] if status or differing(lines, folder / f"{name}.reference") else []
        assert differ == expected


def test_open_cases_are_omitted(lab: Lab, tmp_path: pathlib.Path) -> None:
    """None has vstart, and where it had one it is tried without; the summary says what is left out and why."""
    status, output, _ = lab("vectors", "vadd.vv", "vsse16.v", "--elf", tmp_path)
    lines = output.decode().splitlines()
    assert status == 0 and lines[0].endswith(" cases in 2 programs")
    open_result = "left out: {} since the standard leaves the result open: "
    assert all(re.match(open_result.format(r"\d+"), line) for line in lines[1:])
    assert any("the order of stores to the same address is open" in line for line in lines)
    cases = cases_of(tmp_path, "vadd.vv")
    assert {case["vstart"] for case in cases} == {0}
    kinds = {(int(case["vtype"], 16) & 0x3F, int(case["word"], 16) >> 25 & 1) for case in cases if case["end"] == "ran"}
    assert len(kinds) == 44  # all types, masked and not
    assert {case["vtype"] for case in cases if case["end"] == "fault"} <= {"8000000000000000"}


def test_choices_need_programs(lab: Lab) -> None:
    text = "--choices is for --elf and --asm: JSON lines have these cases always"
    assert lab("vectors", "vadd.vv", "--choices") == (2, b"", f"vecmon-lab: {text}\n")


@pytest.mark.parametrize("environment", ["linux", "bare"])
def test_stock_assembler_makes_same_program(lab: Lab, tmp_path: pathlib.Path, environment: str) -> None:
    """Of each kind of instruction; and the programs leave the same signature."""
    if not shutil.which("riscv64-linux-gnu-ld"):
        leave_out(NO_BINUTILS)
    arguments = ["--cases", "12", "--choices", "--environment", environment, "--asm", tmp_path, "--elf", tmp_path]
    assert lab("vectors", *NAMES, *arguments)[0] == 0
    for source in tmp_path.glob("*.s"):
        made, linked = source.with_suffix(".o"), source.with_suffix(".linked")
        options = next(line for line in source.read_text("ascii").splitlines() if "-Wl" in line).partition("-Wl,")[2]
        march = "-march=rv64im_zicsr_zve64x_zvl256b"
        subprocess.run(["riscv64-linux-gnu-as", march, "-o", made, source], check=True)
        link = ["riscv64-linux-gnu-ld", *options.split(","), "-o", f"{linked}", f"{made}"]
        # it warns of a page that is writable and executable
        subprocess.run(link, check=True, stderr=subprocess.DEVNULL)
        if environment == "linux" and shutil.which("qemu-riscv64"):
            assert output_of([*on_qemu.QEMU, linked]) == output_of([*on_qemu.QEMU, source.with_suffix(".elf")])
    assert len(list(tmp_path.glob("*.linked"))) == (11 if environment == "linux" else 10)
