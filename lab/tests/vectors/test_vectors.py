"""Golden results of single instructions: values by hand, QEMU's results, and what each plan covers."""

import json
import os
import pathlib
import subprocess
import sys
from collections import Counter
from typing import Any

import pytest

from support.places import DATA
from vecmon_lab.instructions.table import instruction_table
from vecmon_lab.machine.answers import ControlRegisters
from vecmon_lab.machine.session import Session
from vecmon_lab.vectors import on_qemu
from vecmon_lab.vectors.cases import Case, draw_case, plan
from vecmon_lab.vectors.command import execute_case, golden_results

E8, E16 = 0xC0, 0xC8  # with LMUL 1, ta, ma


def changes(session: Session, name: str, case: Case) -> dict[str, Any]:
    """How a case ends, and what it changes."""
    golden = execute_case(session, instruction_table()[name], case)
    return {key: golden[key] for key in ("end", "cause", "value", "status", "after") if key in golden}


def test_elements_wrap_and_tail_is_undisturbed(session: Session) -> None:
    register = bytes([0, 1, 128, 255]) + bytes(28)
    case = Case(0x021FB157, ControlRegisters(3, E8), v={1: register, 2: b"\x55" * 32})  # vadd.vi v2, v1, -1
    after = {"pc": "10804", "v": {2: "ff007f" + "55" * 29}}
    assert changes(session, "vadd.vi", case) == {"end": "ran", "after": after}


def test_store_changes_bytes(session: Session) -> None:
    case = Case(0x00532223, ControlRegisters(), x={5: 0x1122334455667788, 6: 0x20000}, memory={0x20004: b"\x88\0\0\0"})
    after = {"pc": "10804", "memory": {"20005": "776655"}}  # sw x5, 4(x6), whose first byte was there already
    assert changes(session, "sw", case) == {"end": "ran", "after": after}


def test_load_faults_on_unmapped_page(session: Session) -> None:
    case = Case(0xFFC32283, ControlRegisters(), x={6: 0x22002})  # lw x5, -4(x6)
    assert changes(session, "lw", case) == {"end": "fault", "cause": 5, "value": "21ffe", "after": {}}


def test_store_faults_at_second_element(session: Session) -> None:
    # vse16.v v1, (x6)
    case = Case(0x020350A7, ControlRegisters(2, E16), x={6: 0x20FFE}, v={1: b"\x01\x02\x03\x04" + bytes(28)})
    after = {"vstart": 1, "memory": {"20ffe": "0102"}}
    assert changes(session, "vse16.v", case) == {"end": "fault", "cause": 7, "value": "21000", "after": after}


def test_fault_only_first_load_is_shortened(session: Session) -> None:
    case = Case(0x03030087, ControlRegisters(4, E8), x={6: 0x21FFE}, memory={0x21FFE: b"ab"})  # vle8ff.v v1, (x6)
    after = {"pc": "10804", "vl": 2, "v": {1: "6162" + "00" * 30}}
    assert changes(session, "vle8ff.v", case) == {"end": "ran", "after": after}


def test_calls_print_and_exit(session: Session) -> None:
    write = Case(0x73, ControlRegisters(), x={17: 64, 10: 1, 11: 0x20010, 12: 3}, memory={0x20010: b"abc"})
    after = {"pc": "10804", "x": {10: "3"}, "output": "616263"}
    assert changes(session, "ecall", write) == {"end": "ran", "after": after}
    assert changes(session, "ecall", Case(0x73, ControlRegisters(), x={17: 93, 10: 260})) == {
        "end": "exit",
        "status": 4,
        "after": {},
    }
    assert changes(session, "ebreak", Case(0x00100073, ControlRegisters())) == {"end": "ebreak", "after": {}}


def test_unsupported_call_prints_no_message(session: Session, capsys: pytest.CaptureFixture[str]) -> None:
    assert changes(session, "ecall", Case(0x73, ControlRegisters(), x={17: 63}))["end"] == "ran"
    assert capsys.readouterr().err == ""


def test_agnostic_elements_become_ones_by_policy(session: Session) -> None:
    case = Case(0x021FB157, ControlRegisters(1, E8), v={2: bytes(32)})  # vadd.vi v2, v1, -1
    golden = execute_case(session, instruction_table()["vadd.vi"], case, "ones")
    assert golden["after"] == {"pc": "10804", "v": {2: "ff" * 32}}


@pytest.mark.by_command("vectors")
def test_results_equal_qemu_results(session: Session) -> None:
    lines = (DATA / "golden_vectors.jsonl").read_text("ascii").splitlines()
    for line in lines:
        recorded = json.loads(line)
        numbers = [recorded[name] for name in ("vstart", "vxrm", "vxsat")]
        control = ControlRegisters(recorded["vl"], int(recorded["vtype"], 16), *numbers)
        x = {int(number): int(value, 16) for number, value in recorded["x"].items()}
        v = {int(number): bytes.fromhex(value) for number, value in recorded["v"].items()}
        case = Case(int(recorded["word"], 16), control, x, v)
        golden = json.loads(json.dumps(execute_case(session, instruction_table()[recorded["name"]], case)))
        assert golden == recorded
    assert len(lines) == 28


@pytest.mark.parametrize(
    "name, types",  # SEW 8, 16, 32 and 64 have 7, 6, 5 and 4 group multipliers
    [("vadd.vv", 22), ("vwadd.vv", 15), ("vsext.vf8", 4), ("vmulh.vx", 18), ("vlseg8e8.v", 16), ("vl8re8.v", 22)],
)
def test_plan_covers_legal_types_and_masks(name: str, types: int) -> None:
    row = instruction_table()[name]
    kinds = [kind for kind in plan(row, 5) if not kind.is_illegal and not kind.is_out_of_range]
    masks = 1 if name == "vl8re8.v" else 2
    assert len(kinds) == len(set(kinds)) == masks * types
    assert len({kind.vtype for kind in kinds}) == types


def test_plan_executes_as_planned(program: pathlib.Path) -> None:
    row = instruction_table()["vlse32.v"]
    ends = Counter((result["end"], result.get("cause")) for result in golden_results(program, row))
    assert ends["ran", None] >= 38  # each of 19 types, with and without a mask
    assert ends["fault", 2] == 2 and ends["fault", 5] >= 1
    assert ends.total() == 46


def test_seed_determines_lines(program: pathlib.Path) -> None:
    row = instruction_table()["vluxei16.v"]
    lines = [list(golden_results(program, row, cases, seed)) for cases, seed in ((4, 1), (8, 1), (4, 2))]
    assert lines[0] == lines[1][:4]
    assert lines[0] != lines[2]
    assert draw_case(row, 99, 1) == draw_case(row, 99, 1) != draw_case(row, 98, 1)


@pytest.mark.parametrize(
    ("version", "extension"),
    [
        ("7.2.22 (Debian 1:7.2+dfsg-7+deb12u18+b3)", "Zve64f"),
        ("8.1.5", "Zve64f"),
        ("8.2.0", "zve64f"),
        ("10.0.13 (Debian 1:10.0.13+ds-0+deb13u1)", "zve64f"),
        ("11.1.3 (Debian 1:11.1.3+ds-1)", "zve64f"),
    ],
)
def test_extension_names_select_instructions(
    monkeypatch: pytest.MonkeyPatch, tmp_path: pathlib.Path, version: str, extension: str
) -> None:
    """QEMU 8.2 renamed the property, and QEMU 11 refuses the old name."""
    emulator = tmp_path / "qemu-riscv64"
    emulator.write_text(f"#!/bin/sh\necho 'qemu-riscv64 version {version}'\n", "ascii")
    emulator.chmod(0o700)
    monkeypatch.setenv("PATH", f"{tmp_path}:{os.environ['PATH']}")
    on_qemu.version.cache_clear()
    assert on_qemu.qemu() == ["qemu-riscv64", "-cpu", f"rv64,{extension}=true,vext_spec=v1.0,vlen=256,elen=64"]
    on_qemu.version.cache_clear()


def test_cases_after_qemu_crash_are_run(monkeypatch: pytest.MonkeyPatch) -> None:
    """A process that ends at each case of zeros: the next one begins after it."""
    size = on_qemu.LAYOUT.size

    def run(cases: bytes, policy: str) -> bytes:
        each = [cases[at : at + size] for at in range(0, len(cases), size)]
        end = each.index(bytes(size)) if bytes(size) in each else len(each)
        return bytes(size) + b"".join(each[:end])

    monkeypatch.setattr(on_qemu, "_run", run)
    left = list(on_qemu.results([bytes([number]) * size for number in (1, 0, 2, 3, 0)]))
    assert [result and result[0] for result in left] == [1, None, 2, 3, None]


def test_the_program_for_qemu_is_what_its_texts_say(session: Session) -> None:
    listing = pathlib.Path(on_qemu.__file__).with_name("on_qemu.txt").read_text("ascii").splitlines()
    session.do_all(["1 enter", "1 map 10000 1 rwx"])
    for word, text in (line.split("  ") for line in listing if not line.startswith("#")):
        assert session.do(f"1 asm 10000 {text}") == [f"1 0000000000010000 {word}"]


@pytest.mark.parametrize(
    "arguments, message",
    [
        (["vadd.vw"], "there is no instruction vadd.vw: docs/INSTRUCTIONS.md lists them, and all means each one"),
        ([".word"], "there is no instruction .word: docs/INSTRUCTIONS.md lists them, and all means each one"),
        (["all", "vadd.vv"], "all means each instruction: give no other name"),
        (["vadd.vv", "all"], "all means each instruction: give no other name"),
        (["add", "--cases", "0"], "--cases takes a number from 1 up"),
    ],
)
def test_bad_arguments_are_refused_in_one_line(arguments: list[str], message: str) -> None:
    completed = subprocess.run(
        [sys.executable, "-m", "vecmon_lab", "vectors", *arguments], capture_output=True, text=True
    )
    assert (completed.returncode, completed.stdout, completed.stderr) == (2, "", f"vecmon-lab: {message}\n")


def test_command_prints_one_line_per_case(program: pathlib.Path) -> None:
    command = [sys.executable, "-m", "vecmon_lab", "vectors", "vid.v", "add", "--cases", "3", "--seed", "9"]
    one, other = [subprocess.run(command, capture_output=True, check=True).stdout for _ in range(2)]
    assert one == other
    assert [json.loads(line)["name"] for line in one.splitlines()] == ["vid.v"] * 3 + ["add"] * 3


def test_reader_may_close_output_early(program: pathlib.Path) -> None:
    command = [sys.executable, "-m", "vecmon_lab", "vectors", "vadd.vv", "--cases", "200"]
    with subprocess.Popen(command, stdout=subprocess.PIPE, stderr=subprocess.PIPE) as process:
        assert process.stdout and process.stderr
        assert process.stdout.readline().startswith(b'{"name":"vadd.vv"')
        process.stdout.close()
        assert process.stderr.read() == b""
    assert process.returncode == 141
