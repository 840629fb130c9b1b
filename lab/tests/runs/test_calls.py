"""Calls that the machine doesn't support: each command reports them, once each, on standard error."""

import pathlib
import re
import subprocess
import sys

import pytest

from support.commands import Lab
from support.gdb_output import run_in_gdb
from support.images import make_image
from support.places import DOCS, TOP
from support.sources import EXIT
from vecmon_lab import Kernel
from vecmon_lab.guest.guest import Guest, started
from vecmon_lab.instructions.calls import unsupported_call
from vecmon_lab.machine.session import Session
from vecmon_lab.page.state import ABSENT, WatchSet, look_at
from vecmon_lab.tables.table import read_table

LINES = "li a7, 64; li a0, 1; la a1, TEXT; li a2, LENGTH; ecall"
CALLS = f"""
# Twice: a read, and writes to files 2 and 1; then a string as RARS and as Venus print it, and an unknown number.
        li s0, 2
again:  li a7, 63
        li a0, 0
read:   ecall
        li a7, 64
        li a0, 2
        la a1, text
        li a2, 3
error:  ecall
        li a0, 1
write:  ecall
        addi s0, s0, -1
        bnez s0, again
        li a7, 4
        la a0, text
rars:   ecall
        li a7, 0
        li a0, 4
venus:  ecall
        li a7, -1
        ecall
        li a0, 5
        {EXIT}
        .data
text:   .ascii "hi\\n"
"""
TOLD = {
    "read": "ecall 63 (read) isn't supported; 64 (write), 93 and 94 (exit) are",
    "error": "a write to file 2 (standard error) isn't supported; file 1 (standard output) is",
    "rars": f"ecall 4 prints a string in RARS, and isn't supported here; instead: {LINES}",
    "venus": f"ecall with 4 in a0 prints a string in Venus, and 0 in a7 isn't supported here; instead: {LINES}",
    "unknown": "ecall -1 isn't supported; 64 (write), 93 and 94 (exit) are",
}


@pytest.fixture
def calls(program: pathlib.Path, tmp_path: pathlib.Path) -> tuple[pathlib.Path, str]:
    """The program, and what is reported of it."""
    labels = make_image(program, tmp_path / "calls", CALLS) | {}
    places = {name: labels[name] for name in TOLD if name in labels} | {"unknown": labels["venus"] + 8}
    return tmp_path / "calls", "".join(f"vecmon-lab: {places[name]:x}: {text}\n" for name, text in TOLD.items())


def test_every_command_reports_unsupported_call_once(lab: Lab, calls: tuple[pathlib.Path, str]) -> None:
    path, reply = calls
    assert lab("run", path) == (5, b"hi\nhi\n", reply)
    for command in ("profile", "compare"):
        status, _, error = lab(command, path)
        assert (status, error) == (0, reply)


@pytest.mark.parametrize("lines", [["run"], ["step 200"]])
def test_console_reports_unsupported_call(calls: tuple[pathlib.Path, str], lines: list[str]) -> None:
    path, reply = calls
    command, given = [sys.executable, "-m", "vecmon_lab", "console", str(path)], "".join(f"{line}\n" for line in lines)
    shown = subprocess.run(command, cwd=TOP, input=given, capture_output=True, check=True, text=True)
    assert shown.stderr == reply and "status 5" in shown.stdout


def test_gdb_reports_unsupported_call(calls: tuple[pathlib.Path, str]) -> None:
    path, reply = calls
    output, end, error = run_in_gdb(path)
    assert (output, error) == (b"hi\nhi\n", reply) and "with status 5;" in end


def test_kernel_call_reports_unsupported_call(
    calls: tuple[pathlib.Path, str], capsys: pytest.CaptureFixture[str], tmp_path: pathlib.Path
) -> None:
    source = tmp_path / "reads.s"
    source.write_text("reads: li a7, 63\n ecall\n ret\nwrites: li a7, 64\n li a0, 1\n li a2, 0\n ecall\n ret\n")
    with Kernel(source) as kernel:
        assert kernel.call("writes").value == 0
        assert [kernel.call("reads").signed for _ in range(2)] == [-38, -38]
    assert capsys.readouterr().err == f"vecmon-lab: 10004 reads+0x4: {TOLD['read']}\n"


def test_grade_reports_unsupported_call_once(lab: Lab, tmp_path: pathlib.Path) -> None:
    """Once in all five cases of an exercise, for each answer with its name."""
    answers = [tmp_path / "one.s", tmp_path / "other.s"]
    for answer in answers:
        answer.write_text("li a7, 63\necall\nret\n")
    status, _, error = lab("grade", "doubles", *answers)
    expected = [f"vecmon-lab: 10004 in {answer}: {TOLD['read']}" for answer in answers]
    assert (status, sorted(error.splitlines())) == (1, expected)


def test_supported_calls_are_not_searched(program: pathlib.Path, tmp_path: pathlib.Path) -> None:
    """Where the code before an ECALL, without a target of a branch between, shows the call, no run stops there."""
    good = "li a7, 64\nli a0, 1\nli a2, 0\necall\n" + EXIT
    for source, number in [(good, 0), (good.replace("\necall", "\nadd a7, a7, zero\necall", 1), 1)]:
        make_image(program, tmp_path / "image", source)
        with started(tmp_path / "image") as guest:
            assert guest.runner.has_uncertain() == bool(number)
    jumps = "li a7, 63\nj call\nli a7, 64\nli a0, 1\ncall: ecall\n" + EXIT
    make_image(program, tmp_path / "image", jumps)
    with started(tmp_path / "image") as guest:
        assert guest.runner.has_uncertain()


def test_page_marks_unsupported_call(session: Session) -> None:
    """Those in the code, from the start on; a call with a computed number once the program reaches it."""
    guest = Guest(session)
    code = ["addi x17, x0, 63", "ecall", "addi x17, x10, 42", "ecall", "addi x17, x0, 93", "ecall"]
    guest.ask("enter", "map 10000 1 rx", *(f"asm {0x10000 + 4 * at:x} {text}" for at, text in enumerate(code)))
    guest.ask("setpc 10000")
    watch_set, shown = WatchSet(), [ABSENT]
    for _ in range(5):
        shown.append(look_at(guest, watch_set, shown[-1], guest.ask("step 1")))
    read, rars = {"10004": TOLD["read"]}, {"1000c": TOLD["rars"]}  # -38 and 42 is 4
    assert [state.get("calls") for state in shown[1:]] == [
        read,
        read,
        {**read, **rars},
        {**read, **rars},
        {**read, **rars},
    ]
    guest.ask("asm 10004 ecall", "asm 1000c addi x0, x0, 0", "asm 10000 addi x17, x0, 93")
    assert "calls" not in look_at(guest, watch_set, shown[-1], [])


def test_documents_list_supported_calls() -> None:
    """Each number of RARS and Venus is there with what it does, and what to write here."""
    rows = re.findall(r"^\| (\d+) \| ([\w and]+): (.+?) \| `?(.+?)`? \|$", (DOCS / "COMPILING.md").read_text(), re.M)
    listed = {
        (system, *row) for number, both, *row in rows for system in [f"{it} {number}" for it in both.split(" and ")]
    }
    assert listed == {(f"{system} {number}", *cells) for system, number, *cells in read_table("calls") if cells[1:]}


@pytest.mark.parametrize("number, file, sentence", [(64, 1, ""), (93, 7, ""), (94, 0, ""), (64, 0, "(standard input)")])
def test_supported_call_is_accepted(number: int, file: int, sentence: str) -> None:
    x = [0] * 32
    x[10], x[17] = file, number
    assert sentence in unsupported_call(x) and bool(sentence) == bool(unsupported_call(x))
