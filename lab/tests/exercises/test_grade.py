"""Graded answers: right and wrong ones of each kind, whatever may be in a file, and bad exercises."""

import csv
import json
import os
import pathlib
import re
import shutil
import signal
import subprocess
import sys
import xml.etree.ElementTree as ElementTree
from collections.abc import Callable, Sequence

import pytest

from support.commands import Lab
from support.images import MARCH, make_image
from support.places import DATA, DOCS, EXAMPLES, SUM
from vecmon_lab import LabError
from vecmon_lab.language import apart
from vecmon_lab.compilers.compiler import Compiler
from vecmon_lab.exercises.answer import ready, settled, source_answer
from vecmon_lab.exercises.exercise import OURS, read_exercise, with_course
from vecmon_lab.exercises.grade import grade
from vecmon_lab.machine.answers import ControlRegisters, Position, ScalarRegisters, VectorRegister

ECHO = """
set_up = ["map 20000 1 rw"]
junk = true
limits = { ticks = 900, output = 8 }
[[cases]]
name = "word"
registers = { a1 = 0x20000, a2 = 5 }
memory = [{ at = 0x20000, text = "hello" }]
expected = { output = "hello", registers = { a0 = 5, t1 = -1 }, memory = [{ at = 0x20010, i32 = [-5, 7] }] }
"""
ECHOES = """
        li a0, 1
        li a7, 64
        ecall
        li t0, -5
        sw t0, 16(a1)
        li t0, 7
        sw t0, 20(a1)
        li t1, -1
"""
BY_HAND = """# ECHOES at the monitor
2 map 10000 1 rx
2 asm 10000 addi x10, x0, 1
2 asm 10004 addi x17, x0, 64
2 asm 10008 ecall
2 asm 1000c addi x5, x0, -5
2 asm 10010 sw x5, 16(x11)
2 asm 10014 addi x5, x0, 7
2 asm 10018 sw x5, 20(x11)
2 asm 1001c addi x6, x0, -1
2 asm 10020 jalr x0, 0(x1)
2 setpc 10000
"""
BY_POKES = """
1 map 10000 1 rwx
1 asm 10000 ebreak
1 map 30000 1 rw
1 set x10 5
1 set x6 ffffffffffffffff
1 setpc 10000
"""
Echo = Callable[[str | bytes, str], str]


@pytest.fixture
def echo(program: pathlib.Path, tmp_path: pathlib.Path) -> Echo:
    """Grade a file of this name by the exercise ECHO; return why it fails, or nothing."""
    (tmp_path / "exercise.toml").write_text(ECHO)
    exercise = settled(program, read_exercise(tmp_path))

    def graded(content: str | bytes, name: str) -> str:
        (tmp_path / name).write_bytes(content.encode() if isinstance(content, str) else content)
        (outcome,) = grade(program, exercise, tmp_path / name)
        return outcome

    return graded


def answer(name: str) -> pathlib.Path:
    """Return a stored answer: one of the manual's, or one that only tests use."""
    shown = EXAMPLES / "answers" / name
    return shown if shown.is_file() else DATA / "answers" / name


def run_grade(*arguments: object, folder: pathlib.Path | None = None) -> "subprocess.CompletedProcess[str]":
    """The command, with its outputs, in a folder."""
    command = [sys.executable, "-m", "vecmon_lab", "grade", *map(str, arguments)]
    return subprocess.run(command, capture_output=True, text=True, cwd=folder)


@pytest.mark.parametrize(
    "exercise, right, wrong",
    [
        ("saturating_sum", ["vectors.s"], "wraps.s"),
        ("strip_mined_copy", ["copy.s", "copy.script"], "by_registers.s"),
        ("strlen", ["strlen.s"], "plain_load.s"),
    ],
)
@pytest.mark.by_command("grade")
def test_right_answers_pass_and_wrong_answers_fail(
    program: pathlib.Path, exercise: str, right: list[str], wrong: str
) -> None:
    settled_exercise = settled(program, read_exercise(pathlib.Path(exercise)))
    for name in right:
        assert not any(grade(program, settled_exercise, answer(name)))
    assert any(grade(program, settled_exercise, answer(wrong)))


@pytest.mark.parametrize(
    "exercise, source, fails",
    [
        (
            "saturating_sum",
            ["vsetvli t0, a3, e16, m8, ta, ma", "vle16.v v8, (a1)", "vle16.v v16, (a2)", "vsadd.vv v8, v8, v16"]
            + ["vse16.v v8, (a0)"],
            "many",
        ),
        ("strip_mined_copy", ["vsetvli t0, a2, e8, m8, ta, ma", "vle8.v v8, (a1)", "vse8.v v8, (a0)"], "a tail"),
        (
            "strlen",
            ["vsetvli t0, x0, e8, m8, ta, ma", "vle8ff.v v8, (a0)", "vmseq.vi v0, v8, 0", "vfirst.m a0, v0"],
            "long",
        ),
    ],
)
def test_single_round_answer_fails(
    program: pathlib.Path, tmp_path: pathlib.Path, exercise: str, source: list[str], fails: str
) -> None:
    answer = tmp_path / "answer.s"
    answer.write_text("\n".join([*source, "ret"]))
    cases = settled(program, read_exercise(pathlib.Path(exercise)))
    outcomes = grade(program, cases, answer)
    assert [case.name for case, outcome in zip(cases.cases, outcomes) if outcome] == [fails]


@pytest.mark.parametrize("end", ["ret", "ebreak", "li a7, 93\necall"])
def test_answer_passes_with_any_ending(echo: Echo, end: str) -> None:
    assert echo(ECHOES + end, "answer.s") == ""


def test_script_and_image_answers_pass(echo: Echo, program: pathlib.Path, tmp_path: pathlib.Path) -> None:
    make_image(program, tmp_path / "made", ECHOES + "ret")
    assert echo((tmp_path / "made").read_bytes(), "image") == ""
    assert echo(BY_HAND, "script") == ""
    assert echo(BY_HAND + "2 go", "script") == ""


@pytest.mark.parametrize(
    "change, reason",
    [
        (("li t0, 7", "li t0, 8"), "element 1, i32 at 0x20014: expected 7, found 8"),
        (("sw t0, 16", "sw t0, 24"), "element 0, i32 at 0x20010: expected -5, and it was left as it was"),
        (("li t1, -1", "addi a0, a0, 1"), "a0: expected 5, found 6"),
        (("li t1, -1", ""), "t1: expected -1, and it was left as it was"),
        (("li t1, -1", "mv a0, a1"), "a0: expected 5, found 131072 (0x20000, near a1's address)"),
        (("li t1, -1", "li t1, -1\nli a0, 131072 - 4096"), "a0: expected 5, found 126976"),
        (("li a0, 1", "li a0, 1\naddi a2, a2, -1"), "a0: expected 5, found 4"),
        (("ecall", "ecall\nli a0, 1\necall"), "it writes more than 8 bytes"),
        (("ecall", "li a0, 5"), "output: expected 'hello', found ''"),
        (
            ("ecall", "j ."),
            "it hasn't ended after 900 ticks (an instruction takes at least one); it is at line 4",
        ),
        (
            ("ecall", "ld a0, 0(x0)"),
            "line 4: The load at 0x10008 may not read from 0x0 on: a page isn't mapped, or has no permission r.",
        ),
        (
            ("ecall", "li t0, 3\nsw x0, 0(t0)"),
            "line 5: The store at 0x1000c may not write from 0x3 on: a page isn't mapped, or has no permission w.",
        ),
        (("ecall", "li t2"), "answer.s:4:9: li takes 2 operands, not 1"),
        (
            ("ecall", "vadd.vv v1, v2"),
            "answer.s:4:23: an operand is missing at the end; the form is vadd.vv vd, vs2, vs1[, v0.t]",
        ),
    ],
)
def test_first_difference_is_reported(echo: Echo, change: tuple[str, str], reason: str) -> None:
    assert echo(ECHOES.replace(*change) + "ret", "answer.s") == reason


@pytest.mark.parametrize(
    "content, name, reason",
    [
        (
            BY_POKES,
            "script",
            "a0: expected 5, and it was left as it was",
        ),  # it has another value when the program begins
        (
            BY_POKES + "1 map 20000 1 rw\n1 poke 20010 fbffffff07000000",
            "script",
            "map 20000 1 rw: E16: a page is already mapped",
        ),
        (BY_HAND + "2 break 10010", "script", "Stopped at the breakpoint at 0x10010; its instruction is the next one."),
        ("1 enter", "script", "line 1: an answer has no line of the operator's, and no enter, leave or load"),
        ("\n1  leave", "script", "line 2: an answer has no line of the operator's, and no enter, leave or load"),
        (
            "# once more\n1 load image",
            "script",
            "line 2: an answer has no line of the operator's, and no enter, leave or load",
        ),
        (
            BY_HAND + "* slices 9",
            "script",
            "line 13: an answer has no line of the operator's, and no enter, leave or load",
        ),
        (BY_HAND + "1 regs", "script", "line 13: an answer has lines of one user, here of 2"),
        ("regs", "script", "line 1: 'regs' has no user's digit and space before it; a source's name ends in .s or .S"),
        (
            "1 set x5 1\nret",
            "a.asm",
            "line 2: 'ret' has no user's digit and space before it; a source's name ends in .s or .S",
        ),
        (
            "1 map 10000 1 rx\n1 asm 10000 nop",
            "script",
            "asm 10000 nop: E15: nop is a pseudo-instruction, which only a source has",
        ),
        ("", "script", "No instruction can be fetched at 0x0: its page isn't mapped, or has no permission x."),
        ("", "empty.s", "there is no instruction in the source"),
        (".zero 5", "zeros.s", "there is no instruction in the source"),
        (ECHOES, "answer.s", "it runs on behind its last instruction: is `ret` missing?"),
        (b"\x7fELF", "image", "the machine refuses image (E09 Short): the file has less than 64 bytes"),
        (
            b"\x7fELF\1\1\1" + bytes(60),
            "image",
            f"the machine refuses image (E09 Class): the class isn't 2, 64 bits: compile with {MARCH} -mabi=lp64",
        ),
        (
            b"\x7fELF\2\1".ljust(18, b"\0") + b"\xf3".ljust(30, b"\0") + b"\5".ljust(16, b"\0"),
            "image",
            "it is compiled for compressed instructions and a floating-point ABI, and the machine has none: "
            f"compile with {MARCH} -mabi=lp64",
        ),
        pytest.param(b"\x7fELF" + bytes(1 << 22), "image", "it has more than 4,194,304 bytes", id="large"),
        (b"1 regs\n\xff\xfe", "script", "it is no image and no text: byte 8 is 0xff"),
        (
            b"\0\0\0",
            "answer.s",
            "answer.s:1:1: this is U+0000, a control character: only texts and comments may have it",
        ),
    ],
)
def test_unusable_answer_fails_with_reason(echo: Echo, content: str | bytes, name: str, reason: str) -> None:
    assert echo(content, name) == reason


def test_answer_that_takes_long_to_assemble_fails(echo: Echo, monkeypatch: pytest.MonkeyPatch) -> None:
    """Its process is ended at the limit of processor."""
    repeated = ".rept 300\nnop\n.endr\n"
    assert echo(f"{repeated}ebreak\n", "answer.s") != apart.TOO_LONG
    assert "there is no instruction ad" in echo(f"{repeated}ad a0\n", "answer.s")
    ended = subprocess.CompletedProcess([], -signal.SIGXCPU, b"", b"")
    monkeypatch.setattr("vecmon_lab.language.apart.subprocess.run", lambda *_, **words: ended)
    assert echo(repeated, "answer.s") == apart.TOO_LONG


def test_unreadable_answer_has_row(tmp_path: pathlib.Path) -> None:
    completed = run_grade("strlen", "--csv", tmp_path / "none", tmp_path, SUM, answer("typo.s"))
    header, *rows = csv.reader(completed.stdout.splitlines())
    assert header[:4] == ["answer", "passed", "of", "short"] and header[-2:] == ["empty", "reason"]
    assert {tuple(row[1:8]) for row in rows[:2] + rows[3:]} == {("0", "5", *["fails"] * 5)}
    assert [row[-1] for row in rows[:2]] == [
        "it can't be read: No such file or directory",
        "it can't be read: Is a directory",
    ]
    assert rows[3][-1] == "typo.s:3:19: an operand is missing at the end; the form is vle16.v vd, (rs1)[, v0.t]"
    assert (completed.returncode, completed.stderr) == (1, "")


@pytest.mark.parametrize("option", [[], ["--rows"]])
def test_author_of_answer_controls_no_terminal(tmp_path: pathlib.Path, option: list[str]) -> None:
    """Of an answer's name and text no control character is printed, no line of its own, and no text from right to left."""
    odd = tmp_path / os.fsdecode(b"a\xff\x1b[31m\nb.s  ok  5 of 5\n.s")
    odd.write_text("answer:\n \x1b]0;title\x07 x1\n \u202eret\n", "utf-8")
    completed = run_grade("strlen", *option, odd)
    text = completed.stdout.replace("\n", "")
    assert text.isprintable() and not re.search("^b.s", completed.stdout, re.MULTILINE)
    assert "a??[31m?b.s  ok  5 of 5?.s" in text and "this is U+202E, right-to-left override" in text
    assert (completed.returncode, completed.stderr) == (1, "")


def test_manual_table_is_reproduced(monkeypatch: pytest.MonkeyPatch) -> None:
    """It shows nothing of hidden cases except that they fail."""
    command = "$ vecmon-lab grade saturating_sum answers/*; echo $?\n"
    shown = (DOCS / "GRADING.md").read_text("utf-8").partition(command)[2].partition("```")[0]
    monkeypatch.chdir(EXAMPLES)
    completed = run_grade("saturating_sum", *sorted(pathlib.Path("answers").iterdir()))
    assert f"{completed.stdout}{completed.stderr}{completed.returncode}\n" == shown


def test_excess_output_fails() -> None:
    completed = run_grade("saturating_sum", answer("talks.s"))
    assert completed.stdout.endswith("talks.s: it writes more than 4,096 bytes\n") and completed.returncode == 1


def test_parallel_grading_equals_single_grading() -> None:
    names = ["copy.s", "by_registers.s", "copy.script", "forever.s"]
    completed = run_grade("strip_mined_copy", "--rows", *(answer(name) for name in names * 6))
    alone = [run_grade("strip_mined_copy", "--rows", answer(name)) for name in names]
    assert completed.stdout == "".join(each.stdout for each in alone) * 6
    assert [each.returncode for each in alone] == [0, 1, 0, 1]


IN_C = """\
#include "vecmon.h"
long answer(long a0, int32_t *places)
{
    put(places, 5);
    places[4] = -5;
    places[5] = 7;
    __asm__("li t1, -1");
    return 5;
}
"""


@pytest.mark.parametrize(
    "change, reason",
    [
        (("", ""), ""),
        (("= 7", "= 8"), "element 1, i32 at 0x20014: expected 7, found 8"),
        (("return 5", "return 5 / *(volatile long *)a0"), "line 8: The load at 0x1"),
        (
            ("return 5", "for (;;) ;"),
            "it hasn't ended after 900 ticks (an instruction takes at least one); it is ",
        ),
        (("return 5", "exit(5)"), ""),
        (("return 5", "return five"), "answer.c:8:12: use of undeclared identifier 'five'"),
        (("answer", "main"), "answer.c: the source has no function `answer`, which each case calls"),
        (("vecmon.h", "/etc/passwd"), "answer.c:1:10: 'passwd' file not found"),
        (("vecmon.h", "exercise.toml"), "answer.c:1:10: 'exercise.toml' file not found"),
    ],
)
def test_c_answer_is_graded(echo: Echo, sandboxed_clang: Compiler, change: tuple[str, str], reason: str) -> None:
    """It is compiled in the sandbox, which has not even the files next to it."""
    reply = echo(IN_C.replace(*change), "answer.c")
    assert reply.startswith(reason) if reason else not reply


def test_c_needs_compiler_and_sandbox(
    lab: Lab, tmp_path: pathlib.Path, monkeypatch: pytest.MonkeyPatch, sandboxed_clang: Compiler
) -> None:
    """One line reports it, and no answer fails for it."""
    (tmp_path / "answer.c").write_text(IN_C)
    monkeypatch.setattr(os, "geteuid", lambda: 0)
    status, output, errors = lab("grade", "strlen", tmp_path / "answer.c")
    assert (status, output) == (2, b"") and "isn't compiled as root" in errors
    monkeypatch.setattr(os, "geteuid", lambda: 1000)
    status, output, _ = lab("grade", "strlen", tmp_path / "answer.c")
    assert status == 1 and b"answer.c: " in output
    monkeypatch.setattr(shutil, "which", lambda name, path=None: None)
    status, output, errors = lab("grade", "strlen", tmp_path / "answer.c")
    assert (status, output) == (2, b"") and "no compiler for C: sudo apt install clang-19 lld-19 bubblewrap" in errors


def test_exercise_reference_may_be_in_c(program: pathlib.Path, tmp_path: pathlib.Path, clang: Compiler) -> None:
    """Its files are the author's own, and may have headers next to them."""
    (tmp_path / "exercise.toml").write_text(
        'reference = "reference.c"\n[[cases]]\nregisters = { a1 = 6 }\nexpected.registers = ["a0"]'
    )
    (tmp_path / "power.h").write_text("#define POWER(x) ((x) * (x))\n")
    (tmp_path / "reference.c").write_text('#include "power.h"\nlong answer(long a, long b) { return POWER(b); }\n')
    (case,) = settled(program, read_exercise(tmp_path)).cases
    assert case.expected.registers == {"x10": 36}
    (tmp_path / "power.h").unlink()
    with pytest.raises(LabError, match=f"^{tmp_path.name}: reference.c:1:10: 'power.h' file not found"):
        settled(program, read_exercise(tmp_path))


LONG = """
limits = { instructions = 20, size = 80 }
[[cases]]
registers = { a1 = 6 }
expected.registers = { a0 = 36 }
"""
BY_ROUNDS = "li a0, 0\nli t0, 6\nnext: add a0, a0, a1\naddi t0, t0, -1\nbnez t0, next\nret"  # 21 instructions


@pytest.mark.parametrize(
    "source, reason",
    [
        ("mul a0, a1, a1\nret", ""),
        (BY_ROUNDS.replace("ret", "ebreak"), ""),  # it has 20, since the instruction that stops doesn't execute
        (BY_ROUNDS, "the results are right, but it takes more than 20 instructions: with vectors fewer will do"),
        (BY_ROUNDS.replace("6", "7"), "a0: expected 36, found 42"),
        ("j .", "it hasn't ended after 100,000 ticks (an instruction takes at least one); it is at line 1"),
        ("# " + "as long as it may be " * 4 + "\nret", "it has more than 80 bytes"),
    ],
)
def test_answers_are_limited(program: pathlib.Path, tmp_path: pathlib.Path, source: str, reason: str) -> None:
    (tmp_path / "exercise.toml").write_text(LONG)
    (tmp_path / "answer.s").write_text(source)
    assert grade(program, settled(program, read_exercise(tmp_path)), tmp_path / "answer.s") == [reason]


def registers_before(program: pathlib.Path, folder: pathlib.Path) -> tuple[Sequence[int], list[int], int]:
    """x0 to x31, v0 to v31 and vxrm, as an answer to the exercise in a folder finds them, which begins where it should."""
    exercise = read_exercise(folder)
    with ready(program, source_answer("ret", pathlib.Path("answer.s")), exercise, exercise.cases[0]) as guest:
        assert guest.query("state", Position).pc == 0x10000
        v = [int(guest.query(f"vreg v{number} 8", VectorRegister).data.hex(), 16) for number in range(32)]
        return guest.query("regs", ScalarRegisters).x, v, guest.query("vcsr", ControlRegisters).vxrm


def test_junk_registers_are_randomized(program: pathlib.Path, tmp_path: pathlib.Path) -> None:
    """And else 0, as in exercises that don't know the key. It is the same each time, and what a case names stays."""
    file = tmp_path / "exercise.toml"
    case = "[[cases]]\nname = 'a'\nregisters = { a1 = 6 }\nexpected.registers = { a0 = 36 }"
    file.write_text(case)
    x, v, vxrm = registers_before(program, tmp_path)
    assert (x[5:10], x[11:], v, vxrm) == ([0] * 5, [6, *[0] * 20], [0] * 32, 0)
    file.write_text(f"junk = true\n{case}")
    x, v, vxrm = registers_before(program, tmp_path)
    assert all(x[5:]) and all(v) and vxrm and len({*x[5:], *v}) == 59 and x[11] == 6
    assert registers_before(program, tmp_path) == (x, v, vxrm)
    file.write_text(f"junk = true\n{case}".replace("'a'", "'b'"))
    assert not {*registers_before(program, tmp_path)[0][12:]} & {*x}


def test_non_file_is_refused(tmp_path: pathlib.Path) -> None:
    """A pipe would never end, and a link would show the first line of another file."""
    os.mkfifo(tmp_path / "pipe.s")
    (tmp_path / "link.s").symlink_to("/etc/passwd")
    completed = run_grade("strlen", tmp_path / "pipe.s", tmp_path / "link.s", "/dev/zero")
    output = [line.rpartition(": ")[2] for line in completed.stdout.splitlines()[-3:]]
    no_file = "it is no regular file, and others aren't read"
    assert output == [no_file, "it is a link, and links aren't read", no_file]
    assert "root:" not in completed.stdout and completed.returncode == 1


def test_reports_have_documented_formats(tmp_path: pathlib.Path) -> None:
    """JUnit's XML has all answers, and Gradescope's JSON one; of hidden cases both show only that they fail."""
    answer_file = tmp_path / "=HYPERLINK(1)<&.s"
    answer_file.write_bytes(b"\0")
    shutil.copy(answer("wraps.s"), tmp_path / "wraps.s")
    words = ("saturating_sum", "--junit", "report.xml")
    completed = run_grade(*words, "--rows", "wraps.s", answer_file.name, folder=tmp_path)
    assert completed.stdout.splitlines()[1].startswith("'=HYPERLINK(1)<&.s,0,5,fails,")  # a text, and no formula
    suites = ElementTree.parse(tmp_path / "report.xml").getroot()
    assert [(suite.get("name"), suite.get("tests"), suite.get("failures")) for suite in suites] == [
        ("wraps.s", "5", "3"), (answer_file.name, "5", "5")
    ]  # fmt: skip
    cases = [(case.get("name"), [failure.get("message") for failure in case]) for case in suites[0]]
    wrong = "element 0, i16 at 0x20200: expected 32767, found -32768"
    assert cases[:2] == [("small numbers", []), ("no room", [wrong])] and cases[3:] == [
        ("many", ["fails"]),
        ("none", []),
    ]
    run_grade("saturating_sum", "--gradescope", "results.json", "wraps.s", folder=tmp_path)
    tests = json.loads((tmp_path / "results.json").read_text())["tests"]
    assert [(test["score"], test["max_score"], test["status"]) for test in (tests[0], tests[3])] == [
        (1, 1, "passed"), (0, 1, "failed")
    ]  # fmt: skip
    assert [test["visibility"] for test in tests] == ["visible"] * 3 + ["hidden"] * 2
    assert [test["output"] for test in tests if test["name"] != "forty"] == ["", wrong, "fails", ""]
    several = run_grade("saturating_sum", "--gradescope", "results.json", "wraps.s", answer_file.name, folder=tmp_path)
    assert several.stderr == "vecmon-lab: --gradescope is for one answer, and here are several\n"
    over = run_grade("saturating_sum", "--junit", "wraps.s", "wraps.s", folder=tmp_path)
    assert over.returncode == 2 and "would be overwritten" in over.stderr


CASE = "[[cases]]\nexpected.registers = { a0 = 1 }\n"
PLACE = "a text, or a list of numbers, by their type, i8 to u64"


def in_memory(place: str) -> str:
    """An exercise whose case has this place in memory."""
    return f"{CASE}memory = [{place}]\n"


@pytest.mark.parametrize(
    "text, message",
    [
        ("title = 5\n" + CASE, "title isn't a text"),
        ("tilte = '5'\n" + CASE, "there is nothing that is called tilte"),
        ("title = ", "Invalid value (at end of document)"),
        ("", "exercise.toml: there is no case: [[cases]] begins one"),
        ("limits.ticks = 0\n" + CASE, "exercise.toml: limits: each is from 1 up"),
        ("limits = 5\n" + CASE, "limits isn't a table"),
        ("hints = ['go on', 5]\n" + CASE, "exercise.toml: hints is a list of texts"),
        ("start = 'none.s'\n" + CASE, "exercise.toml:1: start: there is no file "),
        ("set_up = [5]\n" + CASE, "exercise.toml: set_up is a list of texts, which are lines of the monitor"),
        ("cases = [5]", "case 1 isn't a table"),
        (CASE + CASE.replace("]]\n", "]]\nname = 'case 1'\n"), "exercise.toml: two cases are called case 1"),
        ("[[cases]]", "case 1: nothing is expected: expected has registers, memory or output"),
        ("[[cases]]\npolicy = 'none'", "case 1: policy is keep or ones, and not none"),
        (CASE.replace("a0", "zero"), "case 1: zero is no register that can be set, which are ra to t6 or x1 to x31"),
        (CASE.replace("a0", "q5"), "case 1: q5 is no register that can be set, which are ra to t6 or x1 to x31"),
        (CASE.replace("1 }", "1.5 }"), "case 1: a0 is 1.5, which is no whole number of 64 bits"),
        (CASE.replace("1 }", f"{1 << 64} }}"), f"case 1: a0 is {1 << 64}, which is no whole number of 64 bits"),
        (in_memory("5"), "case 1: a place in memory is a table with `at`, its address, and not 5"),
        (in_memory("{ u8 = [1] }"), "case 1: a place in memory is a table with `at`, its address, and not {'u8': [1]}"),
        (in_memory("{ at = -4, u8 = [1] }"), "case 1: -4 is no address of a place in memory, which is below 2^48"),
        (in_memory("{ at = 4, i8 = [1, 128] }"), "case 1: the place at 0x4: 128 is no i8"),
        (in_memory("{ at = 4, u8 = ['a'] }"), "case 1: the place at 0x4: a is no u8"),
        (in_memory("{ at = 4, u8 = [] }"), "case 1: a place has 1 to 1,048,576 bytes, and the one at 0x4 0"),
        (in_memory("{ at = 4 }"), f"case 1: the place at 0x4 has {PLACE}, and not nothing"),
        (in_memory("{ at = 4, u8 = 1 }"), f"case 1: the place at 0x4 has {PLACE}, and not u8 = 1"),
        (in_memory("{ at = 4, u7 = [1] }"), f"case 1: the place at 0x4 has {PLACE}, and not u7 = [1]"),
        (
            in_memory("{ at = 4, u8 = [1], text = 'a' }"),
            f"case 1: the place at 0x4 has {PLACE}, and not u8 = [1], text",
        ),
        (
            CASE.replace("1 }", "1 }\nmemory = [{ at = 4096, u8 = [1] }]"),
            "case 1: poke 1000 01: E11: an address isn't mapped",
        ),
        (
            "set_up = ['map 0 1']\n" + CASE,
            "case 1: map 0 1: E04: PERM is missing; the form is map ADDR PAGES PERM",
        ),
        ("reference = 'none.s'\n" + CASE, "case 1: expected by the reference: registers isn't a list"),
        (
            "reference = 'none.s'\n" + CASE.replace("{ a0 = 1 }", "['a0']"),
            "exercise.toml:1: reference: there is no file ",
        ),
        (
            "reference = 'none.s'\n[[cases]]\nexpected.memory = [{ at = 4, u8 = [1] }]",
            "case 1: the place at 0x4 has how many numbers there are, by their type, i8 to u64, and not u8 = [1]",
        ),
    ],
)
def test_bad_exercise_is_refused(program: pathlib.Path, tmp_path: pathlib.Path, text: str, message: str) -> None:
    (tmp_path / "exercise.toml").write_text(text)
    with pytest.raises(LabError) as raised:
        settled(program, read_exercise(tmp_path))
    assert message in str(raised.value)
    assert str(raised.value).startswith((f"{tmp_path}", f"{tmp_path.name}, case 1"))


def test_bad_exercise_is_refused_in_one_line(tmp_path: pathlib.Path) -> None:
    (tmp_path / "exercise.toml").write_text("title =")
    completed = run_grade(tmp_path, answer("copy.s"))
    assert (completed.returncode, completed.stdout) == (2, "")
    assert completed.stderr == f"vecmon-lab: {tmp_path}/exercise.toml: Invalid value (at end of document)\n"


def test_unknown_exercise_is_refused(tmp_path: pathlib.Path) -> None:
    with pytest.raises(
        LabError, match="^exercise 'zzz' not found; name an exercise of the course, or a folder with ex"
    ):
        read_exercise(pathlib.Path("zzz"))
    with pytest.raises(LabError, match=f"^{tmp_path} is no exercise: there is no file {tmp_path}/exercise.toml$"):
        read_exercise(tmp_path)


@pytest.mark.parametrize("name, near", [("double", "doubles"), ("strip_mine_copy", "strip_mined_copy")])
def test_unknown_name_suggests_nearest(name: str, near: str) -> None:
    completed = run_grade(name, answer("copy.s"))
    assert (completed.returncode, completed.stdout) == (2, "")
    assert completed.stderr == f"vecmon-lab: exercise '{name}' not found; did you mean '{near}'?\n"


def test_course_and_folder_are_accepted(tmp_path: pathlib.Path, monkeypatch: pytest.MonkeyPatch) -> None:
    """A name of the course, or its folder, is there once; a folder of the same name elsewhere is another exercise."""
    folders = with_course([pathlib.Path("strlen"), OURS / "filter", tmp_path])
    assert len(folders) == 13 and folders[0] == OURS / "doubles" and folders[12] == tmp_path
    monkeypatch.chdir(tmp_path)
    (tmp_path / "strlen").mkdir()
    assert with_course([pathlib.Path("strlen")])[12:] == [pathlib.Path("strlen")]


def test_counts_report_instructions_and_work() -> None:
    """In three cases that aren't hidden one round of eleven instructions and a return; 5, 6 and 40 elements of 128."""
    answers = [answer("vectors.s"), answer("wraps.s")]
    table = run_grade("saturating_sum", "--counts", *answers).stdout.splitlines()
    assert table[1].split()[-2:] == ["instructions", "work"] and table[2].split()[-3:] == ["36", "13", "%"]
    assert table[3].endswith(" of 5")
    rows = list(csv.reader(run_grade("saturating_sum", "--counts", "--csv", *answers).stdout.splitlines()))
    assert [row[-3:-1] for row in rows] == [["reason", "instructions"], ["", "36"], [rows[2][-3], ""]]
    assert [row[-1] for row in rows] == ["work", "13 %", ""]
    assert run_grade("saturating_sum", answers[0]).stdout.splitlines()[1].endswith(" passed")
