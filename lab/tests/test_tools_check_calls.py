"""`tools/checks/check_calls` finds memory that is allocated after `Machine::new`, recursion, and calls that it couldn't follow."""

import subprocess
import sys
from pathlib import Path

import pytest

TOOL = Path(__file__).resolve().parents[2] / "tools/checks/check_calls"

# A module with two lines of a script: one that answers by a helper, and one that the operator gives. `opened` allocates before them.
MODULE = """\
; ModuleID = 'module.bc'
@"text" = internal constant [3 x i8] c"ok\\0A"

define internal void @"vecmon::opened::<#1>"(ptr %r0) {
  %r1 = call ptr @rattle_alloc(i64 8, i64 16)
  ret void
}

define internal void @"monitor_machine::machine::Machine::answer::<#2>"(ptr %r0) {
  call void @"line_text::helper"(ptr %r0, ptr @"text")
  ret void
}

define internal void @"monitor_machine::machine::Machine::operator::<#2>"(ptr %r0) {
  ret void
}

define internal fastcc noundef i64 @"line_text::helper"(ptr %r0, ptr %r1) {
  %r2 = tail call i64 @llvm.ctpop.i64(i64 1)
  ret i64 %r2
}

define i32 @main() {
  call void @"vecmon::opened::<#1>"(ptr null)
  call void @"monitor_machine::machine::Machine::answer::<#2>"(ptr null)
  ret i32 0
}

declare ptr @rattle_alloc(i64, i64)
declare i64 @llvm.ctpop.i64(i64)
"""
HELPER = "  %r2 = tail call i64 @llvm.ctpop.i64(i64 1)\n"


def checked(folder: Path, module: str) -> tuple[int, str]:
    """The status and the output of the tool for a module."""
    file = folder / "module.ll"
    file.write_text(module, encoding="utf-8")
    done = subprocess.run([sys.executable, TOOL, file], capture_output=True, text=True)
    return done.returncode, (done.stdout + done.stderr).replace(str(file), "MODULE")


def test_module_that_allocates_before_is_accepted(tmp_path: Path) -> None:
    assert checked(tmp_path, MODULE) == (
        0,
        "MODULE: 7 functions, and 4 that can run after Machine::new, without allocating memory\n",
    )


@pytest.mark.parametrize(
    ("old", "new", "message"),
    [
        (
            HELPER,
            f"{HELPER}  %r3 = call ptr @rattle_alloc(i64 8, i64 16)\n",
            "memory can be allocated after Machine::new: monitor_machine::machine::Machine::answer > line_text::helper > rattle_alloc",
        ),
        (
            HELPER,
            f'{HELPER}  call void @"vecmon::opened::<#1>"(ptr %r0)\n',
            "memory can be allocated after Machine::new: "
            "monitor_machine::machine::Machine::answer > line_text::helper > vecmon::opened > rattle_alloc",
        ),
        (
            HELPER,
            f'{HELPER}  call void @"monitor_machine::machine::Machine::answer::<#2>"(ptr %r0)\n',
            "a function calls itself: ",
        ),
        (HELPER, f"{HELPER}  call void %r1(i64 1)\n", "a call of no name: call void %r1(i64 1)"),
        (
            HELPER,
            f'{HELPER}  store ptr @"vecmon::opened::<#1>", ptr %r0\n',
            'the address of "vecmon::opened::<#1>" is taken',
        ),
        (
            'constant [3 x i8] c"ok\\0A"',
            'constant ptr @"vecmon::opened::<#1>"',
            'the address of "vecmon::opened::<#1>" is taken',
        ),
        ("Machine::", "Mashine::", "it has none of monitor_machine::machine::Machine::answer, "),
    ],
    ids=[
        "allocates",
        "allocates by another",
        "recursion",
        "indirect call",
        "address stored",
        "address in a global",
        "no root",
    ],
)
def test_planted_call_is_found(tmp_path: Path, old: str, new: str, message: str) -> None:
    assert old in MODULE
    status, output = checked(tmp_path, MODULE.replace(old, new))
    assert (status, output.split("\n")[0][: len(message) + 8]) == (1, f"MODULE: {message}")


def test_file_that_is_missing_is_refused(tmp_path: Path) -> None:
    done = subprocess.run([sys.executable, TOOL, tmp_path / "none"], capture_output=True, text=True)
    assert done.returncode == 2
    assert done.stderr.count("\n") == 1
