"""Lines of LLVM for x86-64, and the same lines for other targets, worked by hand; and the reasons why a build is refused."""

import shlex
from pathlib import Path

import pytest

from tests.webassembly.tools import load

NATIVE = load("native_program")
STEPS = load("build_steps")
UNPROVED = load("unproved_build")
MODULE = [
    'source_filename = "rattle"\n',
    'target datalayout = "e-m:e-p270:32:32-p271:32:32-p272:64:64-i64:64-i128:128-f80:128-n8:16:32:64-S128"\n',
    'target triple = "x86_64-unknown-linux-gnu"\n',
    '@a = constant [17 x i8] c"target triple = x"\n',
    "  %a = load ptr, ptr %b, align 8\n",
    'attributes #0 = { nounwind "frame-pointer"="all" "probe-stack"="inline-asm" "target-cpu"="x86-64-v2" }\n',
    'attributes #1 = { "target-cpu"="x86-64-v2" "target-features"="+sse4.2" }\n',
]


def test_only_target_and_processor_change() -> None:
    assert list(NATIVE.retarget(MODULE, NATIVE.TARGETS["aarch64"])) == [
        MODULE[0],
        'target datalayout = "e-m:e-p270:32:32-p271:32:32-p272:64:64-i8:8:32-i16:16:32-i64:64-i128:128-n32:64-S128-Fn32"\n',
        'target triple = "aarch64-linux-gnu"\n',
        *MODULE[3:5],
        'attributes #0 = { nounwind "frame-pointer"="all" "probe-stack"="inline-asm" }\n',
        "attributes #1 = { nounwind }\n",
    ]


def test_windows_has_its_own_stack_probes() -> None:
    """LLVM would take "inline-asm" for the name of a function there."""
    lines = list(NATIVE.retarget(MODULE, NATIVE.TARGETS["windows"]))
    assert lines[5] == 'attributes #0 = { nounwind "frame-pointer"="all" }\n'


@pytest.mark.parametrize("line, name", [(1, "target datalayout"), (2, "target triple")])
def test_module_without_target_is_refused(line: int, name: str) -> None:
    lines = MODULE[:line] + MODULE[line + 1 :]
    with pytest.raises(NATIVE.Refusal, match=f"^the module has no {name}$"):
        list(NATIVE.retarget(lines, NATIVE.TARGETS["windows"]))


def test_module_of_temporary_file_has_no_name_of_it() -> None:
    """So the same sources give the same text, whose SHA-256 PROVENANCE records."""
    text = "".join(MODULE[:3])
    assert UNPROVED.without_checks(f"; ModuleID = '/tmp/tmp4f0x/made.bc'\n{text}", {}) == text


@pytest.mark.parametrize(
    "message, reason",
    [
        ("ld.lld: error: undefined symbol: unknown_call", "the module calls unknown_call, which a.c doesn't define"),
        (
            "a.o:rattle:(.text+0x1): undefined reference to `unknown_call'",
            "the module calls unknown_call, which a.c doesn't define",
        ),
        ("a.ll:3:1: error: expected type", "expected type"),
        ("no memory", "sh ends with status 1"),
    ],
)
def test_failed_step_is_one_line(message: str, reason: str) -> None:
    command = ["sh", "-c", f"echo {shlex.quote(message)} >&2; exit 1"]
    with pytest.raises(STEPS.Refusal, match=f"^program: {reason}$"):
        STEPS.run(command, "program", "a.c")


def test_missing_tool_names_its_packages(monkeypatch: pytest.MonkeyPatch, tmp_path: Path) -> None:
    monkeypatch.setenv("PATH", str(tmp_path))
    with pytest.raises(NATIVE.Refusal, match="^clang-19 not found: run tools/building/debian_packages aarch64$"):
        NATIVE.check_tools(NATIVE.TARGETS["aarch64"])
