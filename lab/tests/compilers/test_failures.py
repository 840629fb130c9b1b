"""Failures of the sandbox, of compilers and of their tools: each has its own sentence, and none is a fault of the source."""

import asyncio
import contextlib
import json
import os
import pathlib
import signal
import subprocess
import sys

import pytest

from support.commands import Lab
from support.places import EXAMPLES, TOP
from support.processes import descendants
from vecmon_lab.classes.server.builds import builds_by
from vecmon_lab.compilers import sandbox
from vecmon_lab.compilers.compiled import read_compiled_program
from vecmon_lab.compilers.compiler import Compiler
from vecmon_lab.compilers.compiling import compile_c
from vecmon_lab.compilers.failures import ToolError
from vecmon_lab.compilers.sandbox_main import COMPLAINT_BYTES, Failure, ending_of
from vecmon_lab.compilers.report import print_compilers
from vecmon_lab.compilers.sandbox import run_sandboxed, check_start

MAIN = "int main(void) { return 0; }\n"
WORDS = "bwrap: No permissions to create new namespace, likely because the kernel does not allow non-privileged user namespaces."
ENDLESS = "#if __INCLUDE_LEVEL__ < 100\n#include __FILE__\n#include __FILE__\n#endif\n"
GOOD = TOP / "lab" / "vecmon_lab" / "exercises" / "given" / "doubles" / "good.c"


@pytest.fixture
def no_namespaces(tmp_path: pathlib.Path, monkeypatch: pytest.MonkeyPatch, sandboxed_clang: Compiler) -> Compiler:
    """A compiler where bwrap fails as under a kernel without namespaces for users, and who runs this isn't root."""
    folder = tmp_path / "programs"
    folder.mkdir()
    (folder / "bwrap").write_text(f"#!/bin/sh\necho '{WORDS}' >&2\nexit 1\n")
    (folder / "bwrap").chmod(0o755)
    monkeypatch.setenv("PATH", f"{folder}:{os.environ['PATH']}")
    monkeypatch.setattr(os, "geteuid", lambda: 1000)
    return sandboxed_clang


@pytest.mark.parametrize("report", ["--csv", "--junit", "--gradescope"])
def test_grade_refuses_without_sandbox(no_namespaces: Compiler, lab: Lab, tmp_path: pathlib.Path, report: str) -> None:
    """`grade` ends with 2 and bwrap's own words, prints no mark and writes no report."""
    arguments: list[object] = [report] if report == "--csv" else [report, tmp_path / "report"]
    status, output, errors = lab("grade", "doubles", GOOD, *arguments)
    assert (status, output) == (2, b"") and not (tmp_path / "report").exists()
    assert errors.startswith(f"vecmon-lab: the sandbox of compilers doesn't start: {WORDS}")


def test_exercise_try_refuses_without_sandbox(no_namespaces: Compiler, lab: Lab, tmp_path: pathlib.Path) -> None:
    lab("exercise", "new", tmp_path / "mine")
    status, output, errors = lab("exercise", "try", tmp_path / "mine")
    assert (status, output) == (2, b"") and WORDS in errors


def test_explore_and_check_report_missing_sandbox(no_namespaces: Compiler, lab: Lab) -> None:
    """So does what a class is served with: before anything is compiled."""
    status, _, errors = lab("explore", EXAMPLES / "kernels" / "saxpy.c")
    assert status == 2 and errors.count(WORDS) == errors.count("\n") == 1
    status, output, _ = lab("check")
    assert (
        status == 0
        and f"class, explore and grade: not available: the sandbox of compilers doesn't start: {WORDS}"
        in output.decode()
    )


def test_class_reports_missing_sandbox(no_namespaces: Compiler, capsys: pytest.CaptureFixture[str]) -> None:
    builds = builds_by(None)
    assert builds.compiler is None and WORDS in builds.no_c and WORDS in capsys.readouterr().err
    with pytest.raises(ToolError, match="namespace"):
        builds_by(no_namespaces.name)


def test_sandbox_starts(sandboxed_clang: Compiler, capsys: pytest.CaptureFixture[str]) -> None:
    check_start(sandboxed_clang)
    print_compilers()
    output, more = capsys.readouterr().out, "" if os.geteuid() else " with --as nobody, which root needs"
    assert sandboxed_clang.name in output and output.endswith(f"grade: it starts{more}\n")


@pytest.mark.parametrize(
    "status, stderr, sentence",
    [
        (1, WORDS, f"the sandbox of compilers doesn't start: {WORDS}"),
        (137, "", "the compiler's process was ended by the signal SIGKILL"),
        (139, "", "the compiler's process was ended by the signal SIGSEGV"),
        (-9, "", "the compiler's process was ended by the signal SIGKILL"),
        (
            1,
            "Traceback\nOSError: [Errno 28] No space left",
            "the compiler's process ended with status 1: OSError: [Errno 28] No",
        ),
        (3, "", "the compiler's process ended with status 3: it printed no message"),
        (
            127,
            "python3: error while loading",
            "the compiler's process ended with status 127: python3: error while loading",
        ),
    ],
)
def test_sandbox_exit_is_explained(
    sandboxed_clang: Compiler, monkeypatch: pytest.MonkeyPatch, status: int, stderr: str, sentence: str
) -> None:
    """By its status and its standard error, which isn't thrown away."""
    command = ["/bin/sh", "-c", f'echo "$SAID" >&2; {"kill -9 $$" if status < 0 else f"exit {status}"}']
    with pytest.raises(ToolError) as raised:
        asyncio.run(sandbox.run_inside(command, MAIN, pathlib.Path("/"), {"SAID": stderr}))
    assert str(raised.value).startswith(sentence)


@pytest.mark.parametrize(
    "status, stderr, seconds, sentence",
    [
        (1, "", 9.9, "it took more than 10 s of processor time"),
        (-6, "LLVM ERROR: out of memory\nAllocation failed", 1, "it took more than 512 MB of memory"),
        (1, "cc1: out of memory allocating 65536 bytes", 1, "it took more than 512 MB of memory"),
        (-25, "", 1, "it wrote a file of more than 32 MB"),
        (1, "fatal error: error writing to a.s: No space left on device", 1, "it wrote a file of more than 32 MB"),
        (1, "x" * COMPLAINT_BYTES, 1, "it printed more than 64 KB of messages"),
        (-11, "", 1, "the compiler crashed (Segmentation fault)"),
        (
            1,
            "clang-19: error: unable to execute command: Segmentation fault",
            1,
            "the compiler crashed (Segmentation fault)",
        ),
        (1, "source.c:1:1: internal compiler error: in f", 1, "the compiler crashed (internal compiler error)"),
        (1, "source.c:1:1: error: expected expression", 1, ""),
    ],
)
def test_compiler_exit_is_explained(status: int, stderr: str, seconds: float, sentence: str) -> None:
    ending = ending_of(status, stderr, seconds)
    assert sentence in ending if sentence else not ending


def test_killed_compiler_does_not_blame_source() -> None:
    with pytest.raises(Failure, match="killed from outside"):
        ending_of(-signal.SIGKILL, "", 1.0)
    with pytest.raises(ToolError, match="killed from outside"):
        read_compiled_program(b'{"messages": [], "image": null, "failure": "it was killed from outside"}')


INSTEAD = """
import resource
from vecmon_lab.compilers import sandbox_main
sandbox_main.LIMITS[resource.RLIMIT_CPU] = (1, 2)
def instead(command, own):
    {code}
sandbox_main.compile_source = instead
sandbox_main.main()
"""


@pytest.mark.parametrize(
    "code, sentence",
    [
        ("while True: pass", "the image can't be read: that takes more than 10 s of processor time"),
        ("bytearray(1 << 30)", "the image can't be read: it took more than 512 MB of memory"),
        ("instead(command, own)", "the image can't be read: its debug data nests too deeply"),
    ],
)
def test_image_limit_is_explained(
    sandboxed_clang: Compiler, monkeypatch: pytest.MonkeyPatch, code: str, sentence: str
) -> None:
    """Of time, of memory and of depth, as where debug data is crafted."""
    monkeypatch.setattr(sandbox, "MODULE", ("-c", INSTEAD.format(code=code)))
    assert json.loads(run_sandboxed([sandboxed_clang.name, "0"], MAIN)) == {
        "messages": [[0, 0, True, sentence]], "image": None
    }  # fmt: skip


def test_endless_compile_is_explained(sandboxed_clang: Compiler, monkeypatch: pytest.MonkeyPatch) -> None:
    """With a limit of a second of processor time, which a signal to the compiler ends."""
    limit = "sandbox_main.CPU_SECONDS, sandbox_main.LIMITS[sandbox_main.resource.RLIMIT_CPU] = 1, (1, 2)"
    monkeypatch.setattr(
        sandbox, "MODULE", ("-c", f"from vecmon_lab.compilers import sandbox_main\n{limit}\nsandbox_main.main()")
    )
    reply = json.loads(run_sandboxed([sandboxed_clang.name, "0"], ENDLESS))
    assert reply["messages"][0] == [0, 0, True, "the compiler was stopped: it took more than 1 s of processor time"]


def test_compiler_crash_is_explained(sandboxed_clang: Compiler) -> None:
    """And what the compiler prints about itself isn't repeated."""
    text = f"#pragma clang __debug crash\n{MAIN}"
    [[line, _, is_error, message]] = json.loads(run_sandboxed([sandboxed_clang.name, "0"], text))["messages"]
    assert (line, is_error) == (0, True) and message.startswith("the compiler crashed (")


def test_killed_sandbox_is_reported(sandboxed_clang: Compiler) -> None:
    """By something else: that isn't the source's fault, as a limit of memory is."""

    async def kill() -> bytes:
        made = asyncio.create_task(sandbox.run_in_sandbox_async([sandboxed_clang.name, "0"], ENDLESS))
        while not _descendants("clang"):  # since then the process in the sandbox ends with bwrap
            await asyncio.sleep(0.02)
        os.kill(_descendants("bwrap")[0], signal.SIGKILL)
        return await made

    with pytest.raises(ToolError, match="ended by the signal SIGKILL"):
        asyncio.run(kill())


def test_busy_computer_does_not_blame_source(sandboxed_clang: Compiler, monkeypatch: pytest.MonkeyPatch) -> None:
    monkeypatch.setattr(sandbox, "SECONDS", 0.01)
    with pytest.raises(ToolError, match="took more than 0.01 s by the clock"):
        compile_c(MAIN, sandboxed_clang, 0)


def test_missing_package_is_explained(clang: Compiler, tmp_path: pathlib.Path) -> None:
    """`profile x.c` without pyelftools names the package."""
    (tmp_path / "x.c").write_text(MAIN)
    code = "import sys; sys.modules['elftools'] = None; import vecmon_lab.__main__ as lab; sys.exit(lab.main())"
    completed = subprocess.run(
        [sys.executable, "-c", code, "profile", str(tmp_path / "x.c")], capture_output=True, text=True
    )
    assert (
        completed.returncode == 2
        and "pyelftools isn't installed: sudo apt install python3-pyelftools" in completed.stderr
    )


def _descendants(name: str) -> list[int]:
    """The processes below this one whose names start so; those that this one has started come first."""
    found = list[int]()
    for each in descendants(os.getpid()):
        with contextlib.suppress(OSError):  # it has ended
            if pathlib.Path(f"/proc/{each.number}/comm").read_text().startswith(name):
                found.append(each.number)
    return found
