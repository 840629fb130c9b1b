"""Fixtures that tests share: the program, a session, a browser, and an emulator."""

import importlib.util
import pathlib
import shutil
import signal
import subprocess
from collections.abc import Iterator
from typing import TYPE_CHECKING

import pytest
from _pytest.terminal import TerminalReporter
from hypothesis import HealthCheck, settings

from support.browser import WINDOWS, browser_with
from support.busy_host import raise_limits
from support.commands import Lab
from support.skips import (
    NO_BINUTILS,
    NO_BROWSER,
    NO_CLANG,
    NO_GDB,
    NO_LLDB,
    NO_LLVM,
    NO_NODE,
    NO_QEMU,
    NO_SANDBOX,
    NO_SITE,
    NO_TOOL,
    leave_out,
)
from vecmon_lab.compilers.compiler import Compiler, find_compilers
from vecmon_lab.compilers.failures import ToolError
from vecmon_lab.compilers.sandbox import check_start
from vecmon_lab.machine.program import find_program
from vecmon_lab.machine.session import Session

if TYPE_CHECKING:
    from selenium.webdriver import Chrome

LEFT_OUT = {
    "in a browser": NO_BROWSER,
    "with gdb": NO_GDB,
    "with LLDB": NO_LLDB,
    "on QEMU": NO_QEMU,
    "of sources in C": NO_CLANG,
    "in a sandbox": NO_SANDBOX,
    "with an assembler": NO_BINUTILS,
    "under node": NO_NODE,
    "of the playground": NO_SITE,
    "with LLVM's assembler": NO_LLVM,
    "of documented commands": NO_TOOL,
}

raise_limits()
settings.register_profile("busy host", deadline=None, suppress_health_check=[HealthCheck.too_slow])
settings.load_profile("busy host")
signal.signal(signal.SIGINT, signal.default_int_handler)  # which a job in the background ignores, with what it starts


@pytest.fixture(scope="session")
def program() -> pathlib.Path:
    """The program vecmon."""
    return find_program()


@pytest.fixture
def session(program: pathlib.Path) -> Iterator[Session]:
    """A session on a new machine without images."""
    with Session(program) as session:
        yield session


@pytest.fixture
def lab(monkeypatch: pytest.MonkeyPatch, capfdbinary: pytest.CaptureFixture[bytes], program: pathlib.Path) -> Lab:
    """Run commands of the lab."""
    return Lab(monkeypatch, capfdbinary)


@pytest.fixture(scope="session")
def browser() -> Iterator["Chrome"]:
    """A browser without a window, for all tests that want one; its console is in `get_log("browser")`.

    It is Chromium's headless shell, which takes less of the processor's time, or Chromium if that isn't installed. If there is
    neither, a test that wants it is left out and counted; if CI is set, it fails.
    """
    commands = [each for each in WINDOWS if shutil.which(each)]
    if not commands or not shutil.which("chromedriver") or not importlib.util.find_spec("selenium"):
        leave_out(NO_BROWSER)
    with browser_with(command=commands[0]) as chrome:
        yield chrome


@pytest.fixture(scope="session")
def qemu() -> None:
    """QEMU's user mode; as with the browser, a test that wants it is left out and counted where there is none."""
    command = shutil.which("qemu-riscv64")
    output = subprocess.run([command, "--version"], stdout=subprocess.PIPE, check=True).stdout if command else b""
    if b" version 7.2." not in output:
        leave_out(NO_QEMU)


@pytest.fixture(scope="session")
def clang() -> Compiler:
    """The newest clang; as with the browser, a test that wants it is left out and counted where there is none."""
    found = [compiler for compiler in find_compilers() if compiler.is_clang]
    if not found:
        leave_out(NO_CLANG)
    return found[0]


@pytest.fixture(scope="session")
def sandboxed_clang(clang: Compiler) -> Compiler:
    """The same with what makes the sandbox, where both are."""
    if shutil.which("bwrap") is None:
        leave_out(NO_SANDBOX)
    try:
        check_start(clang)
    except ToolError as error:
        leave_out(f"{NO_SANDBOX} that starts: {error}")
    return clang


def pytest_terminal_summary(terminalreporter: TerminalReporter) -> None:
    """Print how many tests were left out, for each missing tool."""
    for what, reason in LEFT_OUT.items():
        left_out = sum(reason in str(report.longrepr) for report in terminalreporter.getreports("skipped"))
        if left_out:
            terminalreporter.write_line(f"{left_out} tests {what} were left out: {reason}")
