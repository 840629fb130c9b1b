"""The console, with lines from a pipe."""

import subprocess
import sys

from .places import TOP

CONSOLE = [sys.executable, "-m", "vecmon_lab", "console"]


def run_console(lines: list[str] | bytes, *arguments: object) -> subprocess.CompletedProcess[bytes]:
    """A console that reads these lines from a pipe."""
    given = lines if isinstance(lines, bytes) else "".join(f"{line}\n" for line in lines).encode()
    return subprocess.run([*CONSOLE, *map(str, arguments)], cwd=TOP, input=given, capture_output=True)


def shown(lines: list[str] | bytes, *arguments: object) -> list[str]:
    """The output of the console, after a run without errors."""
    run = run_console(lines, *arguments)
    assert (run.returncode, run.stderr) == (0, b"")
    return run.stdout.decode("ascii").splitlines()
