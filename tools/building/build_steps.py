"""Steps of a build: each runs another program, and the build is refused with one line if that fails."""

import os
import re
import shutil
import signal
import subprocess
from collections.abc import Callable, Sequence
from pathlib import Path

PROCESSOR_SECONDS = 120  # of a step with a limit


class Refusal(Exception):
    """The reason why nothing is built: one line."""


def find_tool(name: str, kind: str) -> str:
    """Return the path of a program of a Debian package. Raises Refusal, which names the kind of tools/building/debian_packages that has
    it."""
    path = shutil.which(name)
    if not path:
        raise Refusal(f"{name} not found: run tools/building/debian_packages {kind}")
    return path


def run(
    command: Sequence[str | Path],
    step: str,
    missing: str = "",
    cwd: Path | None = None,
    preexec_fn: Callable[[], object] | None = None,
) -> str:
    """Run a command, and return its output and messages. Raises Refusal with its first error if it fails.

    step: the name of the built file, with which messages start; missing: the file that has to define the functions that the module calls
    """
    completed = subprocess.run(
        command,
        stdin=subprocess.DEVNULL,
        capture_output=True,
        text=True,
        errors="replace",
        cwd=cwd,
        preexec_fn=preexec_fn,
    )
    if completed.returncode == 0:
        return completed.stdout + completed.stderr
    name = os.path.basename(command[0])
    if completed.returncode in (-signal.SIGXCPU, -signal.SIGKILL):
        raise Refusal(f"{step}: {name} was killed: it took {PROCESSOR_SECONDS} s of processor, or all memory")
    undefined = re.search(r"undefined (?:symbol: |reference to `)([^\s']+)", completed.stderr)
    if undefined:
        raise Refusal(f"{step}: the module calls {undefined[1]}, which {missing} doesn't define")
    error = re.search(r"(?:error|Fatal): (.*)", completed.stderr)
    raise Refusal(f"{step}: {error[1] if error else f'{name} ends with status {completed.returncode}'}")
