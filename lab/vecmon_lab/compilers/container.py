"""Compile sources of others without a sandbox: root of a container compiles them as the user nobody.

The container is deleted after one answer to an exercise. By default, Docker's containers can't make a sandbox. The compiler can read all
files of the container that every user can read. So files of exercises must be readable only by root.
"""

import asyncio
import os
import pathlib
import subprocess
import tempfile
from collections.abc import Sequence
from subprocess import DEVNULL

from .. import LabError
from .failures import ToolError
from .sandbox import MODULE, PROCESSES, SECONDS, run_inside
from .sandbox_files import copy_lab

NOBODY = 65534  # Debian's user and group with the fewest rights
_AS_NOBODY = ("/usr/bin/setpriv", f"--reuid={NOBODY}", f"--regid={NOBODY}", "--clear-groups", "--no-new-privs")
_LIMITED = ("/usr/bin/prlimit", f"--nproc={PROCESSES}", "/usr/bin/python3", "-B")


def check_container(*private: pathlib.Path) -> None:
    """Raise LabError if root doesn't run this process, or if the user nobody can read one of these files, or a file in these folders.

    Raises ToolError if the check itself fails.
    """
    if os.geteuid():
        raise LabError("--no-sandbox is for root of a container: the compiler then runs as the user nobody")
    paths = [str(path.resolve()) for path in private]
    command = [*_AS_NOBODY, "/usr/bin/find", "-L", *paths, "-type", "f", "-readable", "-print", "-quit"]
    try:
        completed = subprocess.run(command, stdin=DEVNULL, capture_output=True, cwd="/", timeout=SECONDS)
    except (OSError, subprocess.TimeoutExpired) as error:
        raise ToolError(f"{command[0]} can't be run: {error}") from error
    if completed.stderr.startswith(b"setpriv: "):
        raise ToolError(completed.stderr.decode("utf-8", "replace").strip())
    if found := completed.stdout.decode("utf-8", "replace").strip():
        place = next((path for path in private if pathlib.Path(found).is_relative_to(path.resolve())), found)
        raise LabError(f"without a sandbox a source in C could include {found}: chmod -R go= {place}")


def run_as_nobody(words: Sequence[str], text: str) -> bytes:
    """Run `sandbox_main` as the user nobody; return its output. Raises LabError and ToolError.

    words: the arguments of `sandbox_main`; text: the source
    """
    with tempfile.TemporaryDirectory() as place:
        lab, folder = pathlib.Path(place, "lab"), pathlib.Path(place, "folder")
        os.chmod(place, 0o755)
        copy_lab(lab)  # only root may be able to read the lab's own folder
        folder.mkdir()
        os.chown(folder, NOBODY, NOBODY)
        variables = {"PATH": "/usr/bin", "PYTHONPATH": str(lab), "LC_ALL": "C.UTF-8", "TMPDIR": str(folder)}
        return asyncio.run(run_inside([*_AS_NOBODY, *_LIMITED, *MODULE, *words], text, folder, variables))
