"""A sandbox around a compiler: no network, no files except those of `sandbox_files`, and limits of memory, time and output.

A source can make a compiler read files (`#include`, `.incbin`), use all memory, and print without end. If root starts the lab, the sandbox
runs as the user of an `Account`, so that it has none of root's rights even outside.
"""

import asyncio
import contextlib
import os
import pathlib
import shutil
import signal
import subprocess
import sys
import tempfile
from asyncio.subprocess import DEVNULL, PIPE
from collections.abc import Mapping, Sequence

from .. import LabError
from ..places import tools_advice
from .account import OWN, Account
from .compiler import Compiler, find_compiler
from .failures import ToolError
from .sandbox_files import IS_ROOT, LAB, PLACE, TRUE, elftools, readable_lab, sandbox_files

SECONDS, OUTPUT_BYTES, FOLDER_BYTES = (
    20,
    4 << 20,
    64 << 20,
)  # the time limit; bytes of output; bytes of all files in /tmp
COMPLAINT_BYTES = 4096  # the last bytes of standard error
PROCESSES = 32  # processes and threads
REMEDIES = "CLASS_ADMIN.md, `Where the sandbox doesn't start`, says what helps"
MODULE = ("-m", "vecmon_lab.compilers.sandbox_main")

_SPACES = ("--unshare-ipc", "--unshare-pid", "--unshare-net", "--unshare-uts", "--unshare-cgroup-try")
_EMPTY = (*_SPACES, "--die-with-parent", "--new-session", "--clearenv")
_TEMPORARY = ("--perms", "1777", "--size", f"{FOLDER_BYTES}", "--tmpfs", "/tmp", "--chdir", "/tmp")
_FOLDER = ("--perms", "755", "--dir", "/dev", "--dev-bind", "/dev/null", "/dev/null", *_TEMPORARY, "--remount-ro", "/")
_VARIABLES = ("--setenv", "PATH", "/usr/bin", "--setenv", "PYTHONPATH", PLACE, "--setenv", "LC_ALL", "C.UTF-8")
_PYTHON = ("/usr/bin/prlimit", f"--nproc={PROCESSES}", "/usr/bin/python3", "-B")
_NOBODY = ("/usr/bin/setpriv", "--reuid=65534", "--regid=65534", "--clear-groups", "/usr/bin/unshare", "--user")
_INSIDE = ("--unshare-user-try", "--", *_PYTHON)
# Root changes its user inside, since the limit of processes doesn't count root's.
_INSIDE_AS_ROOT = ("--", *_NOBODY, *_PYTHON)


class StartedAsRoot(LabError):
    """Sources of others can't be compiled, since root has started the lab without the option `--as USER`."""


def check_sandbox(account: Account = OWN) -> None:
    """Raise LabError if no sandbox can be made. Raise StartedAsRoot if it would run as root."""
    if shutil.which("bwrap") is None:
        remedy = tools_advice("bubblewrap")
        raise LabError(f"others' C is compiled only in the sandbox of bwrap, which isn't installed: {remedy}")
    if account == OWN and os.geteuid() == 0:
        raise StartedAsRoot("others' C isn't compiled as root: add `--as nobody`, or start this as another user")


def check_start(compiler: Compiler, account: Account = OWN) -> None:
    """Start the sandbox of a compiler once. Raises ToolError with bwrap's message if that fails."""
    command = [*_sandbox(compiler, account), "--", TRUE]
    try:
        completed = subprocess.run(
            command,
            stdin=DEVNULL,
            capture_output=True,
            timeout=SECONDS,
            cwd="/",
            env=_environment(),
            user=account.user,
            group=account.group,
            extra_groups=account.groups,
        )
    except (OSError, subprocess.SubprocessError) as error:
        raise ToolError(f"the sandbox of compilers doesn't start: {error}") from error
    if completed.returncode:
        raise _failure(completed.returncode, completed.stderr)


def sandboxed_compiler(name: str | None, account: Account = OWN) -> Compiler:
    """Return the compiler for sources of others: the one of this name, or the first one if there is no name.

    Raises LabError if its sandbox doesn't start.
    """
    compiler = find_compiler(name)
    check_sandbox(account)
    check_start(compiler, account)
    return compiler


def run_sandboxed(words: Sequence[str], text: str, account: Account = OWN) -> bytes:
    """Run `sandbox_main` in the sandbox for a source of others; return its output. Raises LabError and ToolError.

    words: the arguments of `sandbox_main`; text: the source; account: the user who runs the sandbox
    """
    return asyncio.run(run_in_sandbox_async(words, text, account))


async def run_in_sandbox_async(words: Sequence[str], text: str, account: Account = OWN) -> bytes:
    """Do the same as `run_sandboxed`, without blocking the event loop."""
    files = await asyncio.to_thread(_sandbox, Compiler(words[0]), account)
    inside = _INSIDE_AS_ROOT if _is_of_root(account) else _INSIDE
    return await run_inside([*files, *inside, *MODULE, *words], text, pathlib.Path("/"), _environment(), account)


def run_unsandboxed(words: Sequence[str], text: str, headers: pathlib.Path, saved: pathlib.Path | None = None) -> bytes:
    """Run `sandbox_main` without a sandbox for your own source; return its output. Raises LabError and ToolError.

    words: the arguments of `sandbox_main`; text: the source; headers: a folder from which the source may include files
    saved: the folder in which the source and its image remain; None to delete them
    """
    elftools()
    variables = os.environ | {"PYTHONPATH": f"{LAB}", "CPATH": f"{headers.absolute()}", "LC_ALL": "C.UTF-8"}
    with tempfile.TemporaryDirectory() as folder:
        return asyncio.run(
            run_inside([sys.executable, "-PB", *MODULE, *words], text, saved or pathlib.Path(folder), variables)
        )


def _is_of_root(account: Account) -> bool:
    """Return whether root runs the processes of the sandbox before they change their user."""
    return account == OWN and IS_ROOT


def _sandbox(compiler: Compiler, account: Account) -> list[str]:
    """Return the command that starts a compiler's sandbox, up to the program that it runs. Raises ToolError."""
    lab = LAB if account == OWN else readable_lab()
    return ["bwrap", *_EMPTY, *sandbox_files(compiler, lab, _is_of_root(account)), *_FOLDER, *_VARIABLES]


def _environment() -> dict[str, str]:
    """Return the environment of bwrap itself."""
    return {"PATH": os.environ.get("PATH", os.defpath), "LC_ALL": "C.UTF-8"}


async def run_inside(
    command: Sequence[str], text: str, folder: pathlib.Path, variables: Mapping[str, str], account: Account = OWN
) -> bytes:
    """Run a command that starts `sandbox_main` for a source; return its output.

    text: the source; folder: the folder in which the command runs; variables: the environment variables of the command
    account: the user who runs the command

    Raises LabError if the output is too large, and ToolError if the command fails.
    """
    try:
        child = await asyncio.create_subprocess_exec(
            *command,
            stdin=PIPE,
            stdout=PIPE,
            stderr=PIPE,
            cwd=folder,
            env=variables,
            start_new_session=True,
            user=account.user,
            group=account.group,
            extra_groups=account.groups,
        )
    except OSError as error:
        raise ToolError(f"{command[0]} can't be started: {error.strerror}") from error
    assert child.stderr
    errors = asyncio.create_task(_last_bytes(child.stderr))
    try:
        async with asyncio.timeout(SECONDS):
            output = await _output(child, text.encode("utf-8", "surrogateescape"))
            status = await child.wait()
            stderr = await errors
    except asyncio.TimeoutError as error:
        raise ToolError(f"the compiler was stopped: it took more than {SECONDS} s by the clock") from error
    finally:
        errors.cancel()
        with contextlib.suppress(ProcessLookupError):
            os.killpg(child.pid, signal.SIGKILL)
        await child.wait()
    if status:
        raise _failure(status, stderr)
    return output


async def _output(child: asyncio.subprocess.Process, text: bytes) -> bytes:
    """Write a text to a process; return its output. Raises LabError if the output is too large."""
    assert child.stdin and child.stdout
    with contextlib.suppress(ConnectionError):  # the process may end before it has read all of the text
        child.stdin.write(text)
        await child.stdin.drain()
    child.stdin.close()
    try:
        await child.stdout.readexactly(OUTPUT_BYTES + 1)
    except asyncio.IncompleteReadError as end:
        return end.partial
    raise LabError(f"the compiler was stopped: its image and debug data have more than {OUTPUT_BYTES:,} bytes")


async def _last_bytes(stream: asyncio.StreamReader) -> bytes:
    """Read a stream to its end; return its last bytes."""
    last = b""
    while data := await stream.read(1 << 16):
        last = (last + data)[-COMPLAINT_BYTES:]
    return last


def _failure(status: int, stderr: bytes) -> ToolError:
    """Return the error of the sandbox, or of the process in it, from its status and the last bytes of standard error."""
    lines = stderr.decode("utf-8", "replace").strip().splitlines()
    last = lines[-1] if lines else "it printed no message"
    if any(line.startswith("bwrap: ") for line in lines):
        return ToolError(f"the sandbox of compilers doesn't start: {last} ({REMEDIES})")
    number = -status if status < 0 else status - 128  # bwrap's status shows the signal that ended the process in it
    if number in {*signal.Signals}:
        return ToolError(f"the compiler's process was ended by the signal {signal.Signals(number).name}")
    return ToolError(f"the compiler's process ended with status {status}: {last}")
