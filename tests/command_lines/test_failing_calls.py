"""A call of the C library fails once, and would succeed if it were made again. The programs don't make it again: they report the failure.

Reads and writes fail as if a signal interrupted them. The others have an input or output error, since Rattle's standard library, as Rust's, makes
an interrupted `open` or `ftruncate` again.
"""

import itertools
import os
import pathlib
import shutil
import subprocess
from collections.abc import Iterator, Sequence

import pytest

from tests.program import TOP, built
from tests.recordings.recorder import built_recorder

IMAGE = TOP / "tests/command_lines/data/images/sum"
OLD = b"old bytes, longer than a line of a record\n"
RECORDS = ("counts", "changes", "log")
FAILING = r"""
#define _GNU_SOURCE
#include <dlfcn.h>
#include <errno.h>
#include <fcntl.h>
#include <stdarg.h>
#include <stdlib.h>
#include <string.h>
#include <unistd.h>

/* Whether this call, counted from 1 among those of its name, is the one that fails. If so, a file shows that it was reached. */
static int is_failing(const char *name) {
    static long calls;
    if (strcmp(name, getenv("CALL")) || ++calls != atol(getenv("FAILING"))) return 0;
    close(creat(getenv("REACHED"), 0600));
    errno = strcmp(name, "read") && strcmp(name, "write") ? EIO : EINTR;
    return 1;
}

int open(const char *path, int flags, ...) {
    int (*next)(const char *, int, ...) = dlsym(RTLD_NEXT, "open");
    va_list more;
    va_start(more, flags);
    mode_t mode = flags & O_CREAT ? va_arg(more, mode_t) : 0;
    va_end(more);
    return is_failing("open") ? -1 : next(path, flags, mode);
}

ssize_t read(int fd, void *bytes, size_t count) {
    ssize_t (*next)(int, void *, size_t) = dlsym(RTLD_NEXT, "read");
    return is_failing("read") ? -1 : next(fd, bytes, count);
}

/* Messages on standard error aren't counted. */
ssize_t write(int fd, const void *bytes, size_t count) {
    ssize_t (*next)(int, const void *, size_t) = dlsym(RTLD_NEXT, "write");
    return fd != 2 && is_failing("write") ? -1 : next(fd, bytes, count);
}

int ftruncate(int fd, off_t length) {
    int (*next)(int, off_t) = dlsym(RTLD_NEXT, "ftruncate");
    return is_failing("ftruncate") ? -1 : next(fd, length);
}
"""

pytestmark = pytest.mark.skipif(shutil.which("cc") is None, reason="there is no C compiler")


@pytest.fixture(scope="module", name="room")
def folder_of_the_library(tmp_path_factory: pytest.TempPathFactory) -> pathlib.Path:
    """A folder with the library that is loaded before the C library."""
    room = tmp_path_factory.mktemp("failing")
    (room / "failing.c").write_text(FAILING)
    subprocess.run(["cc", "-shared", "-fPIC", "-o", "failing.so", "failing.c", "-ldl"], cwd=room, check=True)
    return room


@pytest.mark.parametrize("call, statuses", [("open", {3, 4}), ("read", {3, 4}), ("write", {5})])
def test_failing_calls_of_the_monitor(
    room: pathlib.Path, tmp_path: pathlib.Path, call: str, statuses: set[int]
) -> None:
    """An image that can't be read has status 4, a script 3, and output that can't be written 5. Answers up to there are written."""
    (tmp_path / "script").write_text("1 enter\n1 load sum\n1 run\n* slices 9\n1 out\n")
    runs = list(runs_with_failures(room, tmp_path, call, [built(), "script", f"sum={IMAGE}"]))
    whole, failed = runs[0], runs[1:]
    assert whole.returncode == 0 and whole.stdout
    assert {it.returncode for it in failed} == statuses
    assert all(whole.stdout.startswith(it.stdout) and it.stderr.startswith(b"vecmon: cannot ") for it in failed)


def test_failing_reads_of_standard_input(room: pathlib.Path, tmp_path: pathlib.Path) -> None:
    """The first read gives the whole script, and the second one its end."""
    _, first, second = runs_with_failures(room, tmp_path, "read", [built()], b"1 enter\n")
    assert [(it.returncode, it.stdout) for it in (first, second)] == [(3, b""), (3, b"1 entered\n")]


@pytest.mark.parametrize("call, statuses", [("open", {4, 5}), ("read", {4}), ("write", {5}), ("ftruncate", {5})])
def test_failing_calls_of_the_recorder(
    room: pathlib.Path, tmp_path: pathlib.Path, call: str, statuses: set[int]
) -> None:
    """An input that can't be read has status 4, and a file that can't be opened, emptied or written 5. Before the first write all keep their
    bytes, inputs keep them always, and there are no other files."""
    inputs = {"bytes": bytes(8), "registers": b"x1 1\n", "image": IMAGE.read_bytes()}
    for name, data in inputs.items():
        (tmp_path / name).write_bytes(data)
    arguments = ["--memory", "100000:rw:bytes", "--registers", "registers", "--watch", "100000:8", "--to", "5"]
    outputs = [f"--{name}={name}" for name in RECORDS]
    runs = runs_with_failures(room, tmp_path, call, [built_recorder(), *arguments, *outputs, "image"])
    assert next(runs).returncode == 0
    found = set()
    for it in runs:
        found.add(it.returncode)
        assert it.stderr
        assert {path.name: path.read_bytes() for path in tmp_path.iterdir() if path.name not in RECORDS} == inputs
        if call in ("open", "read"):
            assert it.stdout == b"" and all((tmp_path / name).read_bytes() == OLD for name in RECORDS)
    assert found == statuses


def runs_with_failures(
    room: pathlib.Path, folder: pathlib.Path, call: str, command: Sequence[str | pathlib.Path], given: bytes = b""
) -> Iterator[subprocess.CompletedProcess[bytes]]:
    """Run a command in a folder with records that exist: first without a failure, then with the first call of a name failing, then with the
    second, and so on up to the last call."""
    reached = room / "reached"
    for number in itertools.count(0):
        for name in RECORDS:
            (folder / name).write_bytes(OLD)
        reached.unlink(missing_ok=True)
        preloaded = {
            "LD_PRELOAD": f"{room}/failing.so",
            "CALL": call,
            "FAILING": str(number),
            "REACHED": str(reached),
        }
        completed = subprocess.run(
            command, cwd=folder, input=given, env={**os.environ, **preloaded}, capture_output=True, check=False
        )
        if number and not reached.exists():
            return
        yield completed
