"""Each allocation of a run is refused in turn: the recorder ends with status 6, runs nothing, and doesn't touch a file."""

import itertools
import os
import pathlib
import shutil
import subprocess

import pytest

from tests.program import TOP
from tests.recordings.recorder import built_recorder

IMAGE = TOP / "tests/command_lines/data/images/sum"
OLD = {"counts": b"old counts\n", "changes": b"old changes\n"}  # the log is a new file
OUTPUTS = [f"--{name}={name}" for name in (*OLD, "log")]
RUN = [
    "--memory",
    "100000:rw:bytes",
    "--registers",
    "registers",
    "--watch",
    "100000:8",
    "--to",
    "5",
    *OUTPUTS,
    str(IMAGE),
]
REFUSING = r"""
#define _GNU_SOURCE
#include <dlfcn.h>
#include <fcntl.h>
#include <stdlib.h>
#include <unistd.h>

/* Whether this call, counted from 1, is the refused one. If so, a file shows that it was reached. */
static int is_refused(void) {
    static long calls;
    if (++calls != atol(getenv("REFUSED"))) return 0;
    close(open(getenv("REACHED"), O_CREAT | O_WRONLY, 0600));
    return 1;
}

void *malloc(size_t size) {
    void *(*next)(size_t) = dlsym(RTLD_NEXT, "malloc");
    return is_refused() ? 0 : next(size);
}

void *realloc(void *old, size_t size) {
    void *(*next)(void *, size_t) = dlsym(RTLD_NEXT, "realloc");
    return is_refused() ? 0 : next(old, size);
}
"""


@pytest.mark.skipif(shutil.which("cc") is None, reason="there is no C compiler")
def test_refused_allocations_leave_the_files(tmp_path: pathlib.Path) -> None:
    """The outputs that exist keep their bytes, and the other isn't made; a run that ends with 0 wrote all three."""
    (tmp_path / "refusing.c").write_text(REFUSING)
    subprocess.run(["cc", "-shared", "-fPIC", "-o", "refusing.so", "refusing.c", "-ldl"], cwd=tmp_path, check=True)
    folder = tmp_path / "run"
    folder.mkdir()
    (folder / "bytes").write_bytes(bytes(8))
    (folder / "registers").write_bytes(b"x1 1\n")
    recorded = outputs(folder, tmp_path, 0)
    statuses = []
    for call in itertools.count(1):
        (tmp_path / "reached").unlink(missing_ok=True)
        status, files = outputs(folder, tmp_path, call)
        if not (tmp_path / "reached").exists():
            break
        statuses.append(status)
        assert (status, files) in (recorded, (6, OLD)), f"allocation {call}"
    assert recorded[0] == 0 and recorded[1].keys() == {*OLD, "log"} and statuses.count(6) > 3


def outputs(folder: pathlib.Path, room: pathlib.Path, refused: int) -> tuple[int, dict[str, bytes]]:
    """The status of a run with one allocation refused (0: none), and the bytes of the outputs after it."""
    (folder / "log").unlink(missing_ok=True)
    for name, data in OLD.items():
        (folder / name).write_bytes(data)
    preloaded = {"LD_PRELOAD": f"{room}/refusing.so", "REFUSED": str(refused), "REACHED": f"{room}/reached"}
    completed = subprocess.run(
        [built_recorder(), *RUN], cwd=folder, env={**os.environ, **preloaded}, capture_output=True, check=False
    )
    assert completed.returncode == 0 or completed.stdout == b""
    return completed.returncode, {
        name: (folder / name).read_bytes() for name in (*OLD, "log") if (folder / name).exists()
    }
