"""Lists what a run of tests has left: tools/checks/check_left_behind MARK FOLDER

A process belongs to the run if its environment has VECMON_TEST_RUN=MARK, which tools/test exports, or if it works in FOLDER, which was
the run's folder for temporary files (TMPDIR). Other people's processes have neither. A process gets some seconds to end. Each one that
goes on, and each entry of FOLDER but pytest's own folders, is printed in a line; the status is 1 if there are any.
"""

import os
import pathlib
import sys
import time
from collections.abc import Iterator

SECONDS = 60
VARIABLE = "VECMON_TEST_RUN"


def main(mark: str, folder: pathlib.Path) -> int:
    end = time.monotonic() + SECONDS
    while (left := list(processes(mark, folder))) and time.monotonic() < end:
        time.sleep(0.1)
    left += [f"folder or file {entry}" for entry in sorted(folder.iterdir()) if not entry.name.startswith("pytest-of-")]
    for line in left:
        print(f"tools/checks/check_left_behind: left: {line}")
    return 1 if left else 0


def processes(mark: str, folder: pathlib.Path) -> Iterator[str]:
    """The processes of the run that go on, without this one and those above it."""
    own = above(os.getpid())
    variable = f"{VARIABLE}={mark}".encode()
    for path in pathlib.Path("/proc").glob("[0-9]*"):
        if int(path.name) in own:
            continue
        try:
            is_marked = variable in (path / "environ").read_bytes().split(b"\0")
            if is_marked or pathlib.Path(os.readlink(path / "cwd")).is_relative_to(folder):
                command = (path / "cmdline").read_bytes().replace(b"\0", b" ").decode("utf-8", "replace").strip()
                yield f"process {path.name}: {command[:200]}"
        except OSError:
            pass  # it has ended, or is another user's


def above(number: int) -> set[int]:
    """A process and those that started it."""
    found = set()
    while number:
        found.add(number)
        number = int(pathlib.Path(f"/proc/{number}/stat").read_text("utf-8", "replace").rpartition(")")[2].split()[1])
    return found


if __name__ == "__main__":
    if len(sys.argv) != 3:
        sys.exit(__doc__)
    sys.exit(main(sys.argv[1], pathlib.Path(sys.argv[2]).resolve()))
