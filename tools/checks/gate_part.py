"""Checks some crates as the gate checks all: `tools/checks/gate_part NAME...`, at the top of the repository.

It copies the crates and all below them to a new folder, without results of earlier checks, and runs `rt ci` and then `tools/try_edits`
there. So it proves them from nothing, runs the programs and tests among them, and tries the edits that must fail, but only those of the
NAMEs. You can change the clone meanwhile. The exit status is that of `rt ci`, or, if that passes, that of `tools/try_edits`.
"""

import shutil
import subprocess
import sys
import tempfile
from pathlib import Path

from tools.editing.edit_clauses import BY_FUNCTION, FOLDERS

TOOLS = Path(__file__).resolve().parents[1]


def crates() -> dict[str, list[str]]:
    """The crates that each crate of crates.txt uses, the kit's libraries included."""
    lines = (it.partition("#")[0] for it in Path("crates.txt").read_text(encoding="utf-8").splitlines())
    pairs = (it.partition(":") for it in lines if it.strip())
    return {name.strip(): below.split() for name, _, below in pairs}


def with_those_below(names: list[str], listed: dict[str, list[str]]) -> list[str]:
    """The crates of these names, and all of the repository's crates that they use."""
    found: list[str] = []
    left = list(names)
    while left:
        name = left.pop()
        if name in listed and name not in found:
            found.append(name)
            left += listed[name]
    return found


def main(names: list[str]) -> int:
    listed = crates()
    unknown = [it for it in names if it not in listed]
    if unknown:
        sys.exit(f"crates.txt lists no {' or '.join(unknown)}")
    with tempfile.TemporaryDirectory() as made:
        for name in with_those_below(names, listed):
            left_out = ["out"] if name in names else ["out", *FOLDERS]
            shutil.copytree(f"crates/{name}", f"{made}/crates/{name}", ignore=shutil.ignore_patterns(*left_out))
            with open(f"{made}/crates.txt", "a", encoding="utf-8") as it:
                it.write(f"{name}: {' '.join(listed[name])}\n")
        shutil.copy("HANDLES", made)
        status = subprocess.run(["rt", "ci"], cwd=made, check=False).returncode
        with_edits = [it for it in names if Path(made, "crates", it, BY_FUNCTION).is_dir()]
        if status or not with_edits:
            return status
        return subprocess.run([TOOLS / "try_edits", *with_edits], cwd=made, check=False).returncode


if __name__ == "__main__":
    if len(sys.argv) < 2 or sys.argv[1] in ("--help", "-h"):
        sys.exit(__doc__)
    sys.exit(main(sys.argv[1:]))
