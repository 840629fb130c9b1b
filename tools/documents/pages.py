"""Makes the pages of docs/ again that programs print, and shows where stored outputs differ: `tools/documents/pages [FOLDER]`, at the top
of the repository.

`tests/command_lines` makes TOUR.md, REFUSALS.md and COMPILING.md with the program `vecmon`. `test_assembler` prints the list of
instructions, from which INSTRUCTIONS.md is made; `tools/records/instruction_definitions.py` adds the definitions of each. COMMANDS.md and
DEBUGGING.md have their tables of commands from `lab/vecmon_lab/tables`. Both programs are built without their proofs
(`tools/building/unproved_build`); with FOLDER, each NAME is taken from FOLDER/NAME or from FOLDER/NAME/out/NAME, where `rt run` leaves it:
`tools/documents/pages crates`. `test_assembler` runs as in the gate, on a copy of its data. It writes a page that has changed, and
never a stored output: if one differs, it prints the first lines of the difference, and the status is 1.
"""

import shutil
import subprocess
import sys
import tempfile
from pathlib import Path

from support.command_tables import with_tables
from tests.command_lines.pages import TEMPLATES, page
from tests.command_lines.stored import expected, printed
from tools.records.instruction_definitions import list_in, with_definitions

DOCS = Path("docs")
MOST_LINES = 60  # of a difference


def program(name: str, folder: str | None, room: Path) -> Path:
    """The program of a crate: one that is there, or one that is built now."""
    if folder:
        places = [Path(folder, name), Path(folder, name, "out", name)]
        found = next((it for it in places if it.is_file()), None)
        return found.resolve() if found else sys.exit(f"there is no {' or '.join(map(str, places))}")
    print(f"building {name} without its proofs", flush=True)
    subprocess.run([sys.executable, "tools/building/unproved_build", name, str(room / name)], check=True)
    return room / name


def assembler_output(built: Path, room: Path) -> str:
    """What `test_assembler` prints on its data. Its status is 0, or this ends with a message."""
    here = shutil.copytree("crates/test_assembler/data", room / "test_assembler.data")
    completed = subprocess.run([built], cwd=here, stdin=subprocess.DEVNULL, stdout=subprocess.PIPE, check=False)
    if completed.returncode:
        sys.exit(f"test_assembler ends with {completed.returncode}")
    return completed.stdout.decode("latin-1")


def write(path: Path, text: str) -> None:
    """Writes a file, if it isn't there already."""
    if not path.is_file() or path.read_bytes().decode("latin-1") != text:
        path.write_bytes(text.encode("latin-1"))
        print(f"{path} is made again")


def differs(path: str, stored: str, now: str, room: Path) -> bool:
    """Return whether a stored output differs from the output now; prints the first lines of the difference."""
    (room / "stored").write_bytes(stored.encode("latin-1"))
    command = ["diff", "--text", "--unified=1", f"--label={path}", "--label=printed now", str(room / "stored"), "-"]
    found = subprocess.run(command, input=now.encode("latin-1"), stdout=subprocess.PIPE, check=False).stdout
    lines = found.decode("utf-8", "replace").splitlines()
    print("\n".join(lines[:MOST_LINES]), end="\n" if lines else "")
    if len(lines) > MOST_LINES:
        print(f"and {len(lines) - MOST_LINES} lines more")
    return bool(lines)


def main(folder: str | None) -> int:
    with tempfile.TemporaryDirectory() as made:
        room = Path(made)
        vecmon = program("vecmon", folder, room)
        assembled = assembler_output(program("test_assembler", folder, room), room)
        for name, template in TEMPLATES.items():
            write(DOCS / name, page(vecmon, template))
        write(DOCS / "INSTRUCTIONS.md", with_definitions(list_in(assembled)))
        for name in ("COMMANDS.md", "DEBUGGING.md"):
            write(DOCS / name, with_tables((DOCS / name).read_bytes().decode("latin-1")))
        stored = "tests/command_lines/expected"
        faults = [differs(f"{stored}/{name}", expected(name), now, room) for name, now in printed(vecmon).items()]
        listed = Path("crates/test_assembler/stdout")
        faults.append(differs(str(listed), listed.read_bytes().decode("latin-1"), assembled, room))
    if not any(faults):
        print("all stored outputs equal the output of the programs")
    return 1 if any(faults) else 0


if __name__ == "__main__":
    if len(sys.argv) > 2 or sys.argv[1:2] in (["--help"], ["-h"]):
        sys.exit(__doc__)
    sys.exit(main(sys.argv[1] if len(sys.argv) == 2 else None))
