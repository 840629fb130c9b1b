"""Images of assembler sources. The commands `run`, `profile`, `compare` and `gdb` assemble a source and load its image."""

import atexit
import pathlib
import sys
import tempfile

from .. import LabError
from ..assembler.inputs import lines_with_inputs
from ..assembler.own_files import files_beside
from ..compilers.compiling import read_own_source
from ..guest.guest import Guest
from ..guest.image_start import END_SYMBOL
from ..instructions.accesses import PAGE_BYTES
from ..instructions.words import listed
from ..lessons.script import print_warnings, read_assembled, send
from ..machine.program import find_program
from ..machine.session import Session
from ..machine.start_state import EBREAK, RETURN
from .elf import EXECUTE, READ, WRITE, Segment, elf
from .line_table import debug_sections


def assembled_image(path: pathlib.Path) -> pathlib.Path:
    """Assemble your own source with the lab's assembler; return the path of the image, which exists until the command ends.

    The image has the source's name without `.s`, the labels as symbols, the line of each instruction, and the page that the program
    returns to. The source's `#>` lines are ignored: they are for pages and lessons.

    Raises LabError if the source has mistakes, and OSError.
    """
    text = read_own_source(path)
    script = read_assembled(text, f"{path}", files_beside(path))
    print_warnings(script)
    report_inputs(path, text)
    program = script.program
    if not program or not program.statements:
        raise LabError(f"{path}: there is no instruction in the source")
    with Session(find_program()) as session:
        guest = Guest(session)
        send(guest, [line.removeprefix("1 ") for line in script.steps[0].lines], script)
        segments = [_segment(guest, *line.split()[1:]) for line in program.lines if line.startswith("map ")]
    segments.append(Segment(RETURN, EBREAK, PAGE_BYTES, READ | EXECUTE))
    symbols = {**({END_SYMBOL: program.end} if program.end else {}), **program.labels}
    rows = [(statement.address, statement.line) for statement in program.statements]
    saved = tempfile.TemporaryDirectory()
    atexit.register(saved.cleanup)
    image = pathlib.Path(saved.name, path.stem)
    image.write_bytes(elf(program.entry, segments, symbols, debug_sections(path.absolute(), rows)))
    return image


def report_inputs(path: pathlib.Path, text: str) -> None:
    """Print a line on standard error if a source has `#>` lines with inputs, which only pages and lessons use."""
    numbers = lines_with_inputs(text)
    if numbers:
        lines = f"line{'s' * (len(numbers) > 1)} {listed([f'{number}' for number in numbers])}"
        print(
            f"vecmon-lab: {path}: the inputs in {lines} (#>) are ignored: pages and lessons take them", file=sys.stderr
        )


def _segment(guest: Guest, digits: str, pages: str, permissions: str) -> Segment:
    """Return a segment with the bytes of pages of a guest.

    digits, pages, permissions: the arguments of the `map` that mapped the pages: their address, their number and their permissions

    Pages without instructions whose bytes are all 0 become a segment without data.
    """
    address, size = int(digits, 16), int(pages) * PAGE_BYTES
    data, is_text = guest.peek(address, size), "x" in permissions
    data = data if is_text or any(data) else b""
    section = ".text" if is_text else ".rodata" if "w" not in permissions else ".data" if data else ".bss"
    rights = sum(right for letter, right in (("r", READ), ("w", WRITE), ("x", EXECUTE)) if letter in permissions)
    return Segment(address, data, size, rights, section)
