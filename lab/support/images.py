"""Images for tests that are made from assembler source."""

import pathlib

from vecmon_lab.assembler.source import assemble
from vecmon_lab.harness.elf import Segment, elf
from vecmon_lab.instructions.accesses import PAGE_BYTES
from vecmon_lab.machine.session import Session

FLAGS = {"rx": 5, "rw": 6}
MARCH = "-march=rv64im_zicsr_zve64x_zvl256b"  # the options of docs/COMPILING.md


def make_image(program: pathlib.Path, path: pathlib.Path, source: str) -> dict[str, int]:
    """Writes an ELF file with an empty symbol table, which the machine assembles; the addresses of its labels."""
    assembled = assemble(source)
    segments = []
    with Session(program) as session:
        for line in ["enter", *assembled.lines]:
            (answer,) = session.do(f"1 {line}")
            assert " E" not in answer, (line, answer)
        for _, address, pages, permission in (line.split() for line in assembled.lines if line.startswith("map ")):
            places = range(int(address, 16), int(address, 16) + int(pages) * PAGE_BYTES, 256)
            data = "".join(session.look(f"1 peek {place:x} 256")[0].split()[3] for place in places)
            segments.append(Segment(int(address, 16), bytes.fromhex(data), len(data) // 2, FLAGS[permission]))
    path.write_bytes(elf(assembled.entry, segments, {}))
    return assembled.labels
