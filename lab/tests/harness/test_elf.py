"""ELF files: the fields that pyelftools reads, and the segments that the machine loads."""

import io
import pathlib

from elftools.elf.elffile import ELFFile

from vecmon_lab.guest.guest import started
from vecmon_lab.guest.symbols import Symbols
from vecmon_lab.harness.elf import EXECUTE, READ, WRITE, Segment, elf
from vecmon_lab.harness.environments import digest, signature_text

CODE = bytes.fromhex("13051000 9308d005 73000000")  # addi x10, x0, 1; addi x17, x0, 93; ecall


def test_pyelftools_reads_same_segments() -> None:
    parts = [Segment(0x10000, CODE, 4096, READ | EXECUTE), Segment(0x80020000, b"abc", 8192, READ | WRITE)]
    file = ELFFile(io.BytesIO(elf(0x10000, parts, {"_start": 0x10000, "tohost": 0x80020040})))
    segments = [(it["p_vaddr"], it.data(), it["p_memsz"], it["p_flags"]) for it in file.iter_segments("PT_LOAD")]
    assert segments == [(0x10000, CODE.ljust(4096, b"\0"), 4096, 5), (0x80020000, b"abc", 8192, 6)]
    assert (file["e_entry"], file["e_machine"], file["e_type"]) == (0x10000, "EM_RISCV", "ET_EXEC")
    symbols = file.get_section_by_name(".symtab")
    assert [(it.name, it["st_value"]) for it in symbols.iter_symbols()][1:] == [
        ("_start", 65536),
        ("tohost", 0x80020040),
    ]
    assert [it.name for it in file.iter_sections()] == ["", ".symtab", ".strtab", ".shstrtab"]


def test_machine_loads_image(program: pathlib.Path, tmp_path: pathlib.Path) -> None:
    path = tmp_path / "image"
    path.write_bytes(elf(0x10000, [Segment(0x10000, CODE, 4096, READ | EXECUTE)], {"_start": 0x10000}))
    with started(path) as guest:
        stop = guest.go()
        assert stop and (stop.kind, stop.number) == ("exit", 1)
    assert Symbols.read(path).addresses == {"_start": 0x10000}


def test_digest_and_signature_equal_hand_worked_values() -> None:
    assert digest((2).to_bytes(8, "little") + (5).to_bytes(8, "little")) == 67
    assert digest(b"\xff" * 16) == (1 << 64) - 32
    assert signature_text([0x0123456789ABCDEF, 1]) == "89abcdef\n01234567\n00000001\n00000000\n"
