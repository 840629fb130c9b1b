"""The state at the start of a run, as the program itself shows it: registers, memory, and the state after `load`."""

import os
import pathlib

from tests.recordings.recorder import read_counts, record

WRITE_AND_EXIT = (0x04000893, 0x00000073, 0x05D00893, 0x00000513, 0x00000073)
"""li x17, 64; ecall; li x17, 93; li x10, 0; ecall: writes x12 bytes from x11 on, and exits."""


def code(*words: int) -> bytes:
    """The bytes of instructions, least byte first."""
    return b"".join(word.to_bytes(4, "little") for word in words)


def test_scalar_registers(tmp_path: pathlib.Path) -> None:
    """A program stores x1 to x4 in a page and writes them out. A later line hides an earlier one."""
    stores = [0x0015B023, 0x0025B423, 0x0035B823, 0x0045BC23]  # sd x1, 0(x11) to sd x4, 24(x11)
    (tmp_path / "code").write_bytes(code(*stores, *WRITE_AND_EXIT))
    (tmp_path / "page").write_bytes(bytes(32))
    lines = [
        "x1 1",
        "x2 123456789abcdef0",
        "x3 ffffffffffffffff",
        "x4 5",
        "",
        "x4 0",
        "x10 1",
        "x11 2000",
        "x12 20",
        "pc 1000",
    ]
    (tmp_path / "registers").write_text("\n".join(lines), "ascii")
    completed = record(tmp_path, "--memory", "1000:x:code", "--memory", "2000:rw:page", "--registers", "registers")
    values = (1, 0x123456789ABCDEF0, 2**64 - 1, 0)
    assert (completed.status, completed.stdout) == (0, b"".join(value.to_bytes(8, "little") for value in values))


def test_vector_registers_and_control_registers(tmp_path: pathlib.Path) -> None:
    """v8 as it was laid is stored by the length and type that were; and vl, vtype and vxrm are read."""
    lines = [
        "v8 " + bytes(range(32)).hex(),
        "vl 3",
        "vtype 8",
        "vxrm 2",
        "vxsat 1",
        "x10 1",
        "x11 2000",
        "x12 20",
        "pc 1000",
    ]
    stores = [0x0205D427, 0xC20022F3, 0x0055BC23]  # vse16.v v8, (x11); csrr x5, vl; sd x5, 24(x11)
    reads = [0xC21022F3, 0x0055B823, 0x00A022F3, 0x0055B423]  # vtype at 16; vxrm at 8
    (tmp_path / "code").write_bytes(code(*stores, *reads, *WRITE_AND_EXIT))
    (tmp_path / "page").write_bytes(bytes([0xAA]) * 32)
    (tmp_path / "registers").write_text("\n".join(lines), "ascii")
    completed = record(tmp_path, "--memory", "1000:x:code", "--memory", "2000:rw:page", "--registers", "registers")
    assert completed.status == 0
    assert completed.stdout == bytes(range(6)) + bytes([0xAA]) * 2 + bytes([2]) + bytes(7) + bytes([8]) + bytes(
        7
    ) + bytes([3]) + bytes(7)
    counts = read_counts(completed.counts)
    assert counts.lengths == {(8, 3): 1}
    assert counts.words[0x1000, 0x0205D427] == (1, 3, 3, 0, 13)


def test_body_starts_at_vstart(tmp_path: pathlib.Path) -> None:
    (tmp_path / "code").write_bytes(code(0x0205D427))
    (tmp_path / "page").write_bytes(bytes(32))
    (tmp_path / "registers").write_text("pc 1000\nx11 2000\nvl 5\nvtype 0\nvstart 2\n", "ascii")
    arguments = ["--memory", "1000:x:code", "--memory", "2000:rw:page", "--registers", "registers", "--ticks", "1"]
    counts = read_counts(record(tmp_path, *arguments).counts)
    assert counts.words[0x1000, 0x0205D427] == (1, 3, 3, 0, 27)


def test_memory_file_preserves_mapped_pages(tmp_path: pathlib.Path) -> None:
    """Bytes that cross a page's end: the page that is there keeps its permissions, and gets the bytes all the same."""
    (tmp_path / "code").write_bytes(code(*WRITE_AND_EXIT))
    (tmp_path / "read").write_bytes(b"." * 4096)
    (tmp_path / "both").write_bytes(b"0123456789")
    (tmp_path / "registers").write_text("pc 1000\nx10 1\nx11 2ff8\nx12 10\n", "ascii")
    files = ["--memory", "1000:x:code", "--memory", "2000:r:read", "--memory", "2ffb:rw:both"]
    completed = record(tmp_path, *files, "--registers", "registers")
    assert (completed.status, completed.stdout) == (0, b"...0123456789" + bytes(3))
    store = [0x00B58023]  # sb x11, 0(x11): the page at 2000 is read-only
    (tmp_path / "code").write_bytes(code(*store))
    assert record(tmp_path, *files, "--registers", "registers").counts.startswith("fault cause=7 pc=0000000000001000")
    (tmp_path / "registers").write_text("pc 1000\nx11 3000\n", "ascii")
    words = [*files, "--registers", "registers", "--ticks", "1"]
    assert read_counts(record(tmp_path, *words).counts).instructions == 1


def test_machine_is_empty_without_image(tmp_path: pathlib.Path) -> None:
    completed = record(tmp_path)
    assert (completed.status, completed.counts) == (0, "fault cause=1 pc=0000000000000000 value=0000000000000000 0 0\n")


def test_files_may_be_descriptors(tmp_path: pathlib.Path) -> None:
    """A program that comes through a pipe."""
    reader, writer = os.pipe()
    os.write(writer, code(0x00100073))
    os.close(writer)
    completed = record(tmp_path, "--memory", f"0:x:/dev/fd/{reader}", more=[reader])
    os.close(reader)
    assert (completed.status, completed.counts) == (0, "ebreak pc=0000000000000000 0 0\n")
