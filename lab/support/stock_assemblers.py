"""What GNU as and clang, with their linkers, make of assembler sources, and what the lab and the machine make of them."""

import pathlib
import subprocess
import tempfile

from vecmon_lab.assembler.source import Program
from vecmon_lab.guest.guest import Guest
from vecmon_lab.machine.session import Session

ORIGIN = 0x10000
LAYOUT = """SECTIONS {
  . = 0x10000;
  .text : { *(.text .text.* .init .fini) }
  . = ALIGN(0x1000);
  .rodata : { *(.rodata .rodata.* .srodata .srodata.*) }
  . = ALIGN(0x1000);
  .data : { *(.data .data.* .sdata .sdata.*) }
  . = ALIGN(0x1000);
  .bss : { *(.sbss .sbss.* .bss .bss.*) *(COMMON) }
  /DISCARD/ : { *(.comment .note.* .riscv.attributes .eh_frame) }
}
"""
_CLANG = "clang-19 --target=riscv64-linux-gnu -march=rv64im_zve64x -mabi=lp64 -fno-pic -mno-relax -c"
COMMANDS = {
    "gnu": [
        "riscv64-linux-gnu-as -march=rv64im_zicsr_zve64x -mabi=lp64 -mno-relax".split(),
        "riscv64-linux-gnu-ld --no-relax --no-warn-rwx-segments".split(),
    ],
    "clang": [_CLANG.split(), "ld.lld-19 --no-relax".split()],
    "gnu relaxed": [
        "riscv64-linux-gnu-as -march=rv64im_zicsr_zve64x -mabi=lp64 -mrelax".split(),
        "riscv64-linux-gnu-ld --relax --no-warn-rwx-segments".split(),
    ],
}
"""Assembler and linker by name. `gnu relaxed` makes one jump of a call."""


def stock_bytes(text: str, tools: str, links: bool = True) -> bytes | str:
    """The bytes from 10000 on that stock tools make of a source, or what they print if they refuse it.

    links: whether it is linked; else there are no bytes
    """
    assembler, linker = COMMANDS[tools]
    with tempfile.TemporaryDirectory() as name:
        folder = pathlib.Path(name)
        source, made, linked, dump = (folder / each for each in ("a.s", "a.o", "a.elf", "a.bin"))
        source.write_text(f"{text}\n")
        (folder / "layout").write_text(LAYOUT)
        commands = [
            [*assembler, f"{source}", "-o", f"{made}"],
            [*linker, "-e", "0x10000", "-T", f"{folder / 'layout'}", f"{made}", "-o", f"{linked}"],
        ]
        for command in commands if links else commands[:1]:
            completed = subprocess.run(command, capture_output=True, text=True)
            if completed.returncode:
                return completed.stderr.replace(f"{source}", "a.s") or "refused"
        if not links:
            return b""
        flat = ["-O", "binary", "-j", ".text", "-j", ".rodata", "-j", ".data", f"{linked}", f"{dump}"]
        copied = subprocess.run(["riscv64-linux-gnu-objcopy", *flat], capture_output=True)  # fails if all are empty
        return dump.read_bytes() if copied.returncode == 0 else b""


def machine_bytes(session: Session, program: Program) -> dict[int, bytes]:
    """The bytes of each area that a program maps, by its address. Raises AssertionError if the machine refuses a line."""
    guest = Guest(session)
    for command, answer in zip(program.lines, guest.ask("leave", "enter", *program.lines)[2:]):
        assert not type(answer).__name__.startswith("Refused"), f"{command}: {answer}"
    maps = [line.split() for line in program.lines if line.startswith("map ")]
    return {int(address, 16): guest.peek(int(address, 16), int(pages) * 4096) for _, address, pages, _ in maps}


def differences(own: dict[int, bytes], stock: bytes) -> list[str]:
    """Where the machine's bytes aren't those of stock tools. Past the end of these it has zeros, or is padded."""
    found = []
    for address, data in own.items():
        other = stock[address - ORIGIN : address - ORIGIN + len(data)]
        for at in range(0, len(other), 4):
            mine, theirs = data[at : min(at + 4, len(other))], other[at : at + 4]
            if mine != theirs:
                found.append(f"{address + at:x}: {mine.hex()}, stock {theirs.hex()}")
    return found
