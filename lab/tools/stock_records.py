"""Records what a stock assembler and linker make of sources: `python lab/tools/stock_records.py`.

Of each NAME.s in lab/tests/data/stock it writes symbols and bytes to NAME.recorded. It wants clang, lld and llvm 19.1.7
(Debian: clang-19 lld-19 llvm-19), and first writes the generated sources anew: instructions.s, each name of
docs/INSTRUCTIONS.md with drawn operands, and constants.s. A line of a record is `symbol NAME ADDRESS` or
`bytes ADDRESS BYTES`, up to 32 bytes in hexadecimal digits; .bss, all zeros, is left out.
"""

import pathlib
import random
import re
import subprocess
import tempfile

from support.places import DATA, DOCS
from vecmon_lab.meanings.extensions import extension_of

HERE = DATA / "stock"
INSTRUCTIONS = DOCS / "INSTRUCTIONS.md"
FLAGS = "--target=riscv64-linux-gnu -march=rv64im_zve64x -mabi=lp64 -mno-relax -c".split()
ALLOWED, RESTORED = ["        .option push"], ["        .option pop"]
"""Lines around an instruction of another extension: with that in -march, clang would expand `li` in other ways."""
LAYOUT = """SECTIONS {
  . = 0x10000;
  .text : { *(.text) }
  . = ALIGN(0x1000);
  .data : { *(.data) }
  . = ALIGN(0x1000);
  .bss : { *(.bss) }
}
"""
SCALARS = "zero ra sp gp tp t0 t1 t2 s0 fp s1 a0 a1 a2 a3 a4 a5 a6 a7".split()
SCALARS += "s2 s3 s4 s5 s6 s7 s8 s9 s10 s11 t3 t4 t5 t6 x0 x5 x31".split()

WIDTHS, GROUPS = ("e8", "e16", "e32", "e64"), ("mf8", "mf4", "mf2", "m1", "m2", "m4", "m8")


def instructions() -> str:
    """Each instruction once, with registers that its manual allows. Its operands depend only on its text."""
    lines = ["# Each name of docs/INSTRUCTIONS.md, with drawn operands."]
    texts = re.findall(r"^\| `([^`]*)` \| `[01 -]+` \|", INSTRUCTIONS.read_text(), re.MULTILINE)
    for number, text in enumerate(texts):
        if number % 16 == 0:
            lines.append(f"label_{number // 16}:")
        name, shown = text.split()[0], f"        {operands(random.Random(text), text, number // 16)}"
        arch = "" if name == ".word" else extension_of(name).arch
        lines += [*ALLOWED, f"        .option arch, +{arch}", shown, *RESTORED] if arch else [shown]
    return "\n".join(lines) + f"\nlabel_{-(-len(texts) // 16)}:\n"


def operands(draw: random.Random, text: str, block: int) -> str:
    """The text of an instruction with operands in place of their names."""
    name = text.split()[0]
    is_jump = name == "jal" or name.startswith("b")
    fields = {
        **dict.fromkeys(("rd", "rs1", "rs2"), lambda: draw.choice(SCALARS)),
        "vd": lambda: draw.choice(("v8", "v24")),
        "vs2": lambda: draw.choice(("v0", "v16")),
        "vs1": lambda: f"v{draw.choice((0, 1, 2, 3, 4, 17, 31))}",
        "csr": lambda: draw.choice("vstart vxsat vxrm vcsr vl vtype vlenb".split()),
        "vtypei": lambda: ", ".join(map(draw.choice, (WIDTHS, GROUPS, ("ta", "tu"), ("ma", "mu")))),
        **dict.fromkeys(("shamt", "uimm"), lambda: str(draw.choice((0, 1, 9, 30, 31)))),
        "imm": lambda: str(draw.getrandbits(20) if name in ("lui", "auipc") else draw.randrange(-16, 16)),
        "offset": lambda: f"label_{block + draw.randrange(2)}" if is_jump else hex(draw.randrange(2048)),
        "number": lambda: hex(draw.getrandbits(32)),
    }
    if text.endswith("[, v0.t]"):
        text = text.removesuffix("[, v0.t]") + draw.choice(("", ", v0.t"))
    if name.startswith("v") and draw.random() < 0.3:
        text = text.replace("(", "0(")
    first, *rest = text.split(" ", 1)
    words = re.compile(rf"\b(?:{'|'.join(fields)})\b")
    return " ".join([first, *(words.sub(lambda match: fields[match[0]](), part) for part in rest)])


def constants(draw: random.Random) -> str:
    """Constants at the edges of 12, 32 and 64 bits, of few bits, of bits shifted down, and of all lengths."""
    powers = [1 << bit for bit in (0, 5, 11, 12, 13, 31, 32, 33, 43, 63, 64)]
    near = {sign * power + more for power in powers for more in (-2048, -2, -1, 0, 1, 2048) for sign in (1, -1)}
    runs = {(1 << high) - (1 << low) for high in (64, 63, 47, 33, 20) for low in (3, 12, 17, 31, 32) if low < high}
    values = sorted(near | runs | {0x7FFFF7FF, 0x7FFFF800, 0x123456789ABCDEF0})
    values += [draw.getrandbits(draw.randrange(1, 65)) << draw.randrange(40) for _ in range(200)]
    values += [~draw.getrandbits(draw.randrange(1, 64)) for _ in range(100)]
    values += [draw.getrandbits(51) << 13 | 0x17FF for _ in range(50)]
    shifted = [((1 << 64) - draw.getrandbits(31)) >> draw.randrange(1, 33) for _ in range(100)]
    values += [value ^ -(index % 2) for index, value in enumerate(shifted)]
    lines = ["# Constants of all lengths."]
    for value in values:
        if -(1 << 63) <= value < 1 << 64:
            number = hex(value) if draw.random() < 0.5 else str(value)
            lines.append(f"        li      {draw.choice(SCALARS[5:])}, {number}")
    return "\n".join(lines) + "\n"


def record(source: pathlib.Path, folder: pathlib.Path) -> str:
    """The output of the stock tools for a source."""
    made, linked, layout = folder / "made.o", folder / "linked", folder / "layout"
    layout.write_text(LAYOUT)
    subprocess.run(["clang-19", *FLAGS, str(source), "-o", str(made)], check=True)
    subprocess.run(
        ["ld.lld-19", "--no-relax", "-e", "0x10000", "-T", str(layout), str(made), "-o", str(linked)], check=True
    )
    names = subprocess.run(["llvm-nm-19", str(linked)], check=True, capture_output=True, text=True).stdout
    symbols = [line.split() for line in names.splitlines()]
    lines = [f"symbol {name} {address}" for address, kind, name in symbols if kind not in "aA" and name[0] not in ".$"]
    headers = subprocess.run(["llvm-readelf-19", "-SW", str(linked)], check=True, capture_output=True, text=True).stdout
    for section, address in re.findall(r"\] (\.text|\.data) +PROGBITS +([0-9a-f]+)", headers):
        dump = folder / "dump"
        subprocess.run(["llvm-objcopy-19", "-O", "binary", "-j", section, str(linked), str(dump)], check=True)
        content = dump.read_bytes()
        lines += [
            f"bytes {int(address, 16) + at:016x} {content[at : at + 32].hex()}" for at in range(0, len(content), 32)
        ]
    return "\n".join(lines) + "\n"


def main() -> None:
    """Writes the generated sources and all records."""
    (HERE / "instructions.s").write_text(instructions())
    (HERE / "constants.s").write_text(constants(random.Random(1)))
    with tempfile.TemporaryDirectory() as folder:
        for source in sorted(HERE.glob("*.s")):
            source.with_suffix(".recorded").write_text(record(source, pathlib.Path(folder)))


if __name__ == "__main__":
    main()
