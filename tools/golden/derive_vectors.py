"""Derives golden vectors of single instructions again, on QEMU's user mode: tools/golden/derive_vectors [COUNT], at the top of the
repository.

It executes COUNT clean vectors of lab/tests/data/golden_vectors, evenly spread, or all of them, each from its word and state. It prints
each vector whose result differs; the exit status is then 1. Vectors that jump to a misaligned target, which ends QEMU
itself, are left out. The program around the vectors is that of `on_qemu`
(docs/GOLDEN_VECTORS.md), with the vectors' memory. It needs `qemu-riscv64` (`sudo apt install qemu-user`).
"""

import shutil
import struct
import subprocess
import sys
import tempfile
from collections.abc import Iterator, Sequence
from pathlib import Path

from tools.golden.golden_cases import Vector, golden_vectors
from vecmon_lab.vectors import on_qemu

ROOT = Path(__file__).resolve().parents[2]
CODE, DATA, DATA_SIZE = 0x10000000, 0x20000, 0x5000
BLOCK = struct.Struct("<7Q8x1024s32Q")  # how it ended or the word, control registers, the address of a fault, registers
WRITABLE = (range(0, 0x2000), range(0x4000, 0x5000))  # offsets in the data of the pages that a program may write
OUTPUT = BLOCK.size + sum(map(len, WRITABLE))
SIGNALS = {4: "ill", 5: "ebreak", 7: "target"}

# Changes of the program's words: each run of words, and those in its place.
CHANGES = {
    "000205b7 00002637 00000073 00021537 000015b7 00300613": (  # writes 20000 to 21fff, and 24000 to 24fff, and opens 22000 to 23fff
        "000205b7 00002637 00000073 00100513 000245b7 00001637 00000073 00022537 000025b7 00300613"
    ),
    "000205b7 00002637 03f00893": "000205b7 00005637 03f00893",  # reads 20000 to 24fff
    "08050a63 00021537 000015b7 00100613 0e200893 00000073": (  # at the end of input exits; closes 22000, and 23000 for writes
        "0a050263 00022537 000015b7 00000613 0e200893 00000073 00023537 00100613 00000073"
    ),
    "00011337": "10001337",  # the code is at 10000800
}


def program() -> list[int]:
    """The program around the vectors, as 32-bit words."""
    words = " ".join(f"{word:08x}" for word in on_qemu.program())
    for old, new in CHANGES.items():
        if words.count(old) != 1:
            sys.exit(f"tools/golden/derive_vectors: on_qemu.txt has {words.count(old)} runs of {old}")
        words = words.replace(old, new)
    return [int(word, 16) for word in words.split()]


def start_scalars() -> list[int]:
    return [0, *((number * 0x0123456789ABCDEF + 0x5A5A) % (1 << 64) for number in range(1, 32))]


def start_vectors() -> bytearray:
    return bytearray((64 + 29 * r + 7 * k + k // 8 * r) % 256 for r in range(32) for k in range(32))


def start_data() -> bytearray:
    places = range(DATA, DATA + DATA_SIZE)
    return bytearray((37 * at + 101 * (at // 256) + 11 * (at // 32) + 7) % 256 for at in places)


def state(vector: Vector, after: bool) -> dict[str, int | bytes]:
    """The state before a vector's instruction, or after it."""
    x, v, data, control = start_scalars(), start_vectors(), start_data(), dict[str, int](pc=CODE + 0x800)
    for part in (vector.keys, vector.after)[: 1 + after]:
        control |= {name: part[name] for name in ("vl", "vstart", "vxrm", "vxsat") if name in part}
        control |= {name: int(part[name], 16) for name in ("vtype", "pc") if name in part}
        for number, digits in part.get("x", {}).items():
            x[int(number)] = int(digits, 16)
        for number, digits in part.get("v", {}).items():
            v[32 * int(number) : 32 * int(number) + 32] = bytes.fromhex(digits)
        for address, digits in part.get("memory", {}).items():
            at = int(address, 16) - DATA
            data[at : at + len(digits) // 2] = bytes.fromhex(digits)
    return {**control, "v": bytes(v), "data": bytes(data), **{f"x{number}": x[number] for number in range(1, 32)}}


def record(vector: Vector) -> bytes:
    """The input of the program for a vector: the data and the block."""
    before = state(vector, after=False)
    names = [*on_qemu.CONTROL, "v", "pc", *(f"x{number}" for number in range(1, 32))]
    values = [before[name] for name in names]
    return bytes(before["data"]) + BLOCK.pack(vector.word, *values[:5], 0, *values[5:])


def result(vector: Vector, output: bytes) -> dict[str, object]:
    """The state that QEMU leaves, and how the instruction ends, by the keys of `state`."""
    number, *rest = BLOCK.unpack(output[: BLOCK.size])
    names = [*on_qemu.CONTROL, "value", "v", "pc", *(f"x{it}" for it in range(1, 32))]
    found: dict[str, object] = dict(zip(names, rest))
    value = found.pop("value")
    ran = found["pc"] != state(vector, after=False)["pc"]
    end = "ran" if ran else SIGNALS.get(number, "store" if vector.word & 0x20 else "load")
    written = iter(output[BLOCK.size :])
    data = start_data()
    for offsets in WRITABLE:
        for at in offsets:
            data[at] = next(written)
    return {**found, "data": bytes(data), "end": end, "value": value if end in ("load", "store") else 0}


def expected(vector: Vector) -> dict[str, object]:
    value = int(vector.after["value"], 16) if vector.end in ("load", "store") else 0
    return {**state(vector, after=True), "end": vector.end, "value": value}


def run(policy: str, vectors: Sequence[Vector]) -> list[bytes]:
    """The output of the program for each vector of a policy; fewer if QEMU itself ends."""
    emulator, option, processor = on_qemu.qemu()
    if policy == "ones":
        processor += ",rvv_ta_all_1s=true,rvv_ma_all_1s=true"
    parts = {CODE: on_qemu.EBREAKS, DATA: bytes(DATA_SIZE)}
    with tempfile.TemporaryDirectory() as folder, tempfile.TemporaryFile() as feed:
        elf = Path(folder, "image")
        elf.write_bytes(on_qemu.image(program(), parts))
        elf.chmod(0o700)
        feed.write(b"".join(map(record, vectors)))
        feed.seek(0)
        done = subprocess.run([emulator, option, processor, elf], stdin=feed, stdout=subprocess.PIPE)
    output = done.stdout[OUTPUT:]  # the first state is that before all vectors
    return [output[at : at + OUTPUT] for at in range(0, len(output) - OUTPUT + 1, OUTPUT)]


def differing(policy: str, vectors: Sequence[Vector]) -> Iterator[str]:
    """The vectors of a policy whose results differ, each with what differs."""
    outputs = run(policy, vectors)
    for vector, output in zip(vectors, outputs):
        want, got = expected(vector), result(vector, output)
        if names := [name for name in want if want[name] != got[name]]:
            yield f"{policy} {vector.line}: {vector.keys['word']} {vector.keys['text']}: {', '.join(names)} differ"
    if len(outputs) < len(vectors):
        yield f"QEMU ended at {vectors[len(outputs)].keys['text']}"


def main(arguments: Sequence[str]) -> int:
    if not shutil.which(on_qemu.QEMU[0]):
        sys.exit("tools/golden/derive_vectors: qemu-riscv64 not found: sudo apt install qemu-user")
    clean = [it for it in golden_vectors() if it.is_clean and it.end != "target"]
    count = int(arguments[0]) if arguments else len(clean)
    chosen = [clean[at * len(clean) // count] for at in range(count)]
    found = list[str]()
    for policy in ("keep", "ones"):
        those = [it for it in chosen if it.policy == policy]
        found += (fault for at in range(0, len(those), 1000) for fault in differing(policy, those[at : at + 1000]))
    for fault in found:
        print(fault)
    print(f"{count} golden vectors derived again, {len(found)} of them differ")
    return 1 if found else 0


if __name__ == "__main__":
    sys.exit(main(sys.argv[1:]))
