"""Loads and stores of elements that are far apart, near the ends of pages, masked off or at the same place: registers and memory afterwards
are those of the elements moved one by one, in order ("V" Vector Extension 1.0, sections 7.5, 7.6 and 7.8)."""

import pathlib
from dataclasses import dataclass

import pytest

from tests.program import answers, built

BASE = 0x1_0000
PAGE = 0x1000
PAGES = 3  # the page after them isn't mapped
VLENB = 32
OFFSETS = 16  # the first register of the offsets


@dataclass(frozen=True)
class Case:
    """An access of `count` segments of fields of `size` bytes at these addresses, from or to the registers from v8 on. `active` has the
    mask's bits, if there is a mask."""

    text: str
    size: int
    addresses: list[int]
    fields: int = 1
    stride: int = 0
    active: int | None = None

    def is_active(self, index: int) -> bool:
        return self.active is None or self.active >> index & 1 == 1


def memory_before() -> bytearray:
    return bytearray((7 * at + (at >> 8)) & 0xFF for at in range(PAGES * PAGE))


def registers_before() -> list[bytearray]:
    return [bytearray((at + 32 * number) & 0xFF for at in range(VLENB)) for number in range(32)]


def moved(case: Case, memory: bytearray, registers: list[bytearray]) -> int | None:
    """Moves the elements in order. Returns the index whose segment isn't mapped, if there is one."""
    for index, address in enumerate(case.addresses):
        if not case.is_active(index):
            continue
        at = address - BASE
        if not 0 <= at <= len(memory) - case.fields * case.size:
            return index
        for field in range(case.fields):
            element = slice(at + field * case.size, at + (field + 1) * case.size)
            place = slice(index * case.size, (index + 1) * case.size)
            if case.text.startswith("vl"):
                registers[8 + field][place] = memory[element]
            else:
                memory[element] = registers[8 + field][place]
    return None


def strided(
    text: str, size: int, first: int, stride: int, count: int, fields: int = 1, active: int | None = None
) -> Case:
    addresses = [(first + index * stride) % 2**64 for index in range(count)]
    return Case(text, size, addresses, fields, stride, active)


def at_offsets(text: str, size: int, offsets: list[int], fields: int = 1, active: int | None = None) -> Case:
    return Case(text, size, [BASE + it for it in offsets], fields, 0, active)


END = BASE + PAGES * PAGE
CASES = [
    strided("vlse32.v", 4, BASE + PAGE - 0x1FE, 0x100, 8),  # the second element is in two pages
    strided("vsse32.v", 4, BASE + PAGE - 0x1FE, 0x100, 8),
    strided("vlse8.v", 1, BASE + 2 * PAGE + 5, 2**64 - 0x103, 31),  # downwards
    strided("vlse64.v", 8, END - 0x308, 0x100, 4),  # the last element ends at the last mapped byte
    strided("vlse64.v", 8, END - 0x307, 0x100, 4),  # its last byte isn't mapped
    strided("vsse64.v", 8, END - 0x307, 0x100, 4),
    strided("vsse16.v", 2, BASE + PAGE - 2, 1, 16),  # each overlaps the one before it
    strided("vsse16.v", 2, BASE + 8, 0, 16),  # all at one place: the last one counts
    strided("vlse32.v", 4, END - 0x204, 0x100, 8, active=0b0000_0101),  # only masked-off elements aren't mapped
    strided("vsse32.v", 4, END - 0x204, 0x100, 8, active=0b0010_0101),
    strided("vlsseg3e16.v", 2, BASE + PAGE - 0x104, 0x101, 8, fields=3),
    strided("vssseg4e32.v", 4, BASE + PAGE - 0x208, 0x100, 8, fields=4),
    strided("vssseg4e32.v", 4, END - 0x208, 0x100, 8, fields=4),  # a part of the third segment isn't mapped
    at_offsets("vluxei16.v", 2, [0, 2 * PAGE, PAGE - 1, 2 * PAGE + 2, 7, PAGE, 9, 3 * PAGE - 2]),
    at_offsets("vsuxei16.v", 2, [4, 3, 4, 5, PAGE - 1, PAGE, 2 * PAGE, PAGE - 1], active=0b1111_1101),
    at_offsets("vsoxei16.v", 2, [4, 3, 4, 5, PAGE - 1, PAGE, 3 * PAGE - 1, 0]),
    at_offsets("vloxseg2ei16.v", 2, [8, PAGE - 2, 2 * PAGE - 4, 2 * PAGE - 3, 1, 3 * PAGE - 4], fields=2),
    at_offsets("vsuxseg2ei16.v", 2, [8, 6, 10, PAGE - 2, 8, 3 * PAGE - 4], fields=2),
]


def script(case: Case) -> list[str]:
    registers = registers_before()
    lines = ["1 enter", "1 map 0 1 rwx", f"1 map {BASE:x} {PAGES} rw"]
    memory = memory_before()
    lines += [f"1 poke {BASE + at:x} {memory[at : at + 64].hex()}" for at in range(0, len(memory), 64)]
    lines += [f"1 vset v{number} {registers[number].hex()}" for number in range(8, 12)]
    if "ei" not in case.text:
        lines += [f"1 set x10 {case.addresses[0]:x}", f"1 set x11 {case.stride:x}"]
        operands = "v8, (x10), x11"
    else:
        offsets = b"".join((it - BASE).to_bytes(2, "little") for it in case.addresses)
        lines += [f"1 set x10 {BASE:x}", f"1 vset v{OFFSETS} {offsets.ljust(VLENB, bytes(1)).hex()}"]
        operands = f"v8, (x10), v{OFFSETS}"
    if case.active is not None:
        lines.append(f"1 vset v0 {case.active.to_bytes(VLENB, 'little').hex()}")
        operands += ", v0.t"
    lines += [
        f"1 asm 0 vsetivli x0, {len(case.addresses)}, e{8 * case.size}, m1, tu, mu",
        f"1 asm 4 {case.text} {operands}",
        "1 setpc 0",
        "1 step 2",
    ]
    lines += [f"1 vreg v{number} 8" for number in range(8, 12)]
    return lines + [f"1 peek {BASE + at:x} 64" for at in range(0, len(memory), 64)]


@pytest.mark.parametrize("case", CASES, ids=lambda it: f"{it.text}-{CASES.index(it)}")
def test_scattered_elements_are_moved_in_order(case: Case, tmp_path: pathlib.Path) -> None:
    memory, registers = memory_before(), registers_before()
    stopped = moved(case, memory, registers)
    lines = script(case)
    replies = dict(zip(lines, answers(built(), [], lines, tmp_path), strict=True))
    assert ("fault" in replies["1 step 2"][0]) == (stopped is not None)
    for number in range(8, 12):
        shown = replies[f"1 vreg v{number} 8"][0].split()[2:]
        assert bytes.fromhex("".join(shown)) == registers[number]
    for at in range(0, len(memory), 64):
        peeked = replies[f"1 peek {BASE + at:x} 64"][0].split()[3]
        assert bytes.fromhex(peeked) == memory[at : at + 64]
