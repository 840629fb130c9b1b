"""An example of each family of vector instructions, executed by `vecmon`: `python3 -m support.meaning_examples`, in lab/, stores them.

Each has eight elements of 32 bits: the registers and the memory that the instruction reads or writes, before and after it.
"""

import pathlib
import re
from collections.abc import Iterator

from vecmon_lab.guest.changes import Registers, Stepper
from vecmon_lab.guest.guest import Guest
from vecmon_lab.instructions.accesses import REGISTER_BYTES
from vecmon_lab.instructions.table import Row, instruction_table
from vecmon_lab.instructions.words import VECTOR_ACCESSES
from vecmon_lab.machine.answers import elements_in
from vecmon_lab.machine.program import find_program
from vecmon_lab.machine.session import Session
from vecmon_lab.meanings.describe import EXAMPLES, sample
from vecmon_lab.meanings.record import Record, instruction_records

HEAD = """# Examples of vector instructions under e32, m1 and vl 8: the family, the instruction, and what it reads and writes before and after
# it: signed elements from 0 on, of masks bits. `python3 -m support.meaning_examples`, in lab/, makes this table by `vecmon`.
#
"""
CODE, DATA, ELEMENTS = 0x10000, 0x20000, 8
PLACES = {"vd": "v8", "vs1": "v6", "vs2": "v4", "rd": "x5", "rs1": "x11", "rs2": "x12", "imm": "3", "uimm": "3"}
VALUES = {
    4: [1, -2, 3, -4, 5, -6, 7, -8],
    6: [2, 0, 5, 3, 7, 1, 6, 4],
    8: [100, 101, 102, 103, 104, 105, 106, 107],
}
MASKS = {0: 0b10101010, 4: 0b10010110, 6: 0b11001100, 8: 0b00001111}
OFFSETS = [28, 0, 4, 24, 8, 20, 12, 16]
NUMBERS = {"x10": DATA, "x11": 3, "x12": 8}


def made(program: pathlib.Path) -> str:
    """The table of examples."""
    with Session(program) as session:
        guest = Guest(session)
        rows = [example for record in instruction_records() for example in _example(guest, record)]
    return HEAD + "".join(f"{'  '.join(row)}\n" for row in rows)


def _example(guest: Guest, record: Record) -> Iterator[tuple[str, ...]]:
    """Yield the row of a family, if it is one of vector instructions with elements."""
    name = next((name for name in record.members if re.search("e32|ei32|vf2", name)), record.members[0])
    row = instruction_table()[name]
    if sample(row) is None:
        return
    text = f"{name} {_operands(row)}"
    stepper = _set_up(guest, row, text)
    before = _shown(stepper.registers, guest, row)
    retired = stepper.step()
    assert retired.stop is None, f"{text}: {retired.stop}"
    after = _shown(stepper.registers, guest, row)
    numbers = [
        f"{name}: {NUMBERS[name]:#x}" if name == "x10" else f"{name}: {NUMBERS[name]}"
        for name in NUMBERS
        if name in text
    ]
    changed = [each for each in after if each not in before]
    yield record.name, text, "; ".join([*numbers, *before]), "; ".join(changed)


def _operands(row: Row) -> str:
    """The operands of an instruction without a mask."""
    text = row.operands.replace("[, v0.t]", "").replace("(rs1)", "(x10)")
    return re.sub(r"\b(?!v0|x10)[a-z]+\d?\b", lambda found: PLACES[found[0]], text)


def _set_up(guest: Guest, row: Row, text: str) -> Stepper:
    """The state before: a new machine with an instruction that sets the type, and the one of the example."""
    guest.ask(
        "leave", "enter", f"map {CODE:x} 1 rwx", f"map {DATA:x} 1 rw", f"asm {CODE:x} vsetivli x0, 8, e32, m1, tu, mu"
    )
    data = b"".join((10 * number).to_bytes(4, "little") for number in range(1, 33))
    registers = [f"set {name} {value:x}" for name, value in NUMBERS.items()]
    instruction = sample(row)
    assert instruction
    vectors = {0: MASKS[0].to_bytes(32, "little")}
    for operand in instruction.operands:
        number = int(PLACES[operand.place][1:])
        width = 32 if operand.part is None and operand.eew > 1 else int((operand.part or 1) * 32)
        values = OFFSETS if operand.noun == "index" and row.opcode in VECTOR_ACCESSES else VALUES[number]
        block = b"".join((value % (1 << width)).to_bytes(width // 8, "little") for value in values)
        block = MASKS[number].to_bytes(32, "little") if operand.eew == 1 else block
        fields = len(operand.registers) // operand.group
        for field in range(fields):
            vectors |= {
                number + field + at: block[32 * at : 32 * at + 32].ljust(32, b"\0")
                for at in range(2 if width == 64 else 1)
            }
    lines = [f"vset v{number} {block.hex()}" for number, block in vectors.items()]
    guest.ask(
        f"asm {CODE + 4:x} {text}", f"poke {DATA:x} {data.hex()}", f"setpc {CODE:x}", "step 1", *registers, *lines
    )
    stepper = Stepper(guest)
    guest.pc = CODE + 4
    return stepper


def _shown(registers: Registers, guest: Guest, row: Row) -> Iterator[str] | list[str]:
    """The operands' elements, the scalar destination, and the memory."""
    instruction, shown = sample(row), list[str]()
    assert instruction
    if row.operands.endswith(", v0"):
        shown.append(f"v0: {_bits(registers.v, 0)}")
    for operand in reversed(instruction.operands):
        number, width = int(PLACES[operand.place][1:]), int((operand.part or 1) * 32)
        for field in range(len(operand.registers) // operand.group):
            register = number + field
            block = registers.v[register * REGISTER_BYTES :][: width * ELEMENTS // 8]
            values = [value - (value >> width - 1 << width) for value in elements_in(bytes(block), width)]
            text = _bits(registers.v, register) if operand.eew == 1 else " ".join(map(str, values))
            shown.append(f"v{register}: {text}")
    if "rd" in row.fields():
        value = registers.x[5]
        shown.append(f"x5: {value - (value >> 63 << 64)}")
    if row.opcode in VECTOR_ACCESSES:
        data = elements_in(guest.peek(DATA, 64), 32)
        shown.append(f"memory: {' '.join(str(value - (value >> 31 << 32)) for value in data)}")
    return shown


def _bits(v: bytes | bytearray, register: int) -> str:
    return " ".join(str(v[register * REGISTER_BYTES] >> bit & 1) for bit in range(ELEMENTS))


if __name__ == "__main__":
    EXAMPLES.write_text(made(find_program()), "ascii")
