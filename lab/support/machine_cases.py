"""Random words and vector states, and what the machine says of them."""

import functools
import pathlib
import random
import subprocess
from collections.abc import Iterator
from dataclasses import dataclass

from vecmon_lab.instructions.table import instruction_table
from vecmon_lab.instructions.words import CONTROL_REGISTERS, LOAD_FP, OP_V, STORE_FP, SUPPORTED, SYSTEM
from vecmon_lab.machine.answers import ControlRegisters

CODE = 0x10000
SET_TYPE, SET_VSTART = 0x80A5F057, 0x00861073  # vsetvl x0, x11, x10; csrrw x0, vstart, x12


@functools.cache
def encodings() -> list[tuple[str, str]]:
    """The names of the manual's table of instructions, each with its 32 bits, where `-` is a bit of an operand."""
    return [(row.name, row.bits) for row in instruction_table().values()]


def fixed_bits(bits: str) -> tuple[int, int]:
    """Which bits an encoding fixes, and what they are."""
    return int(bits.replace("0", "1").replace("-", "0"), 2), int(bits.replace("-", "0"), 2)


def with_operands(bits: str, operands: int) -> int:
    """The word of an encoding, with the bits of a number where it has those of operands."""
    mask, value = fixed_bits(bits)
    return value | operands & ~mask & 0xFFFFFFFF


@dataclass(frozen=True)
class Case:
    """A word, and the state in which it executes: the arguments of vsetvl, and the value written to vstart."""

    word: int
    vtype: int
    length: int
    vstart: int


def random_case(draws: random.Random) -> Case:
    """A case of mostly vector words in mostly supported states."""
    vtype = draws.choice(SUPPORTED) if draws.randrange(10) else draws.getrandbits(draws.choice((6, 8, 64)))
    vstart = draws.choice((0, 0, 0, draws.randrange(1, 4), draws.randrange(256)))
    return Case(_random_word(draws), vtype, draws.randrange(1, 40), vstart)


def _random_word(draws: random.Random) -> int:
    """A word of an encoding with random operands, one with a bit changed, or one wholly random."""
    kind = draws.randrange(16)
    if kind == 0:
        return with_operands(draws.choice(encodings())[1], draws.getrandbits(32))
    if kind == 1:
        number = draws.choice(CONTROL_REGISTERS) << 20
        return with_operands(draws.choice(_encodings_of(SYSTEM)), number | draws.choice((0, draws.getrandbits(20))))
    if kind == 2:
        return draws.getrandbits(32) | draws.choice((0, 3, 3, 3))
    opcode = draws.choice((OP_V, OP_V, OP_V, LOAD_FP, STORE_FP))
    one_field = [bits for bits in _encodings_of(opcode) if bits.startswith("000")]
    listed = one_field if opcode != OP_V and draws.randrange(4) == 0 else _encodings_of(opcode)
    word = with_operands(draws.choice(listed), _random_registers(draws) | draws.getrandbits(1) << 25)
    changed: int = 1 << draws.choice((*range(7), *range(12, 32)))
    return word if kind < 13 else word ^ changed


@functools.cache
def _encodings_of(opcode: int) -> list[str]:
    return [bits for _, bits in encodings() if int(bits[-7:], 2) == opcode and "-" in bits]


def _random_registers(draws: random.Random) -> int:
    """Three registers at their places in a word, mostly near each other and near a multiple of 8."""
    base = draws.randrange(0, 32, 8)
    numbers = [base + draws.choice((0, 0, 1, 2, 4)) if draws.randrange(5) else draws.randrange(32) for _ in range(3)]
    return numbers[0] << 20 | numbers[1] << 15 | numbers[2] << 7


def _lines(case: Case) -> Iterator[str]:
    yield f"1 set x10 {case.vtype:x}"
    yield f"1 set x11 {case.length:x}"
    yield f"1 set x12 {case.vstart:x}"
    yield f"1 poke {CODE + 8:x} {case.word.to_bytes(4, 'little').hex()}"
    yield f"1 setpc {CODE:x}"
    yield "1 step 2"
    yield "1 vcsr"
    yield "1 step 1"


def view_of(answer: str) -> ControlRegisters:
    """The view in an answer to `vcsr`, with or without the user's digit."""
    values = dict(word.split("=") for word in answer.split() if "=" in word)
    return ControlRegisters(vtype=int(values["vtype"], 16), vstart=int(values["vstart"]))


def machine_says(program: pathlib.Path, cases: list[Case]) -> list[tuple[ControlRegisters, str]]:
    """The state in which the machine executes each case's word, and its answer to that step, in one process.

    Programs may not write the page of the code, so that no store changes it.
    """
    resident = b"".join(word.to_bytes(4, "little") for word in (SET_TYPE, SET_VSTART)).hex()
    start = ["1 enter", f"1 map {CODE:x} 1 rx", f"1 poke {CODE:x} {resident}"]
    script = "\n".join([*start, *(line for case in cases for line in _lines(case))]) + "\n"
    completed = subprocess.run([program], input=script.encode(), stdout=subprocess.PIPE, check=True)
    answers = completed.stdout.decode().splitlines()[len(start) :]
    assert len(answers) == 8 * len(cases)
    return [(view_of(answers[at + 6]), answers[at + 7]) for at in range(0, len(answers), 8)]
