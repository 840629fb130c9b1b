"""The tables of words, compared with the list of instructions in both directions. No program is run here."""

import itertools
import random
from collections.abc import Iterator

from support.machine_cases import encodings, fixed_bits, with_operands
from vecmon_lab.instructions.words import LOAD_FP, OP_V, STORE_FP, SYSTEM, NoInstruction, decode
from vecmon_lab.tables.table import read_table

MISC_MEM = 0x0F
READS_VSTART = 0x008 << 20


def test_tables_cover_every_instruction() -> None:
    draws = random.Random(597)
    assert len(encodings()) >= 597
    assert list(dict.fromkeys(fault for name, bits in encodings() * 10 for fault in _faults(name, bits, draws))) == []


def _faults(name: str, bits: str, draws: random.Random) -> Iterator[str]:
    """The differences between the tables and an instruction, by one of its words."""
    opcode = int(bits[-7:], 2)
    is_operation = opcode == OP_V and not name.startswith("vset")
    word = with_operands(bits, READS_VSTART if opcode == SYSTEM else draws.getrandbits(32))
    try:
        instruction = decode(word)
    except NoInstruction as error:
        yield f"{'operations' if is_operation else 'words'}.txt lacks {name}: {error}"
    except KeyError as error:
        yield f"shapes.txt lacks {error}, which {name} has"
    else:
        if is_operation and not (instruction and name.startswith(instruction.name)):
            yield f"operations.txt has {instruction.name if instruction else 'nothing'} where {name} is"


def test_every_shape_belongs_to_instruction() -> None:
    named = {shape for *_, shape, _ in read_table("operations")} | {kind for _, kind, _ in read_table("words")}
    for_new_ones = {"same source"}  # as docs/ADDING.md says
    assert {name for name, *_ in read_table("shapes")} - named <= for_new_ones


def test_word_is_instruction_exactly_if_encoding_matches() -> None:
    """Except accesses of control registers, which only some numbers have, and fences, with only one encoding."""
    by_place: dict[int, list[tuple[int, int]]] = {}
    for _, bits in encodings():
        mask, value = fixed_bits(bits)
        for funct3 in range(8):
            if (value ^ funct3 << 12) & mask & 0x7000 == 0:
                by_place.setdefault(value & 0x7F | funct3 << 12, []).append((mask, value))
    for word in _places():
        fits = any(word & mask == value for mask, value in by_place.get(word & 0x707F, ()))
        assert _is_instruction(word) == fits, f"{word:08x}"


def _places() -> Iterator[int]:
    """Words with all opcodes, funct3 and funct7, and all numbers in another field that distinguishes instructions."""
    for opcode, funct3, funct7 in itertools.product(range(128), range(8), range(128)):
        place = opcode | funct3 << 12 | funct7 << 25
        if opcode == OP_V:
            yield from (place | vs2 << 20 | vs1 << 15 for vs2 in (0, 1) for vs1 in range(32))
        elif opcode in (LOAD_FP, STORE_FP) or (opcode == SYSTEM and funct3 == 0):
            yield from (place | number << 20 for number in range(32))
        elif opcode not in (SYSTEM, MISC_MEM):
            yield place


def _is_instruction(word: int) -> bool:
    try:
        decode(word)
    except NoInstruction:
        return False
    return True
