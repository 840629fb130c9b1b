"""Single instructions, each with a state to execute it in. Both are random, with a preference for boundary values.

A case depends only on its instruction, its number and the seed.
"""

import functools
import itertools
import random
from collections.abc import Sequence
from dataclasses import dataclass, field, replace
from fractions import Fraction

from ..instructions.accesses import base_address
from ..instructions.reasons import illegal_reasons
from ..instructions.reserved import registers_of_two_widths
from ..instructions.table import Row
from ..instructions.words import (
    CONTROL_REGISTERS,
    LOAD,
    LOAD_FP,
    OP_V,
    STORE,
    STORE_FP,
    SUPPORTED,
    SYSTEM,
    VECTOR_ACCESSES,
    Operand,
    decode,
)
from ..machine.answers import VILL, ControlRegisters

CODE, PC = 0x10000, 0x10800
"""The page of the code, and the address of the instruction."""

DATA, READ_ONLY, DATA_END = 0x20000, 0x21000, 0x22000
"""The limits of two pages of data. The second page is read-only."""

_LOADS, _STORES = (LOAD, LOAD_FP), (STORE, STORE_FP)
PLACES = {
    "rd": 7,
    "vd": 7,
    "rs1": 15,
    "vs1": 15,
    "rs2": 20,
    "vs2": 20,
    "csr": 20,
    "vtypei": 20,
}  # the lowest bit of each field
_MASKABLE = "[, v0.t]"
_REACH = 512  # the bytes that a strided or indexed access spans
_SCALAR_CASES, _TROUBLES, _DRAWS = (
    24,
    8,
    40,
)  # cases of a scalar instruction; added cases that fault; the most draws of a word
_WILD = (0, 8, 0x7FC, 1 << 31, 1 << 40, (1 << 48) - 4, 1 << 48, (1 << 64) - 4096, (1 << 64) - 4)


@dataclass(frozen=True)
class Kind:
    """The purpose of a case: its vector type, and whether it is masked, illegal, or accesses memory outside of its pages."""

    vtype: int
    is_masked: bool = False
    is_illegal: bool = False
    is_out_of_range: bool = False


@dataclass
class Case:
    """A word to execute, and the state before it. Registers and bytes of memory that aren't listed are 0.

    x, v: the values of scalar registers and the bytes of vector registers, by the register's number
    memory: runs of bytes, by the address of the first byte
    """

    word: int
    control: ControlRegisters
    x: dict[int, int] = field(default_factory=dict)
    v: dict[int, bytes] = field(default_factory=dict)
    memory: dict[int, bytes] = field(default_factory=dict)

    def register(self, name: str) -> int:
        """Return the number of the register that a field of the word has. name: the field, such as `rs1`"""
        return self.word >> PLACES[name] & 31


class _Draws(random.Random):
    """Random numbers for cases."""

    def scalar(self) -> int:
        """Return 64 bits: a small number, any number, or one at the limit of a width."""
        edge = 1 << self.choice((7, 8, 15, 16, 31, 32, 63, 64))
        values = (self.randrange(70), self.getrandbits(64), self.getrandbits(32), edge, edge - 1, -edge, -edge - 1, -1)
        return self.choice(values) % (1 << 64)

    def elements(self, eew: int, limit: int, is_offset: bool = False) -> bytes:
        """Return random bytes for a vector register.

        A random choice decides whether all bits are random, or whether the elements are below `limit`, have the smallest or largest
        values of their width, or are all equal.

        eew: the width of an element in bits
        is_offset: whether the elements are offsets of addresses. If they are, all of them are below `limit`
        """
        eew = min(64, max(8, eew))  # a mask's is 1, and an illegal instruction's may be out of range
        count, edges = 256 // eew, (0, 1, (1 << eew) - 1, 1 << eew - 1, (1 << eew - 1) - 1)
        small = [self.randrange(min(limit, 1 << eew)) for _ in range(count)]
        chosen = self.choice((small, self.choices(edges, k=count), [self.choice(edges)] * count))
        data = b"".join(element.to_bytes(eew // 8, "little") for element in (small if is_offset else chosen))
        return data if is_offset else self.choice((self.randbytes(32), data))

    def stride(self, vl: int) -> int:
        """Return a random stride in bytes, with which `vl` elements span at most _REACH bytes. It may be negative."""
        limit = _REACH // max(1, vl)
        return self.choice(
            (0, min(limit, 8), self.randrange(-limit, limit + 1), self.randrange(-limit, limit + 1) & ~7)
        )

    def field(self, row: Row, name: str, step: int) -> tuple[int, int]:
        """Return a number with as many ones as a field has bits, and a random value for the field.

        row: the instruction; name: the field
        step: if the field names a vector register, the register's number is a multiple of `step`
        """
        if name == "csr":
            return 0xFFF, self.choice((*CONTROL_REGISTERS, *CONTROL_REGISTERS, *CONTROL_REGISTERS, 0x300, 0x7C0))
        if name == "vtypei":
            return 0x3FF, self.choice((*SUPPORTED, self.getrandbits(8), self.getrandbits(10)))
        if name.startswith("v"):
            return 31, self.randrange(0, 32, step)
        return 31, self.choice((self.randrange(1, 32),) * 3 + (0,) * (not touches_memory(row)))


def touches_memory(row: Row) -> bool:
    """Return whether an instruction loads, stores or calls. Its cases have pages of data."""
    return row.opcode in _LOADS + _STORES or row.name == "ecall"


@functools.cache
def plan(row: Row, seed: int) -> list[Kind]:
    """Return the purposes of an instruction's cases, in random order.

    A vector instruction has a case for each vector type under which it is legal, without and with a mask. A vset, and an
    instruction for control registers, has one for each vector type and for vill; other instructions have _SCALAR_CASES. All have
    _TROUBLES more cases, which are illegal or access memory outside of their pages.
    """
    draws, types, masks = _Draws(f"{seed} {row.name}"), [VILL] * _SCALAR_CASES, (False, True)
    if _is_vector(row):
        types = [vtype for vtype in SUPPORTED if not illegal_reasons(*_draw_word(row, Kind(vtype), _Draws(0), [8]))]
    elif row.opcode in (OP_V, SYSTEM) and row.operands:
        types = [*SUPPORTED, VILL]
    kinds = [Kind(vtype, masked) for masked in masks[: 1 + (_MASKABLE in row.operands)] for vtype in types]
    for number in range(_TROUBLES):
        is_out_of_range = touches_memory(row) and number % 4 != 0
        vtype = draws.choice(types if is_out_of_range else [*SUPPORTED, VILL])
        kinds.append(Kind(vtype, draws.choice(masks), not is_out_of_range, is_out_of_range))
    draws.shuffle(kinds)
    return kinds


def draw_case(row: Row, number: int, seed: int) -> Case:
    """Return one case of an instruction. The same arguments always give the same case.

    number: the case's number, from 0 on. The purposes of `plan` repeat if there are more cases than purposes
    """
    kinds, draws = plan(row, seed), _Draws(f"{seed} {row.name} {number}")
    kind = kinds[number % len(kinds)]
    word, view = _draw_word(row, kind, draws, (1, 2, 4, 8))
    policies = 0 if kind.vtype == VILL else draws.randrange(4) << 6
    limit = view.vlmax
    vl = draws.choice((limit, limit, min(limit, 1), draws.randrange(limit + 1), draws.randrange(limit + 1)))
    case = Case(word, ControlRegisters(vl, kind.vtype | policies, view.vstart, draws.randrange(4), draws.randrange(2)))
    operands = _operands(row, word, view)
    _fill_scalars(case, row, draws)
    _fill_vectors(case, operands, draws)
    if touches_memory(row):
        _fill_memory(case, row, operands, kind.is_out_of_range, draws)
    return case


def moved(case: Case, row: Row, base: int) -> Case:
    """Return a case with `base` added to the addresses of its memory, and to the register that has the address of its access."""
    address = 11 if row.name == "ecall" else case.register("rs1")
    x = case.x | ({address: (case.x[address] + base) % (1 << 64)} if touches_memory(row) else {})
    return replace(case, x=x, memory={base + first: data for first, data in case.memory.items()})


def without_choices(case: Case, row: Row) -> Case:
    """Return a case with vstart 0, and with an address and a stride that are multiples of 8.

    The standard then defines the results of more cases.
    """
    x = dict(case.x)
    if row.opcode in _LOADS + _STORES:
        address = base_address(case.word, [x.get(number, 0) for number in range(32)]) or 0
        x[case.register("rs1")] = (x.get(case.register("rs1"), 0) - address % 8) % (1 << 64)
    if _is_strided(row):
        x[case.register("rs2")] = x.get(case.register("rs2"), 0) & ~7
    x.pop(0, None)
    return replace(case, control=replace(case.control, vstart=0), x=x)


def _is_vector(row: Row) -> bool:
    """Return whether a row is a vector instruction other than a vset."""
    return row.opcode in VECTOR_ACCESSES or row.opcode == OP_V and not row.name.startswith("vset")


def _is_strided(row: Row) -> bool:
    """Return whether a row is a vector load or store whose stride is in a scalar register."""
    return row.opcode in VECTOR_ACCESSES and "rs2" in row.fields()


def _operands(row: Row, word: int, view: ControlRegisters) -> list[Operand]:
    """Return the vector register operands of a word, and v0 as the last one if the word is masked; none for other instructions.

    view: the state with the vector type
    """
    instruction = decode(word, view.sew, view.lmul) if _is_vector(row) else None
    mask = [Operand("mask", 1, Fraction(1), True, 1, range(1))] if instruction and instruction.is_masked else []
    return instruction.operands + mask if instruction else []


def _draw_word(row: Row, kind: Kind, draws: _Draws, steps: Sequence[int]) -> tuple[int, ControlRegisters]:
    """Return a random word of a row, and a state in which the word is legal or illegal, as the case's purpose requires.

    After _DRAWS draws without success, a pair is returned even if it doesn't have the required legality. A legal word that
    `_is_odd` excludes is never returned.

    steps: for each draw, one of these numbers is chosen, and the numbers of vector registers are multiples of it
    """
    for number in itertools.count(1):
        vlmax = ControlRegisters(vtype=kind.vtype).vlmax
        starts = (0, 0, 0, 0, 0, 0, draws.randrange(4), draws.randrange(vlmax + 1), draws.randrange(256))
        view = ControlRegisters(vtype=kind.vtype, vstart=draws.choice(starts))
        word, step = draws.getrandbits(32), draws.choice(steps)
        if _MASKABLE in row.operands:
            word = word & ~(1 << 25) | (not kind.is_masked) << 25
        for name in filter(PLACES.__contains__, row.fields()):
            mask, value = draws.field(row, name, step)
            word = word & ~(mask << PLACES[name]) | value << PLACES[name]
        word = row.word(word)
        is_illegal = bool(illegal_reasons(word, view))
        is_wanted = is_illegal == kind.is_illegal or number >= _DRAWS
        if is_wanted and (is_illegal or not _is_odd(row, word, view)):
            break
    return word, view


def _is_odd(row: Row, word: int, view: ControlRegisters) -> bool:
    """Return whether a legal word is excluded from the cases.

    It is excluded if its stride and its base address are in the same register, or if its encoding is reserved.
    """
    stride_is_base = _is_strided(row) and not (word >> 15 ^ word >> 20) & 31
    instruction = decode(word, view.sew, view.lmul) if _is_vector(row) else None
    return stride_is_base or instruction is not None and bool(registers_of_two_widths(instruction))


def _fill_scalars(case: Case, row: Row, draws: _Draws) -> None:
    """Set the scalar registers that a case's instruction names to random values."""
    for name in ("rs1", "rs2", "rd"):
        if name in row.fields():
            case.x[case.register(name)] = draws.scalar()
    if row.name in ("vsetvl", "vsetvli"):
        case.x[case.register("rs1")] = draws.choice((draws.randrange(300), draws.randrange(20), draws.scalar()))
    if row.name == "vsetvl":
        case.x[case.register("rs2")] = draws.choice((*SUPPORTED, *SUPPORTED, draws.getrandbits(8), draws.scalar()))
    if row.name == "ecall":
        case.x |= {17: draws.choice((64, 64, 64, 93, 94, draws.getrandbits(11))), 10: draws.choice((1, 1, 1, 2))}
        case.x[12] = draws.choice((0, 1, draws.randrange(300)))
    case.x.pop(0, None)


def _fill_vectors(case: Case, operands: list[Operand], draws: _Draws) -> None:
    """Set v0, the registers next to the first operand's, and the registers of all operands to random values."""
    if operands:
        first = operands[0].registers
        case.v = {number: draws.randbytes(32) for number in (0, first.start - 1, first.stop) if 0 <= number < 32}
    for operand in operands:
        is_offset = operand.noun == "index" and case.word & 0x7F in VECTOR_ACCESSES
        limit = _REACH if is_offset else case.control.vlmax + 2
        case.v |= {n: draws.elements(operand.eew, limit, is_offset) for n in operand.registers if n < 32}


def _fill_memory(case: Case, row: Row, operands: list[Operand], is_out_of_range: bool, draws: _Draws) -> None:
    """Set the register with the address of a case's access, set the stride if there is one, and add bytes of memory around the address.

    is_out_of_range: whether the address is next to a limit of the data pages, or far outside of them
    """
    base = 11 if row.name == "ecall" else case.register("rs1")
    distance, before, after = 0, 0, 256
    if _is_strided(row):
        stride = draws.stride(case.control.vl)
        case.x[case.register("rs2")] = stride % (1 << 64)
        before, after = max(0, -stride * case.control.vl), max(0, stride * case.control.vl) + 64
    elif any(operand.noun == "index" for operand in operands):
        after = _REACH + 64
    elif "imm" in row.fields():
        number = case.word >> 20 if row.opcode in _LOADS else case.word >> 25 << 5 | case.word >> 7 & 31
        distance, after = number - (number >> 11 << 12), 8
    end = READ_ONLY if row.opcode in _STORES else DATA_END
    address = draws.randrange(DATA + before, end - after) & ~draws.choice((0, 0, 7))
    if is_out_of_range:
        edge = draws.choice((DATA, end, end, end)) - draws.randrange(1, 2 + (after >> draws.randrange(5)))
        address = draws.choice((edge, edge, edge, draws.choice(_WILD)))
    case.x[base] = (address - distance) % (1 << 64)
    first, last = max(DATA, address - before - 16), min(DATA_END, address + after + 16)
    if first < last:
        case.memory[first] = draws.randbytes(last - first)
