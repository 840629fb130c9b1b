"""The constants that preceding instructions put into scalar registers."""

from collections.abc import Collection, Mapping

from ..instructions.scalar_registers import scalar_written

BACK = 32  # the number of instructions before a place that are searched for the constant
_JUMPS = (0x67, 0x6F)  # opcodes of jalr and jal, after which other code has run
_OP_IMM, _OP_IMM_32, _LUI, _AUIPC = 0x13, 0x1B, 0x37, 0x17  # opcodes
_ADD, _SHIFT_LEFT = 0, 1  # funct3
_WORD = (1 << 64) - 1


def constant_before(words: Mapping[int, int], joins: Collection[int], place: int, register: int) -> int | None:
    """Return the constant in a scalar register before the instruction at an address; None if the code doesn't show it.

    The constant is from 0 to 2^64 - 1.

    words: the code's words by address
    joins: the addresses to which other instructions may jump, so that instructions before them show nothing
    """
    return _search(words, joins, place, register, place - 4 * BACK)


def _search(words: Mapping[int, int], joins: Collection[int], place: int, register: int, first: int) -> int | None:
    """Return the constant as `constant_before` does. first: the lowest address of an instruction to search"""
    if register == 0:
        return 0
    while place not in joins and place - 4 >= first:
        place -= 4
        word = words.get(place, 0)
        if word & 0x7F in (0, *_JUMPS):
            return None
        if scalar_written(word) == register:
            return _result(words, joins, place, first)
    return None


def _result(words: Mapping[int, int], joins: Collection[int], place: int, first: int) -> int | None:
    """Return the result of the instruction at an address; None if it isn't lui, auipc, or an addition or left shift of a constant.

    words, joins, first: as in `_search`
    """
    word = words[place]
    opcode, funct3, immediate = word & 0x7F, word >> 12 & 7, (word >> 20) - (word >> 31 << 12)
    upper = (word >> 12 << 12) - (word >> 31 << 32)
    if opcode in (_LUI, _AUIPC):
        return upper + (place if opcode == _AUIPC else 0) & _WORD
    is_sum = opcode in (_OP_IMM, _OP_IMM_32) and funct3 == _ADD
    is_shift = opcode == _OP_IMM and funct3 == _SHIFT_LEFT
    source = _search(words, joins, place, word >> 15 & 31, first) if is_sum or is_shift else None
    if source is None:
        return None
    if is_shift:
        return source << (word >> 20 & 63) & _WORD
    total = source + immediate
    if opcode == _OP_IMM_32:
        total = (total & 0xFFFFFFFF) - ((total >> 31 & 1) << 32)
    return total & _WORD
