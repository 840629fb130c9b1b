"""The texts of values that a client shows, and the numbers that a user types in their place."""

import re

from .. import LabError

_NUMBER = re.compile(r"[+-]?(?:0[xX][0-9a-fA-F]+|0[bB][01]+|[0-9]+)")
_MAX_LETTERS = 100  # of a number; a longer one has more than 64 bits
_CHARACTER = re.compile(r"'(\\?.)'")


def signed(value: int, bits: int) -> int:
    """Return the signed number that an unsigned number represents in two's complement. bits: the width of both"""
    return value - (1 << bits) if value >> bits - 1 & 1 else value


def digits(value: int, bits: int) -> str:
    """Return a number in hexadecimal, after `0x`. bits: the number's width

    Leading zeros are written, except in numbers of 64 bits.
    """
    if bits == 64:
        return f"{value & (1 << 64) - 1:#x}"
    return f"0x{value & (1 << bits) - 1:0{max(1, bits // 4)}x}"


def number_text(value: int, bits: int, is_hex: bool) -> str:
    """Return the text of an element or a register: the signed number, then the hexadecimal digits in parentheses. A mask bit is 0 or 1.

    value: the unsigned value; bits: the number of its bits; is_hex: whether only the hexadecimal digits are written
    """
    if bits == 1:
        return f"{value}"
    return digits(value, bits) if is_hex else f"{signed(value, bits)} ({digits(value, bits)})"


def typed_text(kind: str, value: int, is_hex: bool) -> str:
    """Return the text of a number of a C type, such as `5` or `97 'a'`.

    kind: `i` (signed), `u` (unsigned), `c` (char) or `x` (pointer), followed by the number of bits, such as `i32`
    value: the unsigned value; is_hex: whether numbers are written in hexadecimal, as pointers always are
    """
    bits = int(kind[1:])
    if kind[0] == "x" or is_hex:
        return digits(value, bits) if kind[0] != "x" else f"{value:#x}"
    number = signed(value, bits) if kind[0] in "ic" else value
    if kind[0] == "c" and 32 <= number < 127:
        return f"{number} '{chr(number)}'"
    return f"{number}"


def read_number(text: str, bits: int) -> int:
    """Return the number, or the code of the character, that a user typed, as an unsigned number of at most `bits` bits.

    Text after a number is ignored, so that a user can type a value as it is shown: `-1 (0xff)`. Raises LabError if the text is neither a
    number nor a character, or if the number needs more bits.
    """
    word, *_ = [*text.strip().split(), ""]
    if character := _CHARACTER.fullmatch(text.strip()):
        return ord(character[1][-1]) & (1 << bits) - 1
    if len(word) > _MAX_LETTERS or not _NUMBER.fullmatch(word):
        raise LabError(f"{text.strip()[:_MAX_LETTERS]} is no number: 12, -3 and 0xff are some")
    number = int(word, 10 if re.fullmatch("[+-]?[0-9]+", word) else 0)
    if not -(1 << bits - 1 if bits > 1 else 0) <= number < 1 << bits:
        raise LabError(f"{word} needs more than {bits} bit{'s' * (bits > 1)}")
    return number & (1 << bits) - 1
