"""Pseudo-instructions: the expansion of each, as in stock assemblers, as templates: texts of instructions with holes.

A hole is {N:WHAT}, where N is the number of an operand, from 0 on. WHAT decides which text replaces the hole:

- `label` or `symbol`: the distance to the operand
- `label.high` or `label.low`: the part of this distance that auipc or addi has
- `imm-1`: the operand minus 1
- `word`: the operand as a word of 32 bits
- all others: the operand in the machine's syntax
"""

import functools
import re
from collections.abc import Callable, Sequence

from ..tables.table import read_table
from .line import Operand, Token, check_count
from .names import INSTRUCTION_NAMES
from .operands import shape

_LABEL_LAST = ("beq", "bne", "blt", "bge", "bltu", "bgeu", "jal")
_ROWS = [
    (form.split()[0], re.split(",? ", form)[1:], texts) for form, *texts in read_table("aliases") + read_table("pseudo")
]
_Form = tuple[list[str], list[str]]
"""A row of the tables: the kinds of its operands, and the texts of its expansion."""
_FORMS: dict[str, list[_Form]] = {}
for _name, _form, _texts in _ROWS:
    _FORMS.setdefault(_name, []).append((_form, _texts))
_BY_VALUE = {name for name, form, _ in _ROWS if "0" in form}
"""The names whose form depends on the value of a constant."""
_LITERALS = ("v0", "v0.t")
_SHAPES = {"scalar": "scalar", "indirect": "indirect", "number": "number", "symbol": "number"}
_FENCE_SETS = re.compile("i?o?r?w?")

Operation = tuple[str, int]
"""An instruction in a sequence that makes a constant: its name and its immediate. Its source is the result of the one before it."""


def templates(name: Token, operands: list[Operand], constant: Callable[[Operand], int]) -> list[str]:
    """Return the templates of an instruction or pseudo-instruction, one for each machine instruction. Raises SourceError.

    name: the mnemonic; constant: returns the value of an operand, on which the expansion may depend
    """
    if name.text == "li":
        check_count(name, operands, 2)
        return _load_constant(operands[1], constant(operands[1]))
    if name.text == "fence" and operands:
        return [_fence(name, operands)]
    forms = _FORMS.get(name.text, [])
    if found := _form_of(name.text, operands, constant) if forms else None:
        form, texts = found
        if texts[0].startswith("error at "):
            place = int(texts[0].removeprefix("error at "))
            raise (operands[place - 1][0] if place else name).error(texts[1])
        first, *others = [_filled(text, tuple(form)) for text in texts]
        return [first + (f", {{{len(form)}:v0.t}}" if len(operands) > len(form) else ""), *others]
    if forms and name.text not in INSTRUCTION_NAMES:
        check_count(name, [operand for operand in operands if operand[0].text != "v0.t"], len(forms[-1][0]))
    last = "label" if name.text in _LABEL_LAST else "operand"
    holes = [f"{{{place}:{last if place == len(operands) - 1 else 'operand'}}}" for place in range(len(operands))]
    return [f"{name.text} {', '.join(holes)}".rstrip()]


def _form_of(name: str, operands: list[Operand], constant: Callable[[Operand], int]) -> _Form | None:
    """Return the first row for a name that takes these operands, or None.

    Raises SourceError if an operand must be a number and isn't one. constant: returns the value of an operand
    """
    words = [operand[0].text if len(operand) == 1 else "" for operand in operands]
    shapes = tuple(shape(operand) for operand in operands)
    if name not in _BY_VALUE:
        return _form_of_pattern(name, tuple(map(_pattern(words), words)), shapes)
    values = [functools.partial(constant, operand) for operand in operands]
    return next((form for form in _FORMS[name] if _fits(form[0], words, shapes, values)), None)


def _pattern(words: list[str]) -> Callable[[str], str]:
    """Return a function that reduces one of these words to what rows distinguish: v0 and v0.t, and which words are equal.

    words: the texts of operands that have one token, and "" for other operands
    """
    return lambda word: word if not word or word in _LITERALS else f"{words.index(word)}"


@functools.lru_cache(maxsize=4096)
def _form_of_pattern(name: str, pattern: tuple[str, ...], shapes: tuple[str, ...]) -> _Form | None:
    """Return the first row for a name that takes operands with these patterns and shapes, or None.

    pattern: the results of `_pattern` for each operand; shapes: the results of `shape`
    """
    return next((form for form in _FORMS[name] if _fits(form[0], pattern, shapes, ())), None)


def _fits(form: list[str], words: Sequence[str], shapes: Sequence[str], values: Sequence[Callable[[], int]]) -> bool:
    """Return whether a row takes operands with these words and shapes. Raises SourceError if one must be a number and isn't.

    form: the kinds of the row's operands; words: as in `_pattern`, or its results; shapes: the results of `shape`
    values: a function for each operand, which returns the operand's value
    """
    more = words[len(form) :]
    if form == ["*"]:
        return True
    if len(words) < len(form) or more and ([*more] != ["v0.t"] or "v0.t" in form):
        return False
    meant = dict(zip(form, words)) | dict(zip(_LITERALS, _LITERALS))
    if any(_SHAPES.get(name, "") not in ("", kind) for name, kind in zip(form, shapes)):
        return False
    return all(values[at]() == 0 if name == "0" else words[at] == meant[name] for at, name in enumerate(form))


def _fence(name: Token, operands: list[Operand]) -> str:
    """Return `.word` with the encoding of a fence. Raises SourceError.

    operands: the two sets, each with some of the letters i, o, r and w, in this order
    """
    check_count(name, operands, 2)
    word = 0x0000000F
    for operand, shift in zip(operands, (24, 20)):
        text = operand[0].text
        if len(operand) > 1 or not _FENCE_SETS.fullmatch(text):
            raise operand[0].error(
                f"{name.text} takes two sets, each of the letters i, o, r and w in this order, as rw"
            )
        word |= sum(bit << shift for letter, bit in zip("iorw", (8, 4, 2, 1)) if letter in text)
    return f".word {word:#010x}"


@functools.lru_cache(maxsize=1024)
def _filled(text: str, form: tuple[str, ...]) -> str:
    """Return a text of an expansion with a hole in place of each operand. form: the kinds of the row's operands"""
    for place, operand in enumerate(form):
        text = re.sub(rf"(?<!{{)\b{operand}\b(?:\.\w+|-1)?", rf"{{{place}:\g<0>}}", text)
    return text


def _load_constant(operand: Operand, value: int) -> list[str]:
    if not -(1 << 63) <= value < 1 << 64:
        raise operand[0].error(f"{value} has more than 64 bits")
    texts, source = list[str](), "x0"
    for step, number in constant_steps(value):
        texts.append(f"{step} {{0:rd}}, {number}" if step == "lui" else f"{step} {{0:rd}}, {source}, {number}")
        source = "{0:rd}"
    return texts


def constant_steps(value: int) -> list[Operation]:
    """Return the instructions with which LLVM 19 makes a constant: the first of the shortest sequences that it considers.

    value: the constant, signed or unsigned, in 64 bits
    """
    value = _signed(value, 64)
    zeros = max(0, (value & -value).bit_length() - 1)  # trailing zero bits
    ways = [_plain_steps(value), _plain_steps(value >> zeros) + [("slli", zeros)]]
    if -32 <= value >> zeros < 32:
        ways.reverse()
    if value & 0x1800 == 0x1000 and value & 0x7FF:
        minimum = (value & 0x7FF) - 0x800
        ways.append(_plain_steps(_signed(value - minimum, 64)) + [("addi", minimum)])
    if value > 0:
        ways += _steps_with_leading_zeros(value)
    if value < -1:
        ways += [steps + [("xori", -1)] for steps in _steps_with_leading_zeros(~value)]
    return min(ways, key=len)


def _plain_steps(value: int) -> list[Operation]:
    """Return the instructions that make the bits above the lowest 12, shift them left, and then add the lowest 12."""
    low = _signed(value, 12)
    rest, shift = _signed(value - low, 64), 0
    if _signed(value, 32) == value:
        steps: list[Operation] = [("lui", rest >> 12 & 0xFFFFF)] if rest else []
        add = "addiw" if rest else "addi"
    else:
        if _signed(rest, 32) != rest:
            shift = (rest & -rest).bit_length() - 1
            top = rest >> shift
            shift -= 12 if shift > 12 and _signed(top, 20) == top != _signed(top, 12) else 0
        steps = _plain_steps(rest >> shift) + ([("slli", shift)] if shift else [])
        add = "addi"
    return steps + ([(add, low)] if low or not steps else [])


def _steps_with_leading_zeros(value: int) -> list[list[Operation]]:
    """Return two sequences for a positive value. They make the value shifted left as far as possible, and then shift it back.

    The first one makes it with ones in the lowest bits, and the second one with zeros.
    """
    zeros = 64 - value.bit_length()
    shifted = value << zeros
    return [_plain_steps(_signed(top, 64)) + [("srli", zeros)] for top in (shifted | (1 << zeros) - 1, shifted)]


def _signed(value: int, bits: int) -> int:
    """Return the lowest `bits` bits of a value as a signed number."""
    value &= (1 << bits) - 1
    return value - (1 << bits) if value >> bits - 1 else value
