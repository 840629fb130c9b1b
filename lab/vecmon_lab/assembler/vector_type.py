"""Complete vector types for which a source doesn't name all four parts."""

from collections.abc import Sequence

from ..tables.table import read_table
from .line import Operand, SourceError, Token

_WORDS = dict((name, words.split()) for name, words in read_table("keywords"))["vset\\w*"]
PARTS = [[word for word in _WORDS if word in part] for part in (_WORDS[:4], _WORDS[4:11], _WORDS[11:13], _WORDS[13:])]
"""The words for each part of a vector type: the element width, the group multiplier, the tail policy and the mask policy."""

_DEFAULTS = ("e8", "m1", "tu", "mu")  # GNU as uses these for missing parts


def completed(name: Token, operands: Sequence[Operand]) -> tuple[str, SourceError] | None:
    """Return a template with all parts of the vector type, and a warning, for a vsetvli or vsetivli whose vector type lacks parts.

    Return None for other instructions, for complete vector types, and for operands that aren't parts in the right order.

    name: the instruction; operands: all its operands
    """
    given = [operand[0].text if len(operand) == 1 else "" for operand in operands[2:]]
    if name.text not in ("vsetvli", "vsetivli") or not 0 < len(given) < len(PARTS):
        return None
    places = [next((number for number, words in enumerate(PARTS) if word in words), -1) for word in given]
    if -1 in places or places != sorted({*places}):
        return None
    words = [
        f"{{{places.index(number) + 2}:operand}}" if number in places else _DEFAULTS[number] for number in range(4)
    ]
    return f"{name.text} {{0:operand}}, {{1:operand}}, {', '.join(words)}", _warning(name, operands[2:], places)


def _warning(name: Token, given: Sequence[Operand], places: Sequence[int]) -> SourceError:
    """Return the warning about missing parts. It points at the part next to the first missing one, and its fixes replace this part.

    given: the parts in the source; places: for each of them, which of the four parts it is, from 0 on
    """
    missing = [_DEFAULTS[number] for number in range(4) if number not in places]
    first = min(number for number in range(4) if number not in places)
    token = given[max(first - 1, 0)][0]
    after = [_DEFAULTS[number] for number in range(first, 4) if not any(number <= place for place in places)] or [
        _DEFAULTS[first]
    ]
    fixes = [", ".join([token.text, *after])] if first else [f"{_DEFAULTS[0]}, {token.text}"]
    if after == ["tu", "mu"]:
        fixes.append(f"{token.text}, ta, ma")
    message = f"a vector type has four parts: GNU as takes {', '.join(missing)} for what is missing in {name.text}, clang refuses it"
    return token.error(message, fixes)
