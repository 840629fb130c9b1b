"""The names of instructions and pseudo-instructions, and the nearest of them for a name that doesn't exist."""

import functools
from collections.abc import Set
from difflib import SequenceMatcher, get_close_matches
from os.path import commonprefix

from ..instructions.table import instruction_table
from ..tables.absent import absent
from ..tables.table import read_table

INSTRUCTION_NAMES = frozenset(instruction_table())
PSEUDO_NAMES = frozenset(["li", *(form.split()[0] for form, *_ in read_table("pseudo"))])
SOURCE_NAMES = INSTRUCTION_NAMES | PSEUDO_NAMES
MAX_NEAR = 3


@functools.lru_cache(maxsize=1024)
def near_names(name: str, names: Set[str] = SOURCE_NAMES) -> list[str]:
    """Return the names nearest to a name, the nearest first. They have the same first letter, and are at most MAX_NEAR.

    Of equally near names, the one that has more letters in common with the start of `name` comes first: for vad, vadd.vv is before
    vand.vv.

    names: the names to choose from
    """
    own, small = sorted(each for each in names if each[0] == name[0].lower()), name.lower()
    near = get_close_matches(small, own, len(own) or 1)
    if len(name) <= 3 and not near:  # as for jmp, which shares one letter with jal
        near = get_close_matches(small, [each for each in own if len(each) <= len(name) + 2], len(own) or 1, 1 / 3)
    ranks = {each: (SequenceMatcher(None, each, small).ratio(), len(commonprefix([each, small]))) for each in near}
    return sorted(near, key=ranks.__getitem__, reverse=True)[:MAX_NEAR]


def absence(name: str) -> str:
    """Return why the machine lacks an instruction or a control register of another extension, without a full stop.

    Return "" if no other extension has the name.
    """
    return next((does for pattern, does in absent() if pattern.fullmatch(name.lower())), "").rstrip(".")


def no_instruction(name: str, names: Set[str] = SOURCE_NAMES) -> str:
    """Return the message that there is no instruction with a name.

    If the machine lacks an instruction or register of another extension with this name, the message says why. Otherwise it has the
    nearest of `names`.
    """
    if reason := absence(name):
        return f"there is no instruction {name} here. {reason}"
    near = near_names(name, names)
    *others, last = near or [""]
    hint = f"; near it {'are' if others else 'is'} {' and '.join(filter(None, [', '.join(others), last]))}"
    return f"there is no instruction {name}{hint if near else ''}"
