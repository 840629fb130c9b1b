"""Find the argument of a line that doesn't fit the line's command, and the reason."""

import re

from ..tables.table import read_table

_DEMANDS = [(where.split(), re.compile(pattern), message) for where, pattern, message in read_table("arguments")]


def argument_error(line: str, form: str) -> str:
    """Return why the machine refuses a line with E04, as a clause: which argument doesn't fit the form of the command, and why.

    If several arguments don't fit, the clause is about the first of them. form: the form of the command, as `peek ADDR N`
    """
    name, *kinds = form.removeprefix("* ").split()
    _, *words = line[2:].split(None, len(kinds) if "TEXT" in kinds else -1)
    for kind, word in zip(kinds, words):
        for where, pattern, message in _DEMANDS:
            if where in ([kind], [name, kind]) and not pattern.fullmatch(word):
                return f"{word} {message}"
    if len(words) < len(kinds):
        return f"{kinds[len(words)]} is missing"
    return f"{words[len(kinds)]} is a word too many" if len(words) > len(kinds) else "the pages would end past 2^48"
