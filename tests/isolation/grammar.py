"""Texts made by chance, by a grammar that is a file.

An empty line separates two of its rules. The first line of a rule is its name, and each other line is a
choice; but where a `:` follows the name, all the lines together are one. A rule expands to one of its choices,
drawn where there are several, in which words in braces expand further, from left to right:

- `{NAME}`: the expansion of that rule;
- `{x 1+28}` and `{x 22fff-40}`: a number drawn below the second one, added to the first one or taken from it, all
  hexadecimal;
- `{d 1+28}`: the same, written as a decimal number;
- `{w}`: sixteen digits of a number of 64 bits;
- `{code}`: a word by chance, but that its low seven bits are those of a vector instruction, a vector load or store, or
  a control register, as bytes;
- `{n}`: the end of a line; and `{}`: nothing, so that a choice can begin or end with a space.
"""

import re

from tests.isolation.draws import Draws

OPCODES = (0x57, 0x57, 0x57, 0x07, 0x27, 0x73)  # of vector instructions, vector loads and stores, control registers


class Grammar:
    """The rules by their names."""

    def __init__(self, text: str) -> None:
        self._rules: dict[str, list[str]] = {}
        for rule in text.rstrip().split("\n\n"):
            name, body = rule.split("\n", 1)
            self._rules[name.removesuffix(":")] = [body] if name.endswith(":") else body.split("\n")

    def choice(self, draws: Draws, name: str) -> tuple[int, str]:
        """A choice of a rule with its place, as it is in the file."""
        choices = self._rules[name]
        place = draws.below(len(choices)) if len(choices) > 1 else 0
        return place, choices[place]

    def text(self, draws: Draws, name: str) -> str:
        """The expansion of a rule."""
        return re.sub("{([^}]*)}", lambda braces: self._braces(draws, braces[1]), self.choice(draws, name)[1])

    def _braces(self, draws: Draws, arguments: str) -> str:
        """The expansion of braces with these words."""
        if arguments in ("", "n"):
            return "\n" if arguments else ""
        if arguments == "w":
            return f"{draws.double_word():016x}"
        if arguments == "code":
            word = draws.word() & ~0x7F
            return (word | OPCODES[draws.below(len(OPCODES))]).to_bytes(4, "little").hex()
        if number := re.fullmatch("([xd]) ([0-9a-f]+)([+-])([0-9a-f]+)", arguments):
            drawn = draws.below(int(number[4], 16)) * (1 if number[3] == "+" else -1)
            return format(int(number[2], 16) + drawn, number[1])
        return self.text(draws, arguments)
