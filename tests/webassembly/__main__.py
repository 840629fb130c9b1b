"""Prints all answers to eight users at one machine, in good faith and in bad: `python3 -m tests.webassembly`, at the top of
the repository.

VECMON names the program. A machine of each user's own answers the same lines, as in tests/isolation.
"""

import sys

from tests.isolation import hostile, mixing
from tests.isolation.comparison import GRAMMAR
from tests.program import built

QUANTUM = 12  # ticks of a slice
ROUNDS = 1  # of scripts in bad faith


def main() -> None:
    """Write the answers to standard output. Raises AssertionError if a user's own machine answers otherwise."""
    sys.stdout.buffer.write("".join(mixing.compare(built(), GRAMMAR, QUANTUM)).encode("latin-1"))
    for answers in hostile.compare(built(), GRAMMAR, ROUNDS):
        sys.stdout.buffer.write(answers.encode("latin-1"))


if __name__ == "__main__":
    main()
