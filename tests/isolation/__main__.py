"""Compares all, with ROUNDS rounds of hostile scripts: `python3 -m tests.isolation ROUNDS`, at the top of the
repository."""

import sys

from tests.isolation.comparison import eight_users, slices_of_each_length
from tests.program import built


def main(arguments: list[str]) -> int | str:
    """Prints how much was compared; a text says why not."""
    if len(arguments) != 1 or not arguments[0].isdecimal():
        return "python3 -m tests.isolation ROUNDS"
    for line in (*slices_of_each_length(built()), *eight_users(built(), int(arguments[0]))):
        print(line, end="")
    return 0


if __name__ == "__main__":
    sys.exit(main(sys.argv[1:]))
