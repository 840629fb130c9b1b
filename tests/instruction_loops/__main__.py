"""Writes the script of a loop: `python3 -m tests.instruction_loops LOOP COUNT`, at the top of the repository."""

import sys

from tests.instruction_loops.loops import LOOPS, script


def main(arguments: list[str]) -> int | str:
    """Writes the scripts that the words ask for; a text says why not."""
    if (
        len(arguments) != 2
        or arguments[0] not in (*LOOPS, "all")
        or not arguments[1].isdecimal()
        or int(arguments[1]) == 0
    ):
        return f"python3 -m tests.instruction_loops LOOP COUNT; a LOOP is `all` or one of {' '.join(LOOPS)}"
    for name in LOOPS if arguments[0] == "all" else arguments[:1]:
        sys.stdout.write(script(name, int(arguments[1])))
    return 0


if __name__ == "__main__":
    sys.exit(main(sys.argv[1:]))
