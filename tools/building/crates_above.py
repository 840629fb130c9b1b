"""Prints crates and all crates that use them, lowest first, by crates.txt: tools/building/crates_above NAME...

Exit status: 2, with one line, for a name that crates.txt doesn't have, and without a name.
"""

import sys
from collections.abc import Mapping, Sequence

from tools.building.proved_build import TOP, crates_below, libraries


def crates_above(names: Sequence[str], used: Mapping[str, Sequence[str]]) -> list[str]:
    """Returns these crates and all that use them, each after those that it uses, by the table of `libraries`."""
    above = [crate for crate in used if set(names) & set(crates_below([crate], used))]
    return sorted(above, key=lambda crate: len(crates_below([crate], used)))


def main(names: Sequence[str]) -> int:
    with open(f"{TOP}/crates.txt", encoding="utf-8") as file:
        used = libraries(file.read())
    unknown = [name for name in names if name not in used]
    if unknown or not names:
        print(
            f"tools/building/crates_above: {f'crates.txt has no crate {unknown[0]}' if unknown else 'name a crate'}",
            file=sys.stderr,
        )
        return 2
    print(*crates_above(names, used), sep="\n")
    return 0


if __name__ == "__main__":
    sys.exit(main(sys.argv[1:]))
