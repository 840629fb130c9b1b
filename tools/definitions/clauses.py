"""Finds what many contracts of a crate's functions repeat: `tools/definitions/clauses [CRATE..]`, at the top of the repository.

Without names it reads all crates. It prints

- each clause in more than eight contracts, with their number and the crates: a condition that this many functions ask
  for belongs in a type;
- each function with more than six parameters, `self` among them;
- each line of more than 120 characters.

A clause is the text between the braces of `requires` or `ensures`, without its name. docs/DECISIONS.md, "Forms", explains why some
of these places stay.
"""

import re
import sys
from collections import Counter, defaultdict
from collections.abc import Iterator
from pathlib import Path

MAX_CONTRACTS, MAX_PARAMETERS, MAX_CHARACTERS = 8, 6, 120
PART = re.compile(r"\bfn (?P<function>\w+)|\b(?P<kind>requires|ensures\*?)\s+(?:\w+\s+)?\{")
CLOSING = {"(": ")", "{": "}", "[": "]", "<": ">"}


def closed(text: str, start: int) -> int:
    """The place where the bracket at `start` is closed."""
    opening, depth = text[start], 0
    for at in range(start, len(text)):
        depth += (text[at] == opening) - (text[at] == CLOSING[opening] and text[at - 1] not in "-=")
        if depth == 0:
            return at
    raise ValueError(f"{opening} isn't closed")


def parameters(text: str, after_name: int) -> int:
    """How many parameters a function has whose name ends at `after_name`."""
    start = after_name
    if text[start] == "<":
        start = closed(text, start) + 1
    depth, count, is_filled = 0, 0, False
    for at in range(start + 1, closed(text, start)):
        depth += (text[at] in "([{<") - (text[at] in ")]}" or (text[at] == ">" and text[at - 1] not in "-="))
        if text[at] == "," and depth == 0:
            count, is_filled = count + 1, False
        else:
            is_filled |= not text[at].isspace()
    return count + is_filled


def clauses(text: str) -> Iterator[tuple[str, str]]:
    """Each clause of a source, with the function whose contract it is in."""
    function = ""
    for found in PART.finditer(text):
        if found["function"]:
            function = f"{found['function']} at {found.start()}"
        else:
            start = found.end() - 1
            yield function, f"{found['kind']} {{ {' '.join(text[start + 1 : closed(text, start)].split())} }}"


def main(names: list[str]) -> int:
    contracts: dict[str, set[tuple[str, str, str]]] = defaultdict(set)
    for crate in names or sorted(it.parent.name for it in Path("crates").glob("*/src")):
        for path in sorted(Path("crates", crate, "src").rglob("*.rt")):
            source = path.read_text()
            for number, line in enumerate(source.splitlines(), 1):
                if len(line) > MAX_CHARACTERS:
                    print(f"{path}:{number}: {len(line)} characters")
            text = re.sub(r"//[^\n]*", "", source)
            for found in re.finditer(r"\bfn (\w+)", text):
                count = parameters(text, found.end())
                if count > MAX_PARAMETERS:
                    print(f"{path}: {found[1]} has {count} parameters")
            for function, clause in clauses(text):
                contracts[clause].add((crate, str(path), function))
    for clause, places in sorted(contracts.items(), key=lambda it: -len(it[1])):
        if len(places) > MAX_CONTRACTS:
            crates = ", ".join(
                f"{crate} {count}" for crate, count in Counter(crate for crate, _, _ in places).most_common()
            )
            print(f"{len(places)} contracts ({crates}): {clause}")
    return 0


if __name__ == "__main__":
    sys.exit(main(sys.argv[1:]))
