"""Compares `vecmon` with other tools: `python -m tests.peers [PART...]`, at the top of the repository."""

import argparse
import sys
from collections.abc import Iterator

from tests.peers import digests, encodings, instructions, programs
from tests.peers.tally import Tally

PARTS = ("instructions", "encodings", "programs")


def parsed(words: list[str]) -> argparse.Namespace:
    """The arguments of the command."""
    parser = argparse.ArgumentParser(prog="python -m tests.peers", description=__doc__)
    parser.add_argument("parts", metavar="PART", nargs="*", help=f"one of {', '.join(PARTS)}; by default all")
    parser.add_argument("--seed", metavar="S", type=int, default=0, help="another seed gives other cases (default: 0)")
    parser.add_argument(
        "--cases",
        metavar="N",
        type=int,
        help="cases of each instruction; by default one for each legal vector type, masked and not",
    )
    arguments = parser.parse_args(words)
    if other := set(arguments.parts) - set(PARTS):
        parser.error(f"{min(other)} is no part; the parts are {', '.join(PARTS)}")
    return arguments


def tallies(arguments: argparse.Namespace) -> Iterator[Tally]:
    """The tally of each comparison, in the full size."""
    parts, seed = arguments.parts or PARTS, arguments.seed
    if "encodings" in parts:
        yield from encodings.compare(100, 300_000, seed)
        yield digests.compare()
    if "programs" in parts:
        yield from programs.compare(200, 100, 100 + seed, 40)
        yield from programs.compare(60, 1000, seed, 10)
    if "instructions" in parts:
        for policy in ("keep", "ones"):
            yield instructions.compare(instructions.names(), arguments.cases, seed, policy)


def main(words: list[str]) -> int:
    """Prints the tallies. The status is 1 if a case differs."""
    status = 0
    for tally in tallies(parsed(words)):
        print(*tally.lines(), sep="\n", flush=True)
        status |= bool(tally.differing)
    return status


if __name__ == "__main__":
    sys.exit(main(sys.argv[1:]))
