"""Check the equations that `why` shows for all golden vectors: `python lab/tools/equations.py [--elements N] [--seed S]`.

It takes minutes of processor. `lab/tests/meanings/test_shown_equations.py` checks a sample.
"""

import argparse
import random
import sys

from support.golden import golden_vectors
from support.golden_equations import check_vectors, clean_vectors


def main() -> int:
    """Print false equations and the number of checked ones. Return 1 if there are false ones, else 0."""
    parser = argparse.ArgumentParser(description="Check the equations that `why` shows for all golden vectors.")
    parser.add_argument("--elements", type=int, default=8, help="at most, of each vector (default: %(default)s)")
    parser.add_argument("--seed", type=int, default=1, help="of the choice of elements (default: %(default)s)")
    arguments = parser.parse_args()
    vectors = clean_vectors(golden_vectors())
    tally = check_vectors(vectors, arguments.elements, random.Random(arguments.seed))
    print(*tally.wrong, sep="\n", end="\n" if tally.wrong else "")
    counts = ", ".join(f"{count:,} {kind}" for kind, count in sorted(tally.counts.items()))
    print(f"{len(vectors):,} vectors of {len(tally.names)} instructions: {counts}; {len(tally.wrong):,} false")
    return int(bool(tally.wrong))


if __name__ == "__main__":
    sys.exit(main())
