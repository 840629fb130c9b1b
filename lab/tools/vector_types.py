"""Compare the flow analysis of the language server with the machine: `python lab/tools/vector_types.py [--drawn N] [--seed S]`.

Executes the sources of the repository, which the examples and the course are among, and drawn programs; compares what the analysis says of
vtype, of vl and of illegal instructions before each instruction. It takes a minute of processor. `lab/tests/language/test_flow.py` checks a
sample.
"""

import argparse
import sys

from support.drawn_flows import drawn_flow, drawn_words
from support.flow_claims import Tally, check_source, total
from support.places import TOP
from vecmon_lab.assembler.trial import Trial
from vecmon_lab.machine.program import find_program


def main() -> int:
    """Print wrong claims, and the number of claims. Return 1 if a claim is wrong or an illegal instruction is missed, else 0."""
    parser = argparse.ArgumentParser(description="Compare the flow analysis of the language server with the machine.")
    parser.add_argument("--drawn", type=int, default=500, help="drawn programs of each kind (default: %(default)s)")
    parser.add_argument("--seed", type=int, default=1, help="of the first one (default: %(default)s)")
    arguments = parser.parse_args()
    program, seeds = find_program(), range(arguments.seed, arguments.seed + arguments.drawn)
    with Trial(program) as trial:

        def checked(text: str, name: object) -> Tally:
            return check_source(text, trial, program, str(name))

        sources = sorted(path for top in ("lab", "tests") for path in (TOP / top).rglob("*.s"))
        kinds = {
            "sources of the repository": [
                checked(path.read_text("utf-8", "replace"), path.relative_to(TOP)) for path in sources
            ],
            "drawn control flow": [checked(drawn_flow(seed), f"flow {seed}") for seed in seeds],
            "drawn instructions": [checked(drawn_words(seed), f"words {seed}") for seed in seeds],
        }
    sums = {name: total(tallies) for name, tallies in kinds.items()}
    for name, tally in sums.items():
        print(f"{name}: {tally}")
        print(*[f"missed: {each}" for each in tally.missed], *tally.wrong, sep="\n", end="")
    return int(any(tally.wrong or tally.missed for tally in sums.values()))


if __name__ == "__main__":
    sys.exit(main())
