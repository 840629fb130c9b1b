"""Look for the reliances of drawn programs in which a `vset` instruction leaves tails or masked-off elements agnostic.

`VECMON=PATH .venv/bin/python lab/tools/mutants.py [NUMBER]`, by default 200. The recorder is next to `vecmon`. A mutant matters if
the machine's policy `ones` changes its output. Then `compare` with 16 seeds has to name the changed `vset` instruction and the kind
of elements; otherwise its runs have to be the same. Prints a row for each mutant, and status 1 if one is reported wrongly.
"""

import itertools
import pathlib
import sys
import tempfile

from support.images import make_image
from support.mutants import Mutant, mutants
from vecmon_lab.machine.program import find_program
from vecmon_lab.open_choices.compare import Comparison, Question
from vecmon_lab.runs.initial_state import initial_state_of
from vecmon_lab.runs.open_runs import OpenProgram

NUMBER, SEEDS, TICKS = 200, 16, 100_000


def is_right(mutant: Mutant, image: pathlib.Path, at: int) -> bool:
    """Compare the runs of a mutant, print a row, and return whether the report is right."""
    vset = make_image(find_program(), image, mutant.source)[mutant.vset]
    keep, ones = (
        OpenProgram(initial_state_of(image, ["image"], policy=policy), TICKS).outcome() for policy in ("keep", "ones")
    )
    report = Comparison(Question(seeds=SEEDS, ticks=TICKS), image, image).report()
    found = {(form["kind"], form["vset"]["address"]) for form in report["reliances"] if "vset" in form}
    expected = {(mutant.kind, f"{vset:x}")} if keep.output != ones.output else set()
    right = found == expected and all("vset" in form for form in report["reliances"])
    print(
        f"{at:5}  {mutant.kind:8} {report['verdict']:10} {report['runs']:5} runs{'' if right else '  WRONG'}",
        flush=True,
    )
    return right


def main() -> int:
    """Take the mutants, print their number, and return the status."""
    number = int(sys.argv[1]) if sys.argv[1:] else NUMBER
    with tempfile.TemporaryDirectory() as folder:
        image = pathlib.Path(folder) / "image"
        wrong = sum(not is_right(each, image, at) for at, each in enumerate(itertools.islice(mutants(1), number)))
    print(f"{number} mutants, {wrong} reported wrongly")
    return int(wrong > 0)


if __name__ == "__main__":
    sys.exit(main())
