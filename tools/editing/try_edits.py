"""Tries the edits that change one function's body each, `crates/*/edits/*.edit`: the prover must refuse each one.

    tools/try_edits [OPTION].. [CRATE]..

Run it at the top of the repository, after `tools/building/keep_modules`, which proves the libraries that it needs and stores them. Without
names it tries the edits of all crates. It asks the prover about the changed functions only, in a copy of a crate with all its edits, and
without bodies that these don't need (tools/editing/edit_stubs.py). An edit counts as refused if its function is refused for its own lines.
One that isn't is tried with all bodies, then by itself, and then by a check of the whole crate, as `rt must-fail` does. An edit that
can't be applied, read or compiled fails.

A refused edit isn't tried again while its crate, the libraries below, the kit and these tools stay the same (tools/editing/tried_edits.py).
RT_JOBS sets how many crates are checked at a time: by default one for each processor, unless memory holds fewer.

The exit status is 0 if each edit is refused, 1 if one isn't, and 2 for a wrong argument or a library that isn't proved.
"""

import argparse
import sys
from collections.abc import Sequence
from functools import partial
from pathlib import Path

from tools.editing.edit_checks import Outcome, Prover
from tools.editing.edit_clauses import BY_FUNCTION
from tools.editing.edit_libraries import proving_kit, provide
from tools.editing.edit_plans import edits_of
from tools.editing.edit_self_test import self_test
from tools.editing.edit_trials import Options, Trial, Trials, lists_of, read_all
from tools.editing.tried_edits import TriedEdits


def parser() -> argparse.ArgumentParser:
    found = argparse.ArgumentParser(
        prog="tools/try_edits", description=__doc__, formatter_class=argparse.RawDescriptionHelpFormatter
    )
    found.add_argument("crates", nargs="*", metavar="CRATE", help="a crate with edits; all if none is named")
    found.add_argument("--edit", action="append", metavar="NAME", help="try this edit only; can be repeated")
    found.add_argument("--alone", action="store_true", help="try each edit in a copy of its own")
    found.add_argument("--apart", action="store_true", help="keep functions that use one another in different copies")
    found.add_argument(
        "--whole", action="store_true", help="check the whole crate for each edit, from nothing, as rt must-fail does"
    )
    found.add_argument("--anew", action="store_true", help="also try edits that an earlier run tried")
    found.add_argument("--plan", action="store_true", help="print which edits share a check, and run none")
    found.add_argument("--self-test", action="store_true", help="try edits of a small example, one of them harmless")
    return found


def files_of(given: argparse.Namespace) -> dict[str, list[Path]]:
    """Return the files of the edits to try, by their crates. Raises ValueError if a name is wrong."""
    crates = given.crates or sorted(it.parent.name for it in Path("crates").glob(f"*/{BY_FUNCTION}"))
    found = {crate: [it for it in edits_of(crate) if not given.edit or it.stem in given.edit] for crate in crates}
    for crate in given.crates:
        if not edits_of(crate):
            raise ValueError(f"crates/{crate}/{BY_FUNCTION} has no edits: write the name of a crate that has some")
    known = {it.stem for those in found.values() for it in those}
    if unknown := [it for it in given.edit or [] if it not in known]:
        raise ValueError(f"no edit {unknown[0]} in crates/*/{BY_FUNCTION}")
    if not known:
        raise ValueError(f"there are no edits in crates/*/{BY_FUNCTION}: run it at the top of the repository")
    return {crate: those for crate, those in found.items() if those}


def print_plan(files: dict[str, list[Path]], options: Options) -> None:
    """Print the checks that would try these edits."""
    checks = 0
    for crate, paths in files.items():
        edits, bad = read_all(crate, paths)
        lists = lists_of(edits, options)
        single = [it for it in edits if options.whole or not it.function]
        checks += len(lists) + len(single)
        print(f"{crate}:")
        for those in lists:
            print("    one check:", "; ".join(f"{it.function.name} ({it.path.stem})" for it in those if it.function))
        for it in single:
            print("    the whole crate:", it.path.stem)
        for trial in bad.values():
            print(f"    none: {trial.edit.path.stem}: {trial.result.message}")
    print(f"edits: {sum(map(len, files.values()))}; crates: {len(files)}; checks: {checks}")


def print_results(trials: list[Trial]) -> int:
    """Print the result of each edit, and then the counts. Return the exit status."""
    for it in trials:
        print(f"{it.edit.title}: {it.result.outcome.value}: {it.result.message[:200]}")
    refused = [it for it in trials if it.result.outcome is Outcome.REFUSED]
    crates = len({it.edit.crate for it in trials})
    if failed := [it for it in trials if it not in refused]:
        print("FAILED:", ", ".join(it.edit.title for it in failed))
    earlier = sum(it.is_earlier for it in refused)
    counts = f"refused edits: {len(refused)} of {len(trials)}; crates: {crates}; refused in earlier runs: {earlier}"
    print(f"tools/try_edits: {counts}")
    return 1 if failed else 0


def main(arguments: Sequence[str]) -> int:
    reader = parser()
    given = reader.parse_args(arguments)
    if given.self_test:
        return self_test(proving_kit())
    options = Options(given.alone, given.apart, given.whole, given.anew)
    try:
        files = files_of(given)
    except ValueError as error:
        reader.error(str(error))
    if given.plan:
        print_plan(files, options)
        return 0
    prover = Prover(proving_kit())
    if unknown := [it for it in files if it not in prover.crates]:
        reader.error(f"crates.txt has no crate {unknown[0]}")
    if lacking := provide(prover.rt, prover.crates, list(files)):
        reader.error(
            f"these libraries aren't proved: {', '.join(lacking)}: run tools/building/keep_modules {' '.join(lacking)} first"
        )
    trials = Trials(prover, TriedEdits(prover), options)
    calls = {crate: partial(trials.of_crate, crate, paths) for crate, paths in files.items()}
    return print_results([it for those in prover.side_by_side(calls).values() for it in those])


if __name__ == "__main__":
    sys.exit(main(sys.argv[1:]))
