"""`vecmon-lab compare` on drawn programs in which a `vset` instruction leaves tails or masked-off elements agnostic."""

import itertools
import json
import pathlib

import pytest

from support.commands import Lab
from support.images import make_image
from support.mutants import mutants

NUMBER = 12
DRAWN = [*itertools.islice(mutants(1), NUMBER)]
"""The mutants of one drawn program. `lab/tools/mutants.py` takes any number of them."""


def verdict(lab: Lab, image: pathlib.Path) -> tuple[str, set[tuple[str, str]]]:
    """The verdict on an image, and the kinds of the reliances with the addresses of the `vset` instructions."""
    _, output, errors = lab("compare", "--json", "--seeds", 16, image)
    report = json.loads(output)
    assert errors == ""
    return report["verdict"], {(form["kind"], form["vset"]["address"]) for form in report["reliances"]}


@pytest.mark.parametrize("at", range(NUMBER))
def test_mutant_is_found_if_it_matters(lab: Lab, program: pathlib.Path, tmp_path: pathlib.Path, at: int) -> None:
    """It matters if the machine's policy `ones` changes the output."""
    labels = make_image(program, tmp_path / "image", DRAWN[at].source)
    outputs = [lab("run", "--policy", policy, tmp_path / "image")[1] for policy in ("keep", "ones")]
    origin = DRAWN[at].kind, f"{labels[DRAWN[at].vset]:x}"
    expected = ("same", set()) if outputs[0] == outputs[1] else ("relies", {origin})
    assert verdict(lab, tmp_path / "image") == expected


def test_program_that_is_mutated_relies_on_nothing(lab: Lab, program: pathlib.Path, tmp_path: pathlib.Path) -> None:
    make_image(program, tmp_path / "image", DRAWN[0].sound)
    assert verdict(lab, tmp_path / "image") == ("same", set())
