"""`vecmon-lab compare` on programs with one planted reliance each, and on the same programs without it."""

import json
import pathlib

import pytest

from support.commands import Lab
from support.images import make_image
from support.planted import planted

PLANTED = {each.name: each for each in planted()}
SEEDS = 3
"""Seed 1, and a pair of seeds that fill what the other one keeps."""


def test_each_kind_is_planted() -> None:
    assert {each.kind for each in PLANTED.values()} == {"tail", "masked", "trim", "length", "ones"}


@pytest.mark.parametrize("name", PLANTED)
def test_planted_choice_is_named(lab: Lab, program: pathlib.Path, tmp_path: pathlib.Path, name: str) -> None:
    wanted = PLANTED[name]
    here = make_image(program, tmp_path / "image", wanted.relying)["here"]
    status, output, errors = lab("compare", "--json", "--seeds", SEEDS, tmp_path / "image")
    assert (status, errors) == (1, "")
    (form,) = (form for form in json.loads(output)["reliances"] if form["kind"] == wanted.kind)
    if wanted.kind == "ones":
        assert f" {here:x}: " in form["explanation"][-1]
        return
    assert form["instruction"]["address"] == f"{here:x}"
    assert form.get("elements") == (None if wanted.element is None else [wanted.element] * 2)


@pytest.mark.parametrize("name", PLANTED)
def test_program_without_planted_choice_is_the_same(
    lab: Lab, program: pathlib.Path, tmp_path: pathlib.Path, name: str
) -> None:
    make_image(program, tmp_path / "image", PLANTED[name].sound)
    status, output, errors = lab("compare", "--json", "--seeds", SEEDS, tmp_path / "image")
    report = json.loads(output)
    assert (status, errors, report["verdict"], report["reliances"]) == (0, "", "same", [])
