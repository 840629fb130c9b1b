"""The examples of an author's start page: all have words, and those in assembler run."""

import pathlib

from vecmon_lab.assembler.source import assemble
from vecmon_lab.classes.core.example_sources import example_sources
from vecmon_lab.classes.core.languages import LANGUAGES
from vecmon_lab.machine.session import Session


def test_examples_have_titles_and_sentences() -> None:
    examples = example_sources()
    assert [example["language"] for example in examples] == [0] * 21 + [1] * 6 and LANGUAGES[1].name == "C, O2"
    groups = ["Examples in assembler"] * 13 + ["Programs that rely on unspecified values"] * 8 + ["Examples in C"] * 6
    assert [example["group"] for example in examples] == groups
    by_name = {example["name"]: example for example in examples}
    loop, flawed = by_name["strip_mined.s"], by_name["sums_not_cleared.s"]
    assert (loop["title"], loop["about"].split(" where")[0]) == ("A strip-mined loop", "y[i] += 3 x[i]")
    assert flawed["title"] == "Sums not cleared"
    assert flawed["about"] == "Adds products to v8, which no instruction has set to 0."
    assert by_name["saxpy.c"]["title"] == "A multiple of one vector is added to another"
    course = [
        example["name"] for example in examples[1:13]
    ]  # after their titles, not after the exercises that follow them
    assert course[:3] == ["squares_of_five_numbers.s", "twenty_sevens.s", "darker_by_forty.s"]
    assert by_name["losses_halved.s"]["title"] == "Losses halved" and "clamped_magnitude.s" not in by_name
    assert by_name["end_of_a_line.s"]["title"] == "The end of a line, at the end of memory"
    assert all(example["about"].endswith(".") and "#" not in example["title"] for example in examples)


def test_examples_in_assembler_step(program: pathlib.Path) -> None:
    """The machine takes each line of their programs, and executes them."""
    for example in example_sources():
        if example["language"] == 0:
            source = assemble(example["text"])
            lines = ["enter", *source.load_lines(), "step 256"]
            with Session(program) as session:
                replies = [session.do(f"1 {line}")[-1] for line in lines]
            assert not [reply for reply in replies if reply.startswith("1 E")], example["name"]
