"""Choices that the standard leaves open, made by a seed: programs that rely on one, and results that were worked out by hand."""

import pathlib
from collections.abc import Iterator

import pytest

from support.images import make_image
from tests.recordings.log_lines import read_log
from tests.recordings.open_programs import ALL, DATA, EXIT, FIVE, ODD, SUM, open_programs
from tests.recordings.recorder import Recorded, record, record_log
from tests.recordings.test_counts import IMAGES, MOST
from vecmon_lab.machine.program import find_program

PROGRAMS = {each.name: each for each in open_programs()}
SEEDS = (1, 2, 3)
LIMIT = ("--ticks", 100_000)  # far above what each program takes
RELYING = {kind: next(each.relying for each in PROGRAMS.values() if each.kind == kind) for kind in ("trim", "length")}
TAIL = f"{FIVE.format(tail='ta')}here:   vadd.vv v8, v9, v9\n{SUM}{EXIT}{DATA}"
MASKED = f"{ODD.format(mask='ma')}here:   vadd.vv v8, v9, v9, v0.t\n{SUM}{EXIT}{DATA}"


def outcome(folder: pathlib.Path, *arguments: object) -> str:
    """How the program of `image` ends, and its exit status, without the counts of instructions and ticks."""
    result = record_log(folder, *LIMIT, *arguments, "image")
    assert (result.status, result.stderr) == (0, "")
    return read_log(result.log)[1].rsplit(" ", 2)[0]


def exit_status(folder: pathlib.Path, *arguments: object) -> int:
    """The exit status of the program of `image`."""
    ended, code, *_ = outcome(folder, *arguments).split()
    assert ended == "exit"
    return int(code.removeprefix("code="))


def place_of(folder: pathlib.Path, label: int) -> int:
    """The number of the instruction at an address in a run without choices."""
    lines, _ = read_log(record_log(folder, *LIMIT, "image").log)
    return 1 + [line.pc for line in lines].index(label)


@pytest.fixture(name="labels")
def tail_labels(tmp_path: pathlib.Path) -> Iterator[dict[str, int]]:
    """Make `image` of a program that adds 5 numbers to themselves and sums a register with the tail; its labels."""
    yield make_image(find_program(), tmp_path / "image", TAIL)


@pytest.mark.parametrize("name", PROGRAMS)
def test_choices_change_a_program_that_relies_on_them(tmp_path: pathlib.Path, name: str) -> None:
    make_image(find_program(), tmp_path / "image", PROGRAMS[name].relying)
    kept = outcome(tmp_path)
    for kind in ("tail", "masked", "trim", "length"):
        changed = [outcome(tmp_path, "--open", seed, "--kinds", kind) != kept for seed in SEEDS]
        assert any(changed) == (kind == PROGRAMS[name].kind), kind
    assert any(outcome(tmp_path, "--open", seed) != kept for seed in SEEDS)


@pytest.mark.parametrize("name", PROGRAMS)
def test_choices_leave_a_program_that_relies_on_none(tmp_path: pathlib.Path, name: str) -> None:
    make_image(find_program(), tmp_path / "image", PROGRAMS[name].sound)
    assert {outcome(tmp_path, "--open", seed) for seed in SEEDS} == {outcome(tmp_path)}


@pytest.mark.parametrize("name", PROGRAMS)
def test_all_elements_chosen_are_the_policy_ones(tmp_path: pathlib.Path, name: str) -> None:
    """Of programs without a load that has a tail or masked-off elements."""
    for source in (PROGRAMS[name].relying, PROGRAMS[name].sound):
        make_image(find_program(), tmp_path / "image", source)
        ones = outcome(tmp_path, "--open", 1, "--kinds", "tail,masked")
        if PROGRAMS[name].kind in ("tail", "masked"):
            assert ones == outcome(tmp_path, "--policy", "ones")


@pytest.mark.parametrize("name", PROGRAMS)
def test_seed_0_chooses_nothing(tmp_path: pathlib.Path, name: str) -> None:
    for source in (PROGRAMS[name].relying, PROGRAMS[name].sound):
        make_image(find_program(), tmp_path / "image", source)
        assert record_log(tmp_path, *LIMIT, "--open", 0, "image") == record_log(tmp_path, *LIMIT, "image")


@pytest.mark.parametrize("image", IMAGES, ids=[path.name for path in IMAGES])
def test_seed_0_gives_the_log_of_a_run_without_choices(tmp_path: pathlib.Path, image: pathlib.Path) -> None:
    opened = record_log(tmp_path, "--to", MOST, "--open", 0, image)
    assert opened.status == 0 and opened == record_log(tmp_path, "--to", MOST, image)


@pytest.mark.parametrize(
    "source, arguments, status",
    [
        (TAIL, [], 30),  # twice the numbers 1 to 5
        (TAIL, ["--open", 1], (30 + 27 * 255) % 256),  # and 27 elements of ones
        (TAIL, ["--open", 1, "--open-elements", "7-7"], (30 + 255) % 256),
        (TAIL, ["--open", 1, "--open-elements", "0-5"], (30 + 255) % 256),
        (TAIL, ["--open", 1, "--open-elements", "30-255"], (30 + 2 * 255) % 256),
        (TAIL, ["--open", 1, "--kinds", "masked,trim,length"], 30),
        (MASKED, [], 512 % 256),  # twice the odd numbers up to 31
        (MASKED, ["--open", 1], (512 + 16 * 255) % 256),
        (MASKED, ["--open", 1, "--open-elements", "2-5"], (512 + 2 * 255) % 256),
        (RELYING["trim"], [], 78),  # the numbers 1 to 12
        (RELYING["trim"], ["--open", 1], 1),
        (RELYING["length"], [], 0),  # 8 less than VLMAX, which is 8
        (RELYING["length"], ["--open", 1], 2),  # 6, half of 12
    ],
)
def test_choices_give_hand_worked_results(
    tmp_path: pathlib.Path, source: str, arguments: list[object], status: int
) -> None:
    make_image(find_program(), tmp_path / "image", source)
    assert exit_status(tmp_path, *arguments) == status


def test_only_instructions_of_a_range_have_choices(tmp_path: pathlib.Path, labels: dict[str, int]) -> None:
    number = place_of(tmp_path, labels["here"])
    kept, changed = outcome(tmp_path), outcome(tmp_path, "--open", 1)
    assert changed != kept
    for first, last, expected in [
        (number, number, changed),
        (1, number, changed),
        (number, 2**63, changed),
        (1, number - 1, kept),
        (number + 1, 2**63, kept),
    ]:
        assert outcome(tmp_path, "--open", 1, "--open-from", first, "--open-to", last) == expected


def test_log_shows_instruction_without_its_choices(tmp_path: pathlib.Path, labels: dict[str, int]) -> None:
    number = place_of(tmp_path, labels["here"])
    window = ["--from", number, "--to", number]
    kept = record_log(tmp_path, *window, "image").log
    opened = record_log(tmp_path, *window, "--open", 1, "image").log
    assert kept.splitlines()[0] == opened.splitlines()[0]


def test_lengths_are_in_range_and_the_same_each_time(tmp_path: pathlib.Path) -> None:
    """With a VLMAX of 8, an AVL from 9 to 15 has a length from half of it to 8, and any other AVL has one length only."""
    asked = [9, 10, 12, 15, 12, 9, 1, 7, 8, 16, 17]
    seen = set[tuple[int, int]]()
    for seed in range(1, 41):
        found = chosen_lengths(tmp_path, asked, seed)
        assert len(set(found)) == len(set(asked)), "one length for an AVL"
        for avl, length in found:
            assert (avl + 1) // 2 <= length <= 8 if 8 < avl < 16 else length == min(avl, 8)
        seen.update(found)
    assert {length for avl, length in seen if avl == 12} == {6, 7, 8}
    assert {length for avl, length in seen if avl == 9} == {5, 6, 7, 8}


def chosen_lengths(folder: pathlib.Path, asked: list[int], seed: int) -> list[tuple[int, int]]:
    """Each AVL with the length that a vset instruction wrote to t0, as the next instruction copies it to t2."""
    source = "".join(
        f"        li t1, {avl}\n        vsetvli t0, t1, e32, m1, ta, ma\n        mv t2, t0\n        csrr t3, vl\n"
        for avl in asked
    )
    make_image(find_program(), folder / "image", f"{source}        li a0, 0\n{EXIT}")
    lines, _ = read_log(record_log(folder, *LIMIT, "--open", seed, "image").log)
    copies = [line.scalars[7] for line in lines if 7 in line.scalars]
    lengths = [line.scalars[28] for line in lines if 28 in line.scalars]
    assert copies == lengths, "vl and the destination are the same"
    return list(zip(asked, copies, strict=True))


def test_trimmed_lengths_are_in_range(tmp_path: pathlib.Path) -> None:
    source = f"        la a1, numbers\n{ALL}        li t1, 12\n        vsetvli t0, t1, e8, m1, ta, ma\n"
    source += "        vle8ff.v v8, (a1)\n        csrr a0, vl\n"
    make_image(find_program(), tmp_path / "image", f"{source}{EXIT}{DATA}")
    lengths = [exit_status(tmp_path, "--open", seed) for seed in range(1, 61)]
    assert {1, 11, 12} < set(lengths) <= set(range(1, 13))
    assert lengths[0] == 1


@pytest.mark.parametrize("vstart, kept", [(0, False), (1, True)])
def test_only_loads_from_element_0_are_trimmed(tmp_path: pathlib.Path, vstart: int, kept: bool) -> None:
    source = f"        la a1, numbers\n        li t1, 12\n        vsetvli t0, t1, e8, m1, ta, ma\n        csrwi vstart, {vstart}\n"
    source += "        vle8ff.v v8, (a1)\n        csrr a0, vl\n"
    make_image(find_program(), tmp_path / "image", f"{source}{EXIT}{DATA}")
    assert exit_status(tmp_path, "--open", 1) == (12 if kept else 1)


NUMBER = "a number from 1 to 9223372036854775808"


@pytest.mark.parametrize(
    "arguments, message",
    [
        (["--open", "x"], "--open needs a number up to 18446744073709551615"),
        (["--open", "18446744073709551616"], "--open needs a number up to 18446744073709551615"),
        (["--open", "01"], "--open needs a number up to 18446744073709551615"),
        (
            ["--open", "1", "--kinds", "rest"],
            "--kinds needs kinds with commas between them: tail, masked, trim, length",
        ),
        (
            ["--open", "1", "--kinds", "tail,"],
            "--kinds needs kinds with commas between them: tail, masked, trim, length",
        ),
        (["--open", "1", "--kinds", ""], "--kinds needs kinds with commas between them: tail, masked, trim, length"),
        (["--open", "1", "--open-from", "0"], f"--open-from needs {NUMBER}"),
        (["--open", "1", "--open-to", "9223372036854775809"], f"--open-to needs {NUMBER}"),
        (["--open", "1", "--open-from", "3", "--open-to", "2"], "--open-from needs a number up to that of --open-to"),
        (["--open", "1", "--open-elements", "4"], "--open-elements needs A-B, two numbers from 0 to 255, A up to B"),
        (["--open", "1", "--open-elements", "4-3"], "--open-elements needs A-B, two numbers from 0 to 255, A up to B"),
        (
            ["--open", "1", "--open-elements", "0-256"],
            "--open-elements needs A-B, two numbers from 0 to 255, A up to B",
        ),
        (["--open", "1", "--counts", "counts"], "--open can't be combined with --counts"),
        (["--open", "1", "--watch", "1000:8", "--changes", "file"], "--open can't be combined with --changes"),
        (["--open", "1", "--policy", "keep"], "--open can't be combined with --policy"),
        (["--kinds", "tail"], "--kinds needs --open"),
        (["--open-from", "1"], "--open-from needs --open"),
        (["--open-to", "1"], "--open-to needs --open"),
        (["--open-elements", "1-2"], "--open-elements needs --open"),
    ],
)
def test_bad_values_of_choices_are_refused(tmp_path: pathlib.Path, arguments: list[str], message: str) -> None:
    refused = record(tmp_path, *arguments, "there is no such image", counts=False)
    assert refused == Recorded(b"", f"vecmon-record: {message}\n", 2, "")


def test_largest_seed_is_accepted(tmp_path: pathlib.Path, labels: dict[str, int]) -> None:
    assert labels and outcome(tmp_path, "--open", 2**64 - 1).startswith("exit")
