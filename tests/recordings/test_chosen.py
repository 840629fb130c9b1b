"""The list of the choices of a run: lines that were worked out by hand, choices that the program's result shows, and refusals."""

import os
import pathlib
import subprocess
from collections.abc import Sequence
from typing import NamedTuple

import pytest

from support.images import make_image
from tests.recordings.log_lines import read_log
from tests.recordings.open_programs import ALL, DATA, EXIT, SUM, open_programs
from tests.recordings.recorder import built_recorder, record, record_log
from tests.recordings.test_open import LIMIT, MASKED, RELYING, TAIL, exit_status, place_of
from vecmon_lab.machine.program import find_program

PROGRAMS = {each.name: each for each in open_programs()}
BOTH = f"        la a1, numbers\n{ALL}        vmv.v.i v8, 0\n        vle8.v v9, (a1)\n        vid.v v10\n        vmseq.vi v0, v10, 2\n"
BOTH += f"        vsetivli t0, 4, e8, m1, ta, ma\nhere:   vadd.vv v8, v9, v9, v0.t\n{SUM}{EXIT}{DATA}"
"""Of four elements element 2 is active."""


class Choice(NamedTuple):
    """A line of a list of choices."""

    number: int
    kind: str
    numbers: tuple[int, ...]


def list_choices(folder: pathlib.Path, *arguments: object) -> list[Choice]:
    """The choices that a run of `image` lists. The form of each line is checked."""
    result = record(folder, *LIMIT, "--chosen", "chosen", *arguments, "image", counts=False)
    assert (result.status, result.stderr) == (0, "")
    choices = list[Choice]()
    text = (folder / "chosen").read_text("ascii")
    assert text == "" or text.endswith("\n")
    for line in text.splitlines():
        number, kind, *numbers = line.split(" ")
        choices.append(Choice(int(number), kind, tuple(map(int, numbers))))
        assert line == f"{int(number)} {kind} {' '.join(f'{each}' for each in choices[-1].numbers)}"
    return choices


def numbered(first: int, end: int, step: int = 1) -> tuple[int, ...]:
    """The numbers of elements from `first` up to `end`, excluding `end`."""
    return tuple(range(first, end, step))


@pytest.mark.parametrize(
    "source, arguments, expected",
    [
        # The instruction at `here`, then `vmv.s.x` and `vredsum.vs` of the sum, which write element 0 alone.
        (TAIL, [], [(0, "tail", numbered(5, 32)), (2, "tail", numbered(1, 32)), (3, "tail", numbered(1, 32))]),
        (TAIL, ["--open-elements", "7-8"], [(0, "tail", (7, 8)), (2, "tail", (7, 8)), (3, "tail", (7, 8))]),
        (
            TAIL,
            ["--open-elements", "0-5"],
            [(0, "tail", (5,)), (2, "tail", numbered(1, 6)), (3, "tail", numbered(1, 6))],
        ),
        (TAIL, ["--kinds", "masked,trim,length"], []),
        (MASKED, ["--kinds", "masked"], [(0, "masked", numbered(1, 32, 2))]),
        (MASKED, ["--kinds", "tail"], [(2, "tail", numbered(1, 32)), (3, "tail", numbered(1, 32))]),
        (BOTH, ["--open-elements", "0-30", "--kinds", "masked"], [(0, "masked", (0, 1, 3))]),
        (RELYING["trim"], ["--kinds", "trim"], [(0, "trim", (1,))]),
        (RELYING["length"], ["--kinds", "length"], [(0, "length", (12, 8, 6))]),
    ],
)
def test_lines_were_worked_out_by_hand(
    tmp_path: pathlib.Path, source: str, arguments: list[object], expected: list[tuple[int, str, tuple[int, ...]]]
) -> None:
    """Seed 1 takes all elements, 1 for `trim`, and half of the AVL for `length`. Instructions are numbered from `here`."""
    labels = make_image(find_program(), tmp_path / "image", source)
    here = place_of(tmp_path, labels["here"])
    lines = [Choice(here + number, kind, numbers) for number, kind, numbers in expected]
    assert list_choices(tmp_path, "--open", 1, *arguments) == lines


def test_masked_off_elements_are_listed_before_the_tail(tmp_path: pathlib.Path) -> None:
    labels = make_image(find_program(), tmp_path / "image", BOTH)
    here = place_of(tmp_path, labels["here"])
    window = ("--open-from", here, "--open-to", here)
    assert list_choices(tmp_path, "--open", 1, *window) == [
        Choice(here, "masked", (0, 1, 3)),
        Choice(here, "tail", numbered(4, 32)),
    ]


def test_group_of_eight_registers_lists_256_elements(tmp_path: pathlib.Path) -> None:
    """The longest line: one element of 256 is written."""
    source = f"        vsetivli t0, 1, e8, m8, ta, ma\nhere:   vmv.v.i v8, 1\n        li a0, 0\n{EXIT}"
    labels = make_image(find_program(), tmp_path / "image", source)
    here = place_of(tmp_path, labels["here"])
    assert list_choices(tmp_path, "--open", 1) == [Choice(here, "tail", numbered(1, 256))]


def test_elements_of_twice_the_width_are_numbered_by_their_place(tmp_path: pathlib.Path) -> None:
    """A widening sum of 5 bytes writes a group of two registers, which has 32 elements of 16 bits."""
    source = PROGRAMS["tail of twice the width"].relying
    labels = make_image(find_program(), tmp_path / "image", source)
    here = place_of(tmp_path, labels["here"])
    window = ("--open-from", here, "--open-to", here)
    assert list_choices(tmp_path, "--open", 1, *window) == [Choice(here, "tail", numbered(5, 32))]


@pytest.mark.parametrize("source, kind, kept, open_elements", [(TAIL, "tail", 30, 27), (MASKED, "masked", 512, 16)])
def test_result_shows_listed_elements(
    tmp_path: pathlib.Path, source: str, kind: str, kept: int, open_elements: int
) -> None:
    """The program adds 255 for each element that becomes ones. Of seeds 2n and 2n + 1 each takes what the other leaves."""
    labels = make_image(find_program(), tmp_path / "image", source)
    here = place_of(tmp_path, labels["here"])
    taken = list[set[int]]()
    for seed in range(2, 12):
        window = ("--open", seed, "--kinds", kind, "--open-from", here, "--open-to", here)
        elements = [each for choice in list_choices(tmp_path, *window) for each in choice.numbers]
        assert exit_status(tmp_path, *window) == (kept + 255 * len(elements)) % 256
        taken.append(set(elements))
    for one, two in zip(taken[::2], taken[1::2], strict=True):
        assert not one & two and len(one | two) == open_elements


def test_listed_lengths_are_those_that_programs_find(tmp_path: pathlib.Path) -> None:
    """A `length` has its AVL, VLMAX and the vl that the next instruction reads, and is listed if vl is another one than VLMAX."""
    asked = (9, 10, 12, 15, 12, 9, 7, 8, 16, 17)
    source = "".join(
        f"        li t1, {avl}\n        vsetvli t0, t1, e32, m1, ta, ma\n        csrr t3, vl\n" for avl in asked
    )
    make_image(find_program(), tmp_path / "image", f"{source}        li a0, 0\n{EXIT}")
    for seed in range(1, 21):
        lines, _ = read_log(record_log(tmp_path, *LIMIT, "--open", seed, "image").log)
        found = [line.scalars[28] for line in lines if 28 in line.scalars]
        expected = [(avl, 8, vl) for avl, vl in zip(asked, found, strict=True) if vl != min(avl, 8)]
        assert [each.numbers for each in list_choices(tmp_path, "--open", seed)] == expected


def test_listed_trims_are_the_lengths_that_programs_find(tmp_path: pathlib.Path) -> None:
    source = f"        la a1, numbers\n{ALL}        li t1, 12\n        vsetvli t0, t1, e8, m1, ta, ma\n"
    source += f"here:   vle8ff.v v8, (a1)\n        csrr a0, vl\n{EXIT}{DATA}"
    labels = make_image(find_program(), tmp_path / "image", source)
    here = place_of(tmp_path, labels["here"])
    for seed in range(1, 31):
        vl = exit_status(tmp_path, "--open", seed)
        assert list_choices(tmp_path, "--open", seed) == ([Choice(here, "trim", (vl,))] if vl != 12 else [])


@pytest.mark.parametrize("name", PROGRAMS)
def test_list_changes_neither_run_nor_log(tmp_path: pathlib.Path, name: str) -> None:
    make_image(find_program(), tmp_path / "image", PROGRAMS[name].relying)
    for seed in (0, 1, 2):
        plain = record_log(tmp_path, *LIMIT, "--open", seed, "image")
        assert record_log(tmp_path, *LIMIT, "--open", seed, "--chosen", "chosen", "image") == plain
        assert ((tmp_path / "chosen").read_text() == "") == (seed == 0)


def test_list_without_choices_replaces_old_file(tmp_path: pathlib.Path) -> None:
    make_image(find_program(), tmp_path / "image", TAIL)
    (tmp_path / "chosen").write_text("old\n" * 100)
    assert not list_choices(tmp_path, "--open", 0)


def refused(folder: pathlib.Path, *arguments: object) -> tuple[int, str]:
    """The status and the message of a run that is refused before it starts. Its output is empty."""
    make_image(find_program(), folder / "image", TAIL)
    result = record(folder, *arguments, "image", counts=False)
    assert result.stdout == b""
    return result.status, result.stderr.removeprefix("vecmon-record: ").removesuffix("\n")


def test_list_needs_seed(tmp_path: pathlib.Path) -> None:
    assert refused(tmp_path, "--chosen", "chosen") == (2, "--chosen needs --open")
    assert not (tmp_path / "chosen").exists()


@pytest.mark.parametrize("path", ["file", "./file", "link"])
def test_list_in_file_of_log_is_refused(tmp_path: pathlib.Path, path: str) -> None:
    (tmp_path / "link").symlink_to("file")
    outputs = ["--open", 1, "--to", 5, "--log", "file", "--chosen", path]
    message = "--log and --chosen name the same file; use a different path for each"
    assert refused(tmp_path, *outputs) == (2, message)
    assert not (tmp_path / "file").exists()


@pytest.mark.parametrize("name", ["image", "bytes", "registers"])
def test_list_in_input_is_refused(tmp_path: pathlib.Path, name: str) -> None:
    (tmp_path / "bytes").write_bytes(bytes(8))
    (tmp_path / "registers").write_bytes(b"x1 1\n")
    inputs = ["--memory", "100000:rw:bytes", "--registers", "registers"]
    message = f"--chosen would overwrite the input {name}; use another path"
    assert refused(tmp_path, "--open", 1, *inputs, "--chosen", name) == (2, message)


@pytest.mark.parametrize("log", [[], ["--log", "log", "--to", 5]], ids=["alone", "with a log"])
def test_unwritable_list_is_refused(tmp_path: pathlib.Path, log: Sequence[object]) -> None:
    """A folder can't be opened, so nothing runs. A full device takes no line, and the run stops."""
    assert refused(tmp_path, "--open", 1, *log, "--chosen", "/") == (5, "cannot write /")
    result = record(tmp_path, "--open", 1, *log, "--chosen", "/dev/full", "image", counts=False)
    assert (result.status, result.stderr) == (5, "vecmon-record: cannot write choices\n")


def test_files_keep_their_bytes_if_another_cannot_be_opened(tmp_path: pathlib.Path) -> None:
    for unopened in ("--log", "--chosen"):
        paths = {option: "folder/file" if option == unopened else "file" for option in ("--log", "--chosen")}
        (tmp_path / "file").write_text("old\n" * 100)
        outputs = [word for option, path in paths.items() for word in (option, path)]
        assert refused(tmp_path, "--open", 1, "--to", 5, *outputs) == (5, "cannot write folder/file")
        assert (tmp_path / "file").read_text() == "old\n" * 100


def test_list_may_be_written_to_a_pipe(tmp_path: pathlib.Path) -> None:
    make_image(find_program(), tmp_path / "image", TAIL)
    expected = list_choices(tmp_path, "--open", 1)
    read, write = os.pipe()
    command = [str(built_recorder()), "--open", "1", "--chosen", f"/dev/fd/{write}", "image"]
    subprocess.run(command, cwd=tmp_path, pass_fds=[write], capture_output=True, check=True)
    os.close(write)
    with open(read, "rb") as lines:
        assert len(lines.read().splitlines()) == len(expected)
