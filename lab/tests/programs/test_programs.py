"""Random programs: on QEMU and on vecmon, the same by their seed, and what is met in them."""

import json
import pathlib
import subprocess
from collections import Counter

import pytest

from support.commands import Lab
from vecmon_lab.instructions.table import instruction_table
from vecmon_lab.meanings.extensions import names_lacked_by
from vecmon_lab.programs.draw import draw_program
from vecmon_lab.vectors.on_qemu import QEMU


@pytest.mark.by_command("programs")
def test_generated_programs_exit_normally_on_vecmon(lab: Lab, tmp_path: pathlib.Path) -> None:
    assert lab("programs", tmp_path, "--count", "2", "--length", "300")[0] == 0
    for number in range(2):
        reference = (tmp_path / f"program_{number}.reference").read_text("ascii")
        status, output, errors = lab("run", tmp_path / f"program_{number}.elf")
        assert (status, output) == (0, f"{reference}00000000\n".encode())
        # for signals on Linux
        assert [line.split()[2:4] for line in errors.splitlines()] == [["ecall", "132"], ["ecall", "134"]]
        state = json.loads((tmp_path / f"program_{number}.state").read_text("ascii"))
        assert len(state["v"]) == 32 and len(state["memory"]["20000"]) == 2 * 8192


@pytest.mark.usefixtures("qemu")
def test_faults_on_qemu(lab: Lab, tmp_path: pathlib.Path) -> None:
    assert lab("programs", tmp_path, "--count", "8", "--length", "50", "--faults")[0] == 0
    paths = sorted(tmp_path.glob("*.elf"))
    assert len(paths) == 8
    for path in paths:
        assert lab("run", path)[0] == 139
        output = subprocess.run([*QEMU, path], stdout=subprocess.PIPE, text=True).stdout
        assert output == path.with_suffix(".reference").read_text("ascii") + "00000000\n", path
    expected = "vecmon-lab: programs that fault want a handler of signals: --environment linux has one\n"
    assert lab("programs", tmp_path, "--faults", "--environment", "bare") == (2, b"", expected)


def test_equal_seeds_give_equal_programs(lab: Lab, tmp_path: pathlib.Path) -> None:
    folders = [tmp_path / name for name in ("one", "same", "choices")]
    arguments = ["--count", "2", "--length", "100", "--seed", "7"]
    for folder in folders:
        assert lab("programs", folder, *arguments, *(["--choices"] if folder.name == "choices" else []))[0] == 0
    one, same, choices = ([path.read_bytes() for path in sorted(folder.iterdir())] for folder in folders)
    assert one == same and len(one) == 6 and one[0] != one[3] and one[0] != choices[0]


def test_machine_mode_references_match_their_addresses(lab: Lab, tmp_path: pathlib.Path) -> None:
    assert lab("programs", tmp_path, "--length", "100", "--environment", "bare")[0] == 0
    state = json.loads((tmp_path / "program_0.state").read_text("ascii"))
    assert list(state["memory"]) == ["80020000"] and state["x"]["29"] == "80021000"


def test_programs_cover_most_instructions(lab: Lab, tmp_path: pathlib.Path) -> None:
    drawn = [draw_program(f"{seed}", 1000, False) for seed in range(12)]
    coverage = sum((each.coverage for each in drawn), Counter[tuple[str, int, bool, str]]())
    names = {name for name, *_ in coverage}
    assert len({*instruction_table()} - names_lacked_by("qemu") - names) < 150 and not names & {"ecall", "ebreak"}
    assert len({vtype for _, vtype, _, _ in coverage}) == 22
    assert {tail for *_, tail in coverage} == {"full", "ta", "tu"}
    head = lab("programs", tmp_path, "--length", "10", "--coverage")[1].splitlines()[1]
    assert head.decode().split() == ["instruction", "type", "mask", "tail", "times"]


def test_every_result_is_read() -> None:
    """No scalar register is written twice between two digests without being read, by an independent decoder of the words."""
    table = {
        row: (int(row.bits.replace("-", "0"), 2), int(row.bits.replace("0", "1").replace("-", "0"), 2))
        for row in instruction_table().values()
    }
    written, writes = set[int](), 0
    words = iter(draw_program("3", 1000, False).words)
    for word in words:
        if word < 0:
            written.clear()
            next(words, None)
            continue
        row = next(row for row, (bits, mask) in table.items() if word & mask == bits)
        places = {"rs1": 15, "rs2": 20}
        written -= {word >> places[place] & 31 for place in row.fields() if place in places}
        if "rd" in row.fields() and word >> 7 & 31:
            assert word >> 7 & 31 not in written
            written.add(word >> 7 & 31)
            writes += 1
    assert writes > 100
