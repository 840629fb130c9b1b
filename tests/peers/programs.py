"""Random programs of `vecmon-lab programs`: the digests that `vecmon` and QEMU in user mode print after each ten instructions.

A digest is one of all registers, and the last one also of memory (docs/GOLDEN_VECTORS.md).
"""

import argparse
import os
import pathlib
import subprocess
import tempfile
from collections.abc import Sequence
from concurrent.futures import ThreadPoolExecutor
from contextlib import redirect_stdout

from tests.peers.tally import Tally
from vecmon_lab.programs import command
from vecmon_lab.vectors.on_qemu import qemu

EXITED = "00000000\n"  # the last line of the output
OF_ONES = 10  # each tenth program runs with the other policy as well


def write_programs(folder: pathlib.Path, count: int, length: int, seed: int, *options: str) -> list[pathlib.Path]:
    """Writes programs of a number of instructions with `vecmon`'s digests: `.elf` and `.reference`."""
    parser = argparse.ArgumentParser()
    command.add_arguments(parser)
    words = [f"{folder}", "--count", f"{count}", "--length", f"{length}", "--seed", f"{seed}", *options]
    with open(os.devnull, "w", encoding="ascii") as unread, redirect_stdout(unread):
        command.run(parser.parse_args(words))
    return sorted(folder.glob("*.elf"), key=lambda path: int(path.stem.rpartition("_")[2]))


def tally_of(paths: Sequence[pathlib.Path], policy: str = "keep", faults: bool = False) -> Tally:
    """Runs programs on QEMU, and compares what they print with the references."""
    tally = Tally(f"{'programs that fault' if faults else 'programs'} on QEMU, policy {policy}")
    with ThreadPoolExecutor(os.cpu_count()) as pool:
        for path, printed in zip(paths, pool.map(lambda path: _printed([*qemu(policy), f"{path}"]), paths)):
            if printed == path.with_suffix(".reference").read_text("ascii") + EXITED:
                tally.agreeing += 1
            else:
                tally.differing.append(path.stem)
    return tally


def compare(count: int, length: int, seed: int, faulting: int) -> list[Tally]:
    """Compares programs of a length from a seed on, each tenth also with agnostic elements as ones; and some that fault."""
    with tempfile.TemporaryDirectory() as folder:
        paths = write_programs(pathlib.Path(folder, "exit"), count, length, seed)
        ended = write_programs(pathlib.Path(folder, "fault"), faulting, length, seed, "--faults")
        return [tally_of(paths), tally_of(paths[::OF_ONES], "ones"), tally_of(ended, faults=True)]


def _printed(words: Sequence[str]) -> str:
    return subprocess.run(words, stdout=subprocess.PIPE, text=True).stdout
