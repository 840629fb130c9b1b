"""Counts worked out by hand, counts of images compared with the monitor's own steps, and the order of QEMU's."""

import pathlib
import re
import shutil
import subprocess
from collections import Counter

import pytest

from tests.program import TOP, difference
from tests.recordings.recorder import read_counts, record
from tests.recordings.stepping import stepped
from vecmon_lab.vectors.on_qemu import QEMU

HERE = pathlib.Path(__file__).parent
IMAGES = [
    *(TOP / "tests/command_lines/data/images" / name for name in ("good", "squares", "sum")),
    *(TOP / "lab/tests/data/images" / name for name in ("squares_dwarf5", "sum_dwarf4", "sum_dwarf5")),
    TOP / "tests/isolation/data/sortgcc",
]
ON_QEMU = [IMAGES[1], IMAGES[2], IMAGES[-1]]
MOST = 3000  # instructions that are stepped of an image
SCALAR_LOOP = (0x00300293, 0x010000EF, 0xFFF28293, 0xFE029CE3, 0x00100073, 0x00008067)
"""li x5, 3; a call of the last one; addi x5, x5, -1; bnez x5, to the call; ebreak; ret."""
MASKED_VECTORS = (0x00500513, 0x010572D7, 0x5E02B057, 0x00430157, 0x0205E127, 0x05D00893, 0x00000073)
"""li x10, 5; vsetvli x5, x10, e32, m1, tu, mu; vmv.v.i v0, 5; vadd.vv v2, v4, v6, v0.t; vse32.v v2, (x11);
li x17, 93; ecall. Of the mask's bits 0 to 4 those of elements 0 and 2 are set."""


def write_inputs(folder: pathlib.Path, arguments: tuple[int, ...]) -> list[str]:
    """Write a program that starts at 1000, and a page at 2000, whose address x11 has. Return the recorder's arguments for them."""
    (folder / "code").write_bytes(b"".join(word.to_bytes(4, "little") for word in arguments))
    (folder / "page").write_bytes(bytes(4096))
    (folder / "registers").write_text("pc 1000\nx11 2000\n", "ascii")
    return ["--memory", "1000:rx:code", "--memory", "2000:rw:page", "--registers", "registers"]


@pytest.mark.parametrize("name, arguments", [("scalar_loop", SCALAR_LOOP), ("masked_vectors", MASKED_VECTORS)])
def test_counts_equal_hand_worked_counts(tmp_path: pathlib.Path, name: str, arguments: tuple[int, ...]) -> None:
    completed = record(tmp_path, *write_inputs(tmp_path, arguments))
    assert (completed.status, completed.stdout, completed.stderr) == (0, b"", "")
    assert read_counts(completed.counts) == read_counts((HERE / "data" / name).read_text("ascii"))


@pytest.mark.parametrize("policy", ["keep", "ones"])
@pytest.mark.parametrize("image", IMAGES, ids=[path.name for path in IMAGES])
def test_counts_equal_monitor_steps(tmp_path: pathlib.Path, image: pathlib.Path, policy: str) -> None:
    counts, output = stepped(image, policy, MOST)
    limit = ["--ticks", counts.ticks] if counts.end.startswith("running") else []
    completed = record(tmp_path, "--policy", policy, *limit, image)
    assert (completed.status, completed.stdout, completed.stderr) == (0, output, "")
    assert read_counts(completed.counts) == counts


@pytest.mark.skipif(shutil.which(QEMU[0]) is None, reason="there is no QEMU")
@pytest.mark.parametrize("image", ON_QEMU, ids=[path.name for path in ON_QEMU])
def test_addresses_equal_those_qemu_executes(tmp_path: pathlib.Path, image: pathlib.Path) -> None:
    """How often each address comes, as QEMU logs it one instruction after another, the one that faults among them."""
    shutil.copyfile(image, tmp_path / "image")
    (tmp_path / "image").chmod(0o755)
    command = [*QEMU, "-singlestep", "-d", "exec,nochain", "-D", "log", "./image"]
    subprocess.run(command, cwd=tmp_path, stdout=subprocess.DEVNULL, check=False)
    logged = re.findall(r"^Trace \d+: .*?/([0-9a-f]{16})/", (tmp_path / "log").read_text("ascii"), re.MULTILINE)
    counts = read_counts(record(tmp_path, "image").counts)
    retired = Counter[int]()
    for (pc, _), numbers in counts.words.items():
        retired[pc] += numbers[0]
    if counts.end.startswith("fault"):
        assert f" pc={logged.pop()} " in counts.end
    assert counts.instructions == len(logged)
    assert retired == Counter(int(pc, 16) for pc in logged)


def test_first_ticks_of_run_are_counted(tmp_path: pathlib.Path) -> None:
    """The last instruction may take more than are left: a store of five elements has one tick of five."""
    words = write_inputs(tmp_path, MASKED_VECTORS)
    stored = read_counts((HERE / "data/masked_vectors").read_text("ascii"))
    for ticks, instructions, spent in [(1, 1, 1), (4, 4, 4), (5, 5, 9), (9, 5, 9), (10, 6, 10), (11, 7, 11)]:
        counts = read_counts(record(tmp_path, "--ticks", ticks, *words).counts)
        pc = 0x1000 + 4 * instructions
        end = stored.end if instructions == 7 else f"running pc={pc:016x}"
        assert (counts.end, counts.instructions, counts.ticks) == (end, instructions, spent)
        assert counts.words.items() <= stored.words.items()


def test_rewritten_word_has_its_own_row(tmp_path: pathlib.Path) -> None:
    """A program that runs once as it was, and once after it wrote over its first word."""
    store = (0x00A62023, 0xFE0596E3)  # sw x10, 0(x12); bnez x11, to the first word
    words = (0x00150513, 0x00050013, *(0x00000013,) * 2, *store)
    (tmp_path / "code").write_bytes(b"".join(word.to_bytes(4, "little") for word in words))
    (tmp_path / "registers").write_text("pc 1000\nx10 00000592\nx11 1\nx12 1000\n", "ascii")
    completed = record(tmp_path, "--memory", "1000:rwx:code", "--registers", "registers")
    counts = read_counts(completed.counts)
    # the word 593, addi x11, x0, 0, takes the place of addi x10, x10, 1, and then the branch falls through
    assert counts.words[0x1000, 0x00150513][0] == counts.words[0x1000, 0x00000593][0] == 1
    assert counts.words[0x1014, 0xFE0596E3][0] == 2
    assert (counts.end.partition(" value=")[0], counts.instructions) == ("fault cause=2 pc=0000000000001018", 12)
    assert not difference(completed.stderr, "")
