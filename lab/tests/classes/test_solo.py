"""One student's part of a class: random classes, replayed for one student to the same lines."""

import pathlib
import random
import subprocess
import sys

import pytest

from support.class_tabs import LOOP, SECONDS, served
from support.places import SUM, TOP, TOURS
from vecmon_lab.classes.server import room as class_room
from vecmon_lab.classes.server.solo import OwnScript, own_lines
from vecmon_lab.machine.lines import is_look
from vecmon_lab.machine.session import Session

CLASS_OF_THREE = TOURS / "class_of_three"
WORDS = (
    ["go"] * 6 + ["stop"] * 2 + ["step 3", "break 10004", "unbreak 10004", "regs", "out", "leave", "enter", "load sum"]
)
WORDS += ["state", "setpc 10000", "policy ones", "asm 10008 vadd.vv v1, v2, v3", "nonsense", "load none", "break 10008"]
OPERATORS = [
    "slices 1",
    "slices 3",
    "slices 17",
    "slices 0",
    "slices 010",
    "run 2",
    "run 3",
    "run 9",
    "run",
    "list",
    "no",
]
PROGRAMS = [
    ["addi x5, x5, 1", "jal x0, -4"],
    ["vsetivli x0, 8, e32, m1, ta, ma", "vadd.vv v1, v1, v1", "addi x5, x5, 1", "jal x0, -12"],
    ["addi x5, x5, 1", "addi x5, x5, 1", "ebreak"],
    ["addi x5, x5, 3", "vid.v v1"],  # which is illegal before vsetvli
]


def random_class(draws: random.Random) -> list[str]:
    """The lines of a class in which up to five users do many things at once."""
    lines = []
    for user in range(1, draws.randrange(3, 6)):
        program = [f"asm {0x10000 + 4 * place:x} {text}" for place, text in enumerate(draws.choice(PROGRAMS))]
        lines += [f"{user} {line}" for line in ["enter", "map 10000 1 rwx", *program, "setpc 10000", "go"]]
    for _ in range(60):
        user = draws.randrange(1, 6)
        operator = draws.choice([f"slices {draws.randrange(1, 20)}", *OPERATORS])
        lines.append(f"* {operator}" if draws.randrange(3) == 0 else f"{user} {draws.choice(WORDS)}")
    return lines


@pytest.mark.parametrize("seed", range(12))
def test_solo_script_repeats_random_classes(program: pathlib.Path, seed: int) -> None:
    lines = [line for line in random_class(random.Random(seed)) if not is_look(line)]
    script = "".join(f"{line}\n" for line in lines).encode()
    whole = subprocess.run([program, "/dev/stdin", f"sum={SUM}"], input=script, stdout=subprocess.PIPE, check=True)
    for digit in "12345":
        part = OwnScript(digit)
        with Session(program, {"sum": SUM}) as session, Session(program, {"sum": SUM}) as single:
            part.follow(session, single, script)
        alone, expected = part.script, part.answers
        assert expected == [line for line in whole.stdout.decode().splitlines() if line[0] == digit]
        own = "".join(f"{line}\n" for line in alone).encode()
        output = subprocess.run([program, "/dev/stdin", f"sum={SUM}"], input=own, stdout=subprocess.PIPE, check=True)
        assert [line for line in output.stdout.decode().splitlines() if line[0] != "*"] == expected
        assert all(line[0] == digit or line.startswith("* slices ") for line in alone)


@pytest.mark.parametrize("digit", "123")
def test_solo_script_repeats_tour_class(program: pathlib.Path, digit: str) -> None:
    lines = [line for line in CLASS_OF_THREE.read_text().splitlines() if line and not is_look(line)]
    part = OwnScript(digit)
    with Session(program) as session, Session(program) as single:
        part.follow(session, single, "".join(f"{line}\n" for line in lines).encode())
    with Session(program) as session:
        assert own_lines(session, part.script, digit) == part.answers != []


@pytest.mark.asyncio
@pytest.mark.by_command("solo")
async def test_solo_command_writes_script(tmp_path: pathlib.Path, monkeypatch: pytest.MonkeyPatch) -> None:
    monkeypatch.setattr(class_room, "WATCH_SECONDS", 1e9)  # so that the script has no looks of the server's
    folder = tmp_path / "class"
    async with served(folder, {"sum": SUM}, machines=2) as room:
        tab, other, teacher = await room.sit("B3"), await room.sit("B5"), await room.sit("teacher")
        for each in (tab, other):
            await each.do(*LOOP, "go", slices=2)
        await teacher.do("slices 7", machine="B")
        await tab.do("stop", "step 1", "load sum", "go", slices=3)
    run = subprocess.run(
        [sys.executable, "-m", "vecmon_lab", "solo", str(folder), "B3"],
        cwd=TOP,
        capture_output=True,
        text=True,
        timeout=SECONDS,
    )
    expected = [*LOOP, "go", "* slices 6", "stop", "step 1", "load sum", "go", "* slices 3"]
    own = [line if line[0] == "*" else f"3 {line}" for line in expected]
    assert (run.returncode, run.stderr) == (0, "")
    assert run.stdout.splitlines()[: len(own)] == own
