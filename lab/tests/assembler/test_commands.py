"""The table of commands: the manuals' tables come from it, the machine accepts its commands, refusals refer to it."""

import pathlib
import re
import subprocess

import pytest

from support.command_tables import with_tables
from support.places import DOCS
from vecmon_lab.assembler.commands import COMMANDS, MEANINGS, OF_THE_CONSOLE, explain_refusal, help_on
from vecmon_lab.machine.answers import Refused, read
from vecmon_lab.machine.session import Session
from vecmon_lab.tables.table import read_table

PAGES = {
    "COMMANDS.md": [*dict.fromkeys(row[0] for row in read_table("commands"))][:-1] + ["Refusals"],
    "DEBUGGING.md": ["Commands of the console"],
}


@pytest.mark.parametrize("name", PAGES)
def test_pages_contain_command_tables(name: str) -> None:
    page = (DOCS / name).read_text("utf-8")
    assert with_tables(page) == page


@pytest.mark.parametrize("name, section", [(name, section) for name, sections in PAGES.items() for section in sections])
def test_changed_row_is_rebuilt(name: str, section: str) -> None:
    page = (DOCS / name).read_text("utf-8")
    start = page.index(f"# {section}\n")
    row = re.compile(r"^\| (?:`|E\d\d).*\n", re.MULTILINE).search(page, start)
    assert row and "\n#" not in page[start + len(section) : row.start()]
    without = page[: row.start()] + page[row.end() :]
    changed = page[: row.start()] + row[0].replace(" | ", " | odd ", 1) + page[row.end() :]
    assert page not in (without, changed)
    assert with_tables(without) == with_tables(changed) == page


def test_machine_accepts_listed_commands(session: Session, program: pathlib.Path) -> None:
    help_text = subprocess.run([program, "--help"], stdout=subprocess.PIPE, check=True).stdout.decode("ascii")
    named = set(re.findall("[a-z]+", help_text))
    session.do("1 enter")
    for name in set(COMMANDS) - OF_THE_CONSOLE:
        line = name if name[0] == "*" else f"1 {name}"
        assert session.do(line)[0][2:5] != "E03", name
        assert name.removeprefix("* ") in named
    for name in OF_THE_CONSOLE:
        assert session.do(f"1 {name}") == ["1 E03"]


def test_every_refusal_has_meaning() -> None:
    assert list(MEANINGS) == [f"E{number:02}" for number in range(1, 17)]
    assert {code for command in COMMANDS.values() for code in command.refusals} <= {*MEANINGS, "-"}


@pytest.mark.parametrize(
    "name, expected",
    [
        ("peek", ["peek ADDR N: prints 1 to 256 bytes from ADDR", "  E11: an address isn't mapped"]),
        ("* list", ["* list: prints each user's state"]),
        ("run", ["run: runs the program to its next stop; Ctrl-C stops it too"]),
        ("E14", ["E14: the user's program isn't running"]),
        ("dance", ["there is no command dance; help lists them"]),
    ],
)
def test_help_shows_form_and_refusals(name: str, expected: list[str]) -> None:
    assert help_on(name) == expected


def test_help_lists_the_commands() -> None:
    assert help_on("")[1] == "Memory: map ADDR PAGES PERM, poke ADDR HEX, peek ADDR N"
    listed = " ".join(help_on(""))
    assert all(command.form in listed for command in COMMANDS.values())


@pytest.mark.parametrize(
    "line, expected",
    [
        ("1 dance", ["E03: there is no command dance"]),
        ("1 regs 5", ["E04: 5 is a word too many; the form is regs"]),
        ("* slices 0", ["E04: 0 isn't from 1 to 1,000; the form is * slices N"]),
        ("1 ", ["E03: unknown command, or the line has no command"]),
        ("1 slices 5", ["E03: slices is the operator's: * slices N"]),
        ("* regs", ["E03: regs is a user's: regs"]),
        ("1 load it", ["E08: there is no image it"]),
        ("1 unbreak 10000", ["E13: there is no breakpoint"]),
        ("2 regs", ["E05: the user has not entered"]),
        ("1 peek 0 4", ["E11: an address isn't mapped"]),
        (
            "1 asm  10000   addi x1,  x0, 4096",
            [
                "addi x1,  x0, 4096",
                "              ^",
                "E15: 4096 doesn't fit here, as the machine reads it: addi x1,  x0, 4096; the form is addi rd, rs1, imm, with imm from -2048 to 2047",
            ],
        ),
        (
            "1 asm 10000 vadd.vv v1, v2 ",
            [
                "vadd.vv v1, v2",
                "              ^",
                "E15: an operand is missing at the end; the form is vadd.vv vd, vs2, vs1[, v0.t]",
            ],
        ),
        ("1 asm 10000 li x1, 5", ["li x1, 5", "^", "E15: li is a pseudo-instruction, which only a source has"]),
        ("1 asm 10000 jmp 8", ["jmp 8", "^", "E15: there is no instruction jmp; near it is jal"]),
    ],
)
def test_refusal_is_explained(session: Session, line: str, expected: list[str]) -> None:
    for before in ("1 enter", "1 map 10000 1 rwx"):
        session.do(before)
    answer = read(session.do(line))
    assert isinstance(answer, Refused)
    assert explain_refusal(line, answer) == expected
