"""Arguments that don't fit: explained where the machine answers E04, and only there; and the explanations."""

import random

import pytest

from vecmon_lab.assembler.commands import COMMANDS, OF_THE_CONSOLE
from vecmon_lab.assembler.argument_errors import argument_error
from vecmon_lab.machine.session import Session

NUMBERS = "0 1 2 8 9 10 16 17 32 33 64 255 256 257 999 1000 1001 01 -1 1.5 0x8 99999999999".split()
ADDRESSES = "0 4 10000 10001 1000c 1000C 1000d 20000 fffffffff000 1000000000000 0x10000 0X4 -4 nosuch main+4".split()
ADDRESSES += ["0" * 16, "0" * 17, "f" * 16, "f" * 17, "0" * 13 + "100"]
REGISTERS = "x0 x1 x9 x01 x10 x31 x32 X1 a0 sp v0 v9 v00 v31 v32 pc 5".split()
OTHERS = "r rw wr rwx RW x keep ones none abc ab 0g 0102 e32 nop , addi".split()
OTHERS += ["ab" * 32, "AB" * 32, "ab" * 33, "ab" * 256, "ab" * 257]
PAST_THE_END = "the pages would end past 2^48"


def test_argument_errors_match_machine_refusals(session: Session) -> None:
    draws = random.Random(8)
    words = [*NUMBERS, *ADDRESSES, *REGISTERS, *OTHERS]
    lines = dict[str, str]()
    for name in [*COMMANDS] * 150:
        if name not in OF_THE_CONSOLE:
            command = name if name[0] == "*" else f"1 {name}"
            count = len(COMMANDS[name].form.removeprefix("* ").split()) - 1 + draws.choice((0, 0, 0, 0, -1, 1))
            lines[" ".join([command, *draws.choices(words, k=max(0, count))])] = name
    refused = 0
    for line, name in lines.items():
        session.do_all(["1 enter", "1 stop", line])
        is_refused = session.do(line)[0][2:] == "E04"
        shown = argument_error(line, COMMANDS[name].form)
        is_past_the_end = line.startswith("1 map fffffffff000 ") and line.split()[3] != "1"
        assert is_refused == (shown != PAST_THE_END or is_past_the_end), line
        refused += is_refused
    assert refused > 500 and len(lines) - refused > 100


@pytest.mark.parametrize(
    "line, expected",
    [
        ("1 break nosuch", "nosuch is no address, which has only hexadecimal digits"),
        ("1 break 0x10000", "0x10000 begins with 0x, which is left out here"),
        ("1 setpc 10002", "10002 isn't divisible by 4: the last digit is 0, 4, 8 or c"),
        ("1 asm 10001 nop", "10001 isn't divisible by 4: the last digit is 0, 4, 8 or c"),
        ("1 map 10100 1 rw", "10100 isn't divisible by 4,096: the last three digits are 000"),
        ("1 map fffffffff000 2 r", PAST_THE_END),
        ("1 step 300", "300 isn't from 1 to 256"),
        ("1 step 01", "01 begins with 0, and a decimal number doesn't"),
        ("1 dis 10000 x", "x is no decimal number"),
        ("1 set q5 1", "q5 is no register that can be set, which are x1 to x31"),
        ("1 set x0 1", "x0 is always 0"),
        ("1 set x5 -1", "-1 has a sign, and a value has none: -1 is ffffffffffffffff"),
        ("1 vreg v32 8", "v32 is no vector register, which are v0 to v31"),
        ("1 vreg v1 e32", "e32 is no width of an element, which are 8, 16, 32 and 64 bits"),
        ("1 vset v1 0", "0 has an odd number of digits, and a byte has two"),
        ("1 vset v1 00", "00 isn't the 32 bytes of a register, which have 64 digits"),
        ("1 map 10000 1 wr", "wr isn't one of r, w, x, rw, rx, wx and rwx"),
        ("1 peek 10000", "N is missing"),
        ("1 asm 10000", "TEXT is missing"),
        ("1 regs x10", "x10 is a word too many"),
        ("* run 9", "9 is no user, who are 1 to 8"),
    ],
)
def test_argument_error_names_argument(session: Session, line: str, expected: str) -> None:
    session.do("1 enter")
    assert session.do(line)[0][2:] == "E04"
    name = line.split()[1] if line[0] != "*" else line[:5]
    assert argument_error(line, COMMANDS[name].form) == expected
