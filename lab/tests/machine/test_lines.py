"""Where answers end, against the program itself: after each line comes a line `9`, which is answered `* E01`."""

import hashlib
import pathlib
import random
import re
import subprocess
from collections.abc import Iterator, Sequence

import pytest

from support.places import SCRIPTS, TOP
from vecmon_lab.machine.answers import OutOfStep, is_refusal, is_whole
from vecmon_lab.machine.lines import BadLine, is_look
from vecmon_lab.machine.session import Session
from vecmon_lab.tables.table import read_table

CRATES, TESTS = TOP / "crates", TOP / "tests"
IMAGES = {name: SCRIPTS / name for name in "magic class order machine entries interp entry bare good short".split()}
IMAGES |= {name: SCRIPTS / "images" / name for name in ("sum", "squares")}
COMMANDS = [form for _, form, _, answer, _ in read_table("commands") if answer != "-"]  # those of the machine
FORMS = """
enter;enter;enter;leave;load NAME;map ADDRESS COUNT PERMISSION;map 10000 1 rwx;map 20000 1 rw;poke ADDRESS BYTES
peek ADDRESS COUNT;set SCALAR VALUE;set x17 VALUE;setpc ADDRESS;setpc 10000;regs;vset VECTOR BYTES;vreg VECTOR WIDTH
vcsr;policy POLICY;asm ADDRESS TEXT;asm 10000 TEXT;asm 10004 TEXT;dis ADDRESS COUNT;dis 10000 COUNT;break ADDRESS
unbreak ADDRESS;breaks;step COUNT;step 1;go;go;stop;stop;state;trace;out;list;dance
"""
OPERATOR_FORMS = "slices COUNT;slices 8;run COUNT;list;stats;slices;list 1;dance;regs"
TEXTS = """
jal x0, 0;ebreak;ecall;addi x5, x5, 1;vsetivli x0, 8, e32, m1, ta, ma;vid.v v1;vadd.vv v2, v1, v1;lw x5, 0(x5)
vse32.v v1, (x10);li a0, 1;.word 0;vadd.vv v1,  v2
"""
WORDS = {
    "ADDRESS": "10000 10004 10008 1000C 10ffc 10fff 20000 0 ffffffffffff fffffffffffff000 10001 x".split(),
    "COUNT": "1 2 3 4 8 15 16 17 256 257 0 016 -1 99999999999999999999".split(),
    "PERMISSION": "r rw rwx wr".split(),
    "BYTES": ["00", "0102FF", "ff" * 32, "13000000", "0", "zz"],
    "SCALAR": "x1 x5 x10 x17 x31 x0 x32".split(),
    "VECTOR": "v0 v1 v31 v32".split(),
    "WIDTH": "8 16 32 64 128".split(),
    "VALUE": "0 1 40 5d 10000 1f FFFFFFFFFFFFFFFF 10000000000000000".split(),
    "POLICY": "keep ones one".split(),
    "NAME": [*IMAGES, "none"],
    "TEXT": re.split("[;\n]", TEXTS.strip()),
}


def stored_scripts() -> Iterator[pathlib.Path]:
    """The scripts of the repository: files whose first line is a user's or the operator's; `.steps` are sentences."""
    for file in sorted([*CRATES.glob("*/stdin"), *CRATES.glob("*/data/**/*"), *TESTS.glob("*/data/**/*")]):
        if file.is_file() and file.suffix != ".steps" and re.match(rb"[1-8*] ", file.read_bytes()):
            yield file


def drawn_lines(seed: int, count: int) -> Iterator[str]:
    """Lines of four users and the operator; most are accepted where the machine has what they name."""
    chance = random.Random(seed)
    forms = {"*": OPERATOR_FORMS.split(";")} | dict.fromkeys("1238", re.split("[;\n]", FORMS.strip()))
    for _ in range(count):
        writer = chance.choice("11223388*")
        words = [chance.choice(WORDS.get(word, [word])) for word in chance.choice(forms[writer]).split(" ")]
        if chance.random() < 0.03:
            words.insert(chance.randrange(len(words) + 1), chance.choice(["1", "x1", "10000", "", "~"]))
        yield f"{writer} {(' ' if chance.random() < 0.9 else '  ').join(words)}"


def plain_run(program: pathlib.Path, script: str) -> list[str]:
    """The output of a plain run of the program."""
    words = [f"{name}={path}" for name, path in IMAGES.items()]
    run = subprocess.run([program, "/dev/stdin", *words], input=script.encode("ascii"), capture_output=True, check=True)
    return run.stdout.decode("ascii").splitlines()


def answers_by_sentinel(program: pathlib.Path, lines: Sequence[str]) -> list[list[str]]:
    """The answer to each line."""
    answers: list[list[str]] = [[]]
    for part in plain_run(program, "".join(f"{line}\n9\n" for line in lines)):
        if part == "* E01":
            answers.append([])
        else:
            answers[-1].append(part)
    return answers[:-1]


def check_lines(program: pathlib.Path, lines: Sequence[str]) -> list[list[str]]:
    """A session gives the answers that the sentinel divides, and records what a plain run needs to give the same."""
    answers = answers_by_sentinel(program, lines)
    assert len(answers) == len(lines)
    with Session(program, IMAGES) as session:
        for line, answer in zip(lines, answers):
            assert session.do(line) == answer, line
        script = session.script.decode("ascii")
        assert script == "".join(f"{line}\n" for line in lines if not is_look(line))
        transcript = plain_run(program, script)
        assert transcript == [part for line, answer in zip(lines, answers) if not is_look(line) for part in answer]
        assert session.digest == hashlib.sha256("".join(f"{part}\n" for part in transcript).encode("ascii")).hexdigest()
    return answers


def test_stored_scripts_are_classified(program: pathlib.Path, session: Session) -> None:
    lines_of_all = 0
    for script in stored_scripts():
        lines = [line for line in script.read_text("latin-1").split("\n") if line]
        good = [line for line in lines if re.fullmatch("[1-8*] [ -~]{0,1022}", line)]
        for line in set(lines) - set(good):
            with pytest.raises(BadLine):
                session.do(line)
        check_lines(program, good)
        lines_of_all += len(good)
    assert lines_of_all > 3000


def test_each_command_has_the_form_of_its_answer() -> None:
    """Without a row in answers.txt, a session takes an answer for another line's."""
    names = [" ".join(form.split()[: 1 + (form[0] == "*")]) for form in COMMANDS]
    assert sorted(names) == sorted(name for name, _ in read_table("answers"))


def test_drawn_lines(program: pathlib.Path) -> None:
    accepted: set[str] = set()
    stops: list[list[str]] = []
    for seed in range(10):
        lines = list(drawn_lines(seed, 3000))
        for line, answer in zip(lines, check_lines(program, lines)):
            if not is_refusal(answer):
                accepted.add(f"{'*' if line[0] == '*' else 'user'} {line.split()[1]}")
            if line[0] == "*":
                stops.append([part.split()[1] for part in answer[:-1]])
    assert accepted == {" ".join((form if form[0] == "*" else f"user {form}").split()[:2]) for form in COMMANDS}
    assert {len(words) for words in stops} >= {0, 1, 2, 3}
    assert {word for words in stops for word in words} >= {"break", "ebreak", "exit", "fault"}


PLACE = "pc=0000000000010000"


@pytest.mark.parametrize(
    "line, answer",
    [
        ("1 step 1", [f"2 stepped 1 {PLACE}"]),
        ("1 step 1", [f"1 running {PLACE}"]),
        ("1 step 1", ["* E01"]),
        ("1 step 1", [f"1 stepped 1 {PLACE}\r"]),
        ("1 step 1", [f"stepped 1 {PLACE}"]),
        ("1 step 1", [""]),
        ("1 map 10000 1 rwx", ["1 ok."]),
        ("1 dance", ["1 ok"]),
        ("1 dance", ["1 E17"]),
        ("1 ", ["1 ok"]),
        ("1 regs", ["1 ok"]),
        ("1 regs", ["1 pc 0000000000010000", "1 E05"]),
        ("1 dis 10000 2", [f"1 {'0' * 16} {'0' * 8} .word 0x00000000", "1 E11"]),
        ("1 list", ["* list 1:- 2:- 3:- 4:- 5:- 6:- 7:- 8:-"]),
        ("* list", [f"1 ebreak {PLACE}"]),
        ("* list", ["* granted 0"]),
        ("* slices 1", [f"1 stepped 1 {PLACE}"]),
        ("* slices 1", ["1 E04"]),
        ("* slices 1", [f"1 ebreak {PLACE}", "* E04"]),
        ("* slices 1", [f"* ebreak {PLACE}"]),
        ("* run 1", ["* E01"]),
    ],
)
def test_impossible_answers_are_refused(line: str, answer: list[str]) -> None:
    for end in range(1, len(answer)):
        assert not is_whole(line, answer[:end])
    with pytest.raises(OutOfStep):
        is_whole(line, answer)


@pytest.mark.parametrize(
    "line",
    [
        "1 step 1\n* slices 1000",
        "1 step 1\r\n2 leave",
        "1 step 1\n",
        "\n1 step 1",
        "1 step\r1",
        "1 load a\0",
        "1 set\tx5 1",
        "1 step 1\x85* slices 1",
        "1 step 1\u2028* slices 1",
        "1 step １",
        "1 load ü",
        "1 \x7f",
        "1 " + "x" * 1023,
        "",
        "1",
        "*",
        " 1 enter",
        "9",
        "9 enter",
        "0 enter",
        "12 enter",
        "1enter",
        "** list",
        None,
        1,
        b"1 enter",
        ["1 enter"],
    ],
)
def test_forbidden_lines_are_never_sent(session: Session, line: str) -> None:
    for ask in (session.do, session.look):
        with pytest.raises(BadLine) as reply:
            ask(line)
        assert "\n" not in str(reply.value)
    assert session.script == b""
    assert session.do("1 enter") == ["1 entered"]


def test_longest_line_is_accepted(session: Session) -> None:
    assert session.do("1 " + "x" * 1022) == ["1 E03"]
    assert session.do("1 ") == ["1 E03"]


@pytest.mark.parametrize(
    "line",
    "1 regs;2 vcsr;3 vreg v0 8;4  dis 10000 1;5 peek 10000 1;6 state;7 breaks;8 trace 1;* list;* stats".split(";"),
)
def test_read_only_lines_are_recognized(session: Session, line: str) -> None:
    assert session.look(line) == session.do(line)
    assert session.script == b""


@pytest.mark.parametrize(
    "line", ["1 enter", "1 out", "1 step 1", "* slices 1", "* run 1", "1 list", "* regs", "1 ", "1 dance"]
)
def test_changing_lines_are_not_read_only(session: Session, line: str) -> None:
    assert not is_look(line)
    with pytest.raises(BadLine):
        session.look(line)
