"""The start and the end of assembler sources: the same in commands, lessons, classes, the playground and gdb."""

import json
import pathlib

import pytest

from support.commands import Lab
from support.console import shown
from support.desk import Desk
from vecmon_lab.assembler.source import assemble
from vecmon_lab.compilers.compiler import Compiler
from vecmon_lab.exercises.answer import attempt, read_answer
from vecmon_lab.exercises.exercise import read_exercise
from vecmon_lab.gdb.command import Target
from vecmon_lab.gdb.packets import Link
from vecmon_lab.guest.guest import Guest, started
from vecmon_lab.harness.assembled import assembled_image
from vecmon_lab.lessons.frames import make_frames
from vecmon_lab.lessons.script import read_assembled, send
from vecmon_lab.machine.answers import ScalarRegisters
from vecmon_lab.machine.session import Session
from vecmon_lab.page.build.pages import PAGES, page_file
from vecmon_lab import LabError

CALLS = """# A function with a prologue and an epilogue before main, as compilers write them.
double: addi sp, sp, -16
        sd ra, 8(sp)
        slli a0, a0, 1
        ld ra, 8(sp)
        addi sp, sp, 16
        ret
main:   addi sp, sp, -16
        sd ra, 8(sp)
        li a0, 21
        call double
        ld ra, 8(sp)
        addi sp, sp, 16
        ret
"""
ENDLESS = (
    "        li a0, 1\n        j end\n        li a0, 2\nend:\n"  # as for Venus and Ripes: a label ends the program
)
BY_RET, AFTER_LAST = "The program has ended by `ret`.", "The program has ended after its last instruction."
SENTENCES = [pytest.param(CALLS, BY_RET, 42, id="ret"), pytest.param(ENDLESS, AFTER_LAST, 1, id="end")]


@pytest.mark.parametrize("text, sentence, value", SENTENCES)
def test_lesson_and_console(
    program: pathlib.Path, tmp_path: pathlib.Path, text: str, sentence: str, value: int
) -> None:
    path = tmp_path / "own.s"
    path.write_text(text, "ascii")
    last = make_frames(read_assembled(text, "own.s"), program)[-2].states["1"]
    assert (last["stop"], int(last["x"]["10"], 16)) == (sentence, value)
    lines = shown([f"source {path}", "run", "regs", "step 1"])
    assert lines.count(sentence) == 2  # a further step ends it again


@pytest.mark.parametrize("text, sentence, value", SENTENCES)
def test_page(program: pathlib.Path, text: str, sentence: str, value: int) -> None:
    desk = Desk(program, {}, 100_000)
    desk.respond(json.dumps({"id": 1, "ask": "run", "text": text, "language": 0}))
    desk.settle()
    state = desk.seat.state
    desk.close()
    assert (desk.seat.condition, state["stop"], int(state["x"]["10"], 16)) == ("Ended", sentence, value)


@pytest.mark.parametrize("text, sentence, value", SENTENCES)
def test_run_profile_compare(lab: Lab, tmp_path: pathlib.Path, text: str, sentence: str, value: int) -> None:
    path = tmp_path / "own.s"
    path.write_text(text, "ascii")
    assert lab("run", path) == (0, b"", f"vecmon-lab: {path}: {sentence}\n")
    status, output, _ = lab("profile", path)
    assert status == 0 and sentence in output.decode()
    assert lab("compare", path)[0] == 0


def test_source_for_a_stock_assembler_ends_by_ret(lab: Lab, clang: Compiler, tmp_path: pathlib.Path) -> None:
    """Also one with data, whose image has more segments."""
    path = tmp_path / "own.s"
    path.write_text(f"{CALLS}.data\nnumbers: .word 1, 2\n", "ascii")
    done = lab("run", "--options", "stock", path)
    assert (done[0], BY_RET in done[2]) == (0, True)


@pytest.mark.parametrize("text, sentence, value", SENTENCES)
def test_gdb(tmp_path: pathlib.Path, text: str, sentence: str, value: int) -> None:
    path = tmp_path / "own.s"
    path.write_text(text, "ascii")

    class NoLink(Link):
        """Collects the text for gdb's console."""

        def __init__(self) -> None:
            self.sent = ""

        def send(self, text: str) -> None:
            self.sent += bytes.fromhex(text[1:]).decode() if text.startswith("O") else ""

        def is_interrupted(self) -> bool:
            return False

    link, image = NoLink(), assembled_image(path)
    with started(image, arguments=["own"]) as guest:
        target = Target(guest, link, image, lambda words: None)
        assert target.reply_to("c") == "T05replaylog:end;"
        assert sentence in link.sent
        assert target.reply_to("c") == "W00"


def test_registers_at_the_start(program: pathlib.Path) -> None:
    """By docs/IMAGES.md and docs/GRADING.md: x2 after `load`, and x1 in an exercise; by psABI the name of gp's symbol."""
    for text, pointer in (("nop", 0), ("nop\n.data\n.zero 8\n__global_pointer$: .word 1", 0x11008)):
        with Session(program) as session:
            guest = Guest(session)
            send(guest, ["enter", *assemble(text).load_lines()])
            x = guest.query("regs", ScalarRegisters).x
            assert list(x[:4]) == [0, 0x7FFFF000, 0x7FFFEFC0, pointer]
            assert guest.word_at(x[1])[1] == "ebreak"


@pytest.mark.parametrize("number", [1, 1023, 1024, 1025])
def test_end_has_room(lab: Lab, tmp_path: pathlib.Path, number: int) -> None:
    path = tmp_path / "own.s"
    path.write_text(f".rept {number}\nnop\n.endr\n.data\n.word 1\n", "ascii")
    assert assemble(path.read_text()).end == 0x10000 + 4 * number
    assert (
        lab("run", "--count", path)[2]
        == f"{number:,} instructions in {number:,} ticks\nvecmon-lab: {path}: {AFTER_LAST}\n"
    )


def test_bytes_after_the_last_instruction_are_no_end() -> None:
    assert assemble("nop\n.byte 0, 0, 0, 0").end == 0


def test_entry() -> None:
    assert assemble("a: nop\nmain: nop").entry == 0x10004
    assert assemble("_start: nop\nmain: nop").entry == 0x10000
    assert assemble("a: nop\n.data\nmain: .word 1").entry == 0x10000


def test_program_has_room_for_its_stack(program: pathlib.Path) -> None:
    most = assemble("nop\n.bss\n.zero 250 * 4096")
    with Session(program) as session:
        send(Guest(session), ["enter", *most.load_lines()])
    with pytest.raises(LabError, match="grows beyond 251 pages"):
        assemble("nop\n.bss\n.zero 250 * 4096 + 1")


def test_answer_has_to_return(program: pathlib.Path, tmp_path: pathlib.Path) -> None:
    exercise, path = read_exercise(pathlib.Path("doubles")), tmp_path / "own.s"
    path.write_text("nop\n", "ascii")
    with pytest.raises(LabError, match="is `ret` missing"):
        attempt(program, read_answer(path), exercise, exercise.cases[0])


NUMBERS = (0, 7, -42, 1 << 63, (1 << 64) - 1, 48879)


def test_functions_that_print_numbers(lab: Lab, tmp_path: pathlib.Path) -> None:
    """The lines that File adds, compared with Python's numbers."""
    calls = "".join(
        f"li a0, {number}\ncall {name}\ncall line\n"
        for number in NUMBERS
        for name in ("put_int", "put_uint", "put_hex")
    )
    line = "line: li a0, 1\nla a1, newline\nli a2, 1\nli a7, 64\necall\nret\n.data\nnewline: .byte 10\n.text\n"
    path = tmp_path / "own.s"
    path.write_text(f"main: {calls}li a7, 93\nli a0, 0\necall\n{line}{page_file(PAGES / 'number_output.s')}", "utf-8")
    texts = [text for number in NUMBERS for text in printed(number)]
    assert lab("run", path) == (0, "".join(f"{text}\n" for text in texts).encode(), "")


def printed(number: int) -> tuple[str, str, str]:
    """A number of 64 bits in signed, unsigned and hexadecimal digits."""
    unsigned = number % (1 << 64)
    return f"{unsigned - (unsigned >> 63 << 64)}", f"{unsigned}", f"{unsigned:x}"


def test_header_prints_numbers(lab: Lab, clang: Compiler, tmp_path: pathlib.Path) -> None:
    calls = "".join(
        f'put_int({number % (1 << 64)}UL); put("\\n", 1); put_uint({number % (1 << 64)}UL); put("\\n", 1); '
        f'put_hex({number % (1 << 64)}UL); put("\\n", 1); '
        for number in NUMBERS
    )
    path = tmp_path / "own.c"
    path.write_text(f'#include "vecmon.h"\nint main(void) {{ {calls} return 0; }}\n', "ascii")
    texts = [text for number in NUMBERS for text in printed(number)]
    assert lab("run", path) == (0, "".join(f"{text}\n" for text in texts).encode(), "")
