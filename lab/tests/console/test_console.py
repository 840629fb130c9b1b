"""The console: lines from a pipe, a dumb terminal and a full one, compared with values from other sources."""

import pathlib
import re
import subprocess
import sys
from collections.abc import Iterator

import pytest

from support.console import CONSOLE, run_console, shown
from support.images import make_image
from support.places import EXAMPLES, SQUARES, STOCK, SUM, SUM_DWARF4, SUM_DWARF5, TOP, TOURS
from support.sources import ARGUMENTS
from support.terminal import END, INTERRUPT, UP, WHERE, Terminal
from vecmon_lab.assembler.commands import COMMANDS
from vecmon_lab.console.names import GDB_COMMANDS
from vecmon_lab.console.show import Screen, change_rows, memory_rows, register_rows
from vecmon_lab.machine.answers import ControlRegisters, Memory, ScalarRegisters, VectorRegister, read

STRIP_MINED = EXAMPLES / "strip_mined.s"
X = [9, 2, 7, 1, 8, 3, 6, 4, 5, 1, 12, 3, 20]  # of that source
Y = [100 + 3 * x if x > 4 else 100 for x in X]
FOREVER = """
# Writes a line, and goes on for ever.
_start: li a0, 1
        la a1, text
        li a2, 6
        li a7, 64
        ecall
loop:   addi t0, t0, 1
        j loop
        .data
text:   .ascii "ready\\n"
"""


@pytest.fixture
def forever(tmp_path: pathlib.Path) -> pathlib.Path:
    """A source that runs for ever."""
    path = tmp_path / "forever.s"
    path.write_text(FOREVER)
    return path


def terminal(tmp_path: pathlib.Path, *arguments: object, **environment: str) -> Terminal:
    """A console at a terminal."""
    return Terminal([*CONSOLE, *map(str, arguments)], {"XDG_STATE_HOME": str(tmp_path / "state"), **environment})


def test_image_runs_to_exit() -> None:
    lines = shown(["run", "vreg v8", "step"], SUM)  # its output and end, as in docs/COMPILING.md
    assert lines[:3] == [
        "=> 11190 _start  addi x2, x2, -16",
        "328350",
        "The program has ended with status 0, at 0x112dc.",
    ]
    assert "x17/a7=5d" in lines[3]  # 93, the call to exit
    assert lines[-4] == "=> 112dc _start+0x14c  ecall"
    assert lines[-3].split()[1] == f"{328350:08x}"
    assert lines[-2:] == ["The program has ended with status 0, at 0x112dc.", "=> 112dc _start+0x14c  ecall"]


def test_fault_is_explained_and_resumed() -> None:
    lines = ["run", "dis", "vcsr", "peek 11ff8 8", "load", "poke 11000 e803", "run"]  # docs/COMPILING.md
    output = shown(lines, SQUARES)
    reason = "The store at 0x10198 may not write from 0x12000 on: a page isn't mapped, or has no permission w."
    assert output[1] == f"{reason} It stopped at element 14."
    at = output.index("=> 10198  vse32.v v8, (x10)")
    assert output[at + 1] == "10198  vse32.v v8, (x10)"
    assert output[at + 9] == "vl=16 vtype=d1 (e32,m2,ta,ma) vstart=14 vxrm=0 (rnu) vxsat=0 policy=keep"
    assert output[at + 10].split()[:9] == "11ff8 10 e0 0f 00 09 e8 0f 00".split()
    assert output[at + 11 : at + 14] == ["loaded pc=0000000000010174 pages=6", "=> 10174  auipc x1, 0", "ok"]
    assert "The program has ended with status 0, at 0x10180." in output


def test_image_receives_arguments(program: pathlib.Path, tmp_path: pathlib.Path) -> None:
    make_image(program, tmp_path / "image", ARGUMENTS)
    output = shown(["run", "2 enter", "2 load image", "load", "step", "run"], tmp_path / "image", "x" * 40, "--help")
    assert output[1:4] == ["image", "x" * 40, "--help"] and output.count("--help") == 2
    assert sum(line.startswith("The program has ended with status 3, ") for line in output) == 2
    step = output.index("   10000  ld x8, 0(x2)")
    assert output[step + 1 : step + 3] == ["      x8/s0=3", "=> 10004  addi x9, x2, 8"]
    run = run_console([], STRIP_MINED, "one")
    assert (run.returncode, run.stderr) == (2, b"vecmon-lab: arguments and --in need an image or a source in C\n")


def test_step_prints_changes() -> None:
    output = shown(["break next", "run", "step 6", "vreg v9", "peek y", "vreg v8 8"], STRIP_MINED)
    assert output[0] == "=> 10000  addi x10, x0, 13"
    assert output[2] == "Stopped at the breakpoint at 0x10018; its instruction is the next one."
    steps = output[output.index("=> 10018 next  vsetvli x5, x10, e32, m1, ta, mu") + 1 :]
    loaded = ",".join(f"{value:08x}" for value in X[:8])
    assert steps[:12] == [
        "   10018 next  vsetvli x5, x10, e32, m1, ta, mu",
        "      x5/t0=8  vl=8  vtype=e32,m1,ta,mu",
        "   1001c next+0x4  vle32.v v8, (x11)",
        f"      v8.e32[0..7]={loaded}",
        "   10020 next+0x8  vle32.v v9, (x12)",
        f"      v9.e32[0..7]={','.join(['00000064'] * 8)}",
        "   10024 next+0xc  vmsgtu.vi v0, v8, 4",
        "      v0.e1[0..6]=1010101",
        "   10028 next+0x10  vmacc.vx v9, x6, v8, v0.t",
        "      v9.e32[0]=0000007f  v9.e32[2]=00000079  v9.e32[4]=0000007c  v9.e32[6]=00000076",
        "   1002c next+0x14  vse32.v v9, (x12)",
        "      [11040]=7f  [11048]=79  [11050]=7c  [11058]=76",
    ]
    assert steps[13] == f"v9  {' '.join(f'{value:08x}' for value in Y[:8])}"
    assert steps[14] == "   11040  7f 00 00 00 64 00 00 00 79 00 00 00 64 00 00 00  ....d...y...d..."
    digits = b"".join(value.to_bytes(4, "little") for value in X[:8])
    assert steps[15:] == [f"v8  {digits[:16].hex(' ')}", f"    {digits[16:].hex(' ')}"]


@pytest.mark.by_command("console")
def test_manual_session_is_reproduced() -> None:
    page = (TOP / "docs" / "DEBUGGING.md").read_text("utf-8")
    session = page[
        page.index("$ vecmon-lab console ") : page.index("\n```\n\nA line is a [monitor command]")
    ].splitlines()
    typed = [line.removeprefix("vecmon> ") for line in session if line.startswith("vecmon> ")]
    assert len(typed) > 5 and session[0].split()[-1] == STRIP_MINED.name
    assert shown(typed, STRIP_MINED) == [line for line in session[1:] if not line.startswith("vecmon> ")]


def test_command_changes_are_not_step_changes() -> None:
    output = shown(
        ["map 10000 1 rwx", "asm 10000 addi x6, x0, 1", "setpc 10000", "set x5 7", f"vset v1 {'01' * 32}", "step"]
    )
    assert output[-3:] == ["   10000  addi x6, x0, 1", "      x6/t1=1", "=> 10004  .word 0x00000000"]


def test_output_without_newline_is_shown(tmp_path: pathlib.Path) -> None:
    source = FOREVER.replace("j loop", "ebreak").replace("ready\\n", "ready!")
    (tmp_path / "ends.s").write_text(source)
    assert shown(["run"], tmp_path / "ends.s")[1:3] == ["ready!", "Stopped at the ebreak at 0x1001c."]


def test_steps_stop_at_breakpoint_like_machine() -> None:
    output = shown(["break next+4", "step 40", "step 40", "1 regs"], STRIP_MINED)
    stops = [place for place, line in enumerate(output) if line.startswith("Stopped at the breakpoint at 0x1001c")]
    assert len(stops) == 2 and output[-9] == "1 pc 000000000001001c"


def test_register_names_and_symbols_are_accepted() -> None:
    output = shown(["set a0 y", "set fp y+0x4", "set x5 0xff", "set t1 next+10", "setpc next", "regs"], STRIP_MINED)
    registers = " ".join(output[-11:])
    for name, value in {"x10/a0": 0x11040, "x8/s0": 0x11044, "x5/t0": 0xFF, "x6/t1": 0x10028, "pc": 0x10018}.items():
        assert f"{name:8} {value:016x}" in registers


def test_source_replaces_image_and_back() -> None:
    lines = [f"source {STRIP_MINED}", "break next", "run", "load", "breaks", "break next", "peek _start 4", "run"]
    output = shown(lines, SUM)
    assert (
        output[1:3] == ["=> 10000  addi x10, x0, 13", "ok"]
        and "=> 10018 next  vsetvli x5, x10, e32, m1, ta, mu" in output
    )
    again = output[output.index("loaded pc=0000000000011190 pages=7") + 1 :]
    assert again[0] == "1 breakpoint was removed, since the program is another one: 10018"
    assert again[1:3] == ["=> 11190 _start  addi x2, x2, -16", "there is no symbol next"]
    assert again[3].split()[:5] == ["11190", *"13 01 01 ff".split()] and again[4] == "328350"


def test_help_explains_names_of_gdb() -> None:
    output = shown(["help x", "help peek", "help restart", "help s"])
    peek = output.index("gdb's x is `peek ADDR N` here") + 1
    assert output[peek].startswith("peek ADDR N: prints 1 to 256 bytes") and output.count(output[peek]) == 2
    assert [line for line in output if line.startswith("restart: reloads the program, ")]
    assert "gdb's s is `step N` here" in output


def test_remedies_name_commands() -> None:
    for own, names in GDB_COMMANDS.items():
        assert own in COMMANDS and not {*names.split()} & {*COMMANDS}, own


def test_load_of_file_is_explained(tmp_path: pathlib.Path) -> None:
    (tmp_path / "sum.c").write_text("int main(void) { return 0; }\n")
    output = shown(["load other.elf", f"source {SUM}", f"source {tmp_path}/sum.c", "list next"], STRIP_MINED)
    assert output[1:3] == [
        "E08: there is no image other.elf",
        "load reloads the console's image; source FILE loads an assembler source, vecmon-lab console FILE starts with an image",
    ]
    for line, path in zip(output[4:6], (SUM, tmp_path / "sum.c")):
        assert line == f"{path} isn't an assembler source; vecmon-lab console {path} starts with it"
    assert any(line.split()[1:2] == ["next:"] for line in output[6:]), "the source is unchanged"


def test_symbol_with_offset_is_resolved() -> None:
    expected = "E04: _start+zz is no value, which has only hexadecimal digits; the form is set xN VALUE"
    assert shown(["set a0 _start+zz", "set a0 _start+0x8"], SUM)[1:] == [expected, "ok"]


def test_last_words_of_page_are_listed() -> None:
    lines = ["map 10000 1 rwx", "asm 10ff8 ebreak", "setpc 10ff8", "dis", "setpc 10000", "dis"]
    output = shown(lines)
    assert output[4:7] == ["=> 10ff8  ebreak", "10ff8  ebreak", "10ffc  .word 0x00000000"] and len(output) == 7 + 2 + 8


def test_monitor_lines_are_sent_unchanged(program: pathlib.Path) -> None:
    script = (TOURS / "assembling").read_bytes()
    own = [line for line in script.decode("ascii").splitlines() if line.startswith("1 ") and line != "1 enter"]
    lines = b"# a sentence\n\n" + "".join(f"{line}\r\n" for line in own).encode() + b"* list\n2 enter\n2 state\n"
    output = shown(lines)
    plain = subprocess.run([program], input="\n".join(["1 enter", *own]).encode(), stdout=subprocess.PIPE)
    answers = [line for line in plain.stdout.decode().splitlines()[1:] if not line.startswith("1 E")]
    assert len(answers) > 5 and answers == [line for line in output if line.startswith("1 ")]
    assert output[-3].startswith("* list 1:stopped 2:-")
    assert output[-2:] == ["2 entered", "2 state stopped pc=0000000000000000"]


def test_absent_or_running_user_is_reported() -> None:
    output = shown(["leave", "run", "step", "regs", "bar", f"source {STRIP_MINED}"])
    assert output[1:5] == ["left", *["E05: the user has not entered"] * 3]
    assert output[-1] == "=> 10000  addi x10, x0, 13"
    lines = ["map 10000 1 rwx", "asm 10000 ebreak", "setpc 10000", "go", "regs", "step", "run", "step"]
    output = shown([*lines, "go", f"source {STRIP_MINED}", "1 state"])
    assert output[-3:] == [
        "running pc=0000000000010000",
        "=> 10000  addi x10, x0, 13",
        "1 state stopped pc=0000000000010000",
    ]
    output = shown(lines)
    assert output[4:8] == [
        "=> 10000  ebreak",
        "running pc=0000000000010000",
        *["E07: the user's program is running: stop it first"] * 2,
    ]
    assert output[8:] == ["Stopped at the ebreak at 0x10000.", "=> 10000  ebreak"] * 2


def test_breakpoint_at_end_of_round_stops(tmp_path: pathlib.Path) -> None:
    (tmp_path / "ticks.s").write_text("li t0, 499999\nloop: addi t0, t0, -1\nbnez t0, loop\nhere: nop\nebreak\n")
    for lines in (["break here", "run"], ["break here", "go", "run"]):
        assert shown(lines, tmp_path / "ticks.s")[-2].startswith("Stopped at the breakpoint at 0x10010")


@pytest.mark.parametrize(
    "line, expected",
    [
        ("dance", "E03: there is no command dance; help lists the commands"),
        ("* dance", "E03: there is no command dance; help lists the commands"),
        ("b loop", "E03: there is no command b; gdb's b is `break ADDR` here"),
        ("x/4w 11000", "E03: there is no command x/4w; gdb's x is `peek ADDR N` here"),
        ("stepi", "E03: there is no command stepi; gdb's stepi is `step N` here"),
        ("slices", "E03: slices is the operator's: * slices N"),
        ("step 257", "E04: 257 isn't from 1 to 256; the form is step N"),
        ("step 01", "E04: 01 begins with 0, and a decimal number doesn't; the form is step N"),
        ("break nowhere", "there is no symbol nowhere"),
        ("set a0 nowhere+8", "there is no symbol nowhere"),
        ("break 0x10002", "E04: 10002 isn't divisible by 4: the last digit is 0, 4, 8 or c; the form is break ADDR"),
        ("set q5 1", "E04: q5 is no register that can be set, which are x1 to x31; the form is set xN VALUE"),
        ("set zero 1", "E04: x0 is always 0; the form is set xN VALUE"),
        ("break 0", "ok"),
        ("run fast", "the form is run"),
        ("restart now", "the form is restart"),
        ("source", "the form is source FILE"),
        ("source nothing.s", "nothing.s: No such file or directory"),
        ("source lab", "lab: Is a directory"),
        ("policy \N{SNOWMAN}", r"character 8 of a line, '\u2603', isn't printable ASCII"),
        ("a" * 1023, "a line has at most 1,022 characters after its user, and this one has 1,023"),
    ],
)
def test_refused_line_is_explained(line: str, expected: str) -> None:
    assert shown([line, "vcsr", "quit", "regs"])[1:] == [
        expected,
        "vl=0 vtype=8000000000000000 (vill) vstart=0 vxrm=0 (rnu) vxsat=0 policy=keep",
    ]


def test_non_text_input_is_refused() -> None:
    output = shown(b"regs\xff\n1 state\0\nstate")
    assert output[1:] == [
        r"character 5 of a line, '\ufffd', isn't printable ASCII",
        r"character 8 of a line, '\x00', isn't printable ASCII",
        "state stopped pc=0000000000000000",
    ]


@pytest.mark.parametrize(
    "source, expected",
    [
        ("_start: li t0, 0\n  add t0, t1 t2\n", "2:14: t2 doesn't fit here: a comma may be missing before it"),
        (
            "_start: addi t0, t1, 5000\n",
            "1:22: 5000 doesn't fit here, as the machine reads it: addi x5, x6, 5000; the form is addi rd, rs1, imm, with imm from -2048 to 2047",
        ),
        ("  j nowhere\n", "1:5: nowhere is no register that fits here, and no label or constant known here"),
    ],
)
def test_source_errors_are_reported(tmp_path: pathlib.Path, source: str, expected: str) -> None:
    path = tmp_path / "bad.s"
    path.write_text(source)
    lines = shown(["break y", f"source {path}", "breaks", "* list"], STRIP_MINED)
    assert lines[2:] == [f"{path}:{expected}", "11040 y", "* list 1:stopped 2:- 3:- 4:- 5:- 6:- 7:- 8:-"]
    run = run_console([], path)
    assert (run.returncode, run.stdout, run.stderr.decode()) == (2, b"", f"vecmon-lab: {path}:{expected}\n")


def bad_images(folder: pathlib.Path) -> Iterator[tuple[pathlib.Path, str]]:
    """Paths of no image, and the reported reason."""
    yield folder / "missing", "No such file or directory"
    yield folder, "Is a directory"
    yield STOCK / "short", "E09 Short"
    yield STOCK.parent / "refusals.page", "E09 Magic"
    yield STOCK.parent / "dyn", "E09 Type"
    yield STOCK.parent / "sizes", "E09 FileSize"
    (folder / "large").write_bytes(bytes(4_194_305))
    yield folder / "large", "4,194,304"


def test_unsuitable_image_is_refused(tmp_path: pathlib.Path) -> None:
    for path, reason in bad_images(tmp_path):
        run = run_console(["regs"], path)
        assert (run.returncode, run.stdout, run.stderr.count(b"\n")) == (2, b"", 1)
        assert run.stderr.decode().startswith(f"vecmon-lab: {path}") and reason in run.stderr.decode()


def test_source_lines_come_from_debug_data() -> None:
    assert shown(["step"], SUM_DWARF4)[0] == "=> 11190 _start  addi x2, x2, -16  (sum.c:30)"
    assert shown([], SUM_DWARF5) == ["=> 11190 _start  addi x2, x2, -16  (sum.c:30)"]


def test_until_stops_at_register_change_or_address() -> None:
    """In the first round eight elements are loaded into v9; a0 is 5 behind the subtraction at next+0x18."""
    output = shown(["until v9", "until a0", "until 0x1002c", "breaks", "until t6", "until vl"], STRIP_MINED)
    assert output[1:3] == ["   10020 next+0x8  vle32.v v9, (x12)", f"      v9.e32[0..7]={','.join(['00000064'] * 8)}"]
    assert output[4:7] == [
        "   10030 next+0x18  sub x10, x10, x5",
        "      x10/a0=5",
        "=> 10034 next+0x1c  slli x7, x5, 2",
    ]
    assert output[7] == "The program was stopped at 0x1002c." and "      x5/t0=5  x7/t2=20" in output[8]
    assert output[-5] == "=> 1002c next+0x14  vse32.v v9, (x12)"
    assert output[-4:] == ["Stopped at the ebreak at 0x10044.", "=> 10044 next+0x2c  ebreak"] * 2
    lines = ["leave", "until a0", "until 10000", "enter", "map 10000 1 rwx", "asm 10000 jal x0, 0", "setpc 10000"]
    lines += [*(f"break {address:x}" for address in range(0x20000, 0x20040, 4)), "until 10004", "break 10000"]
    assert (
        shown([*lines, "unbreak 20000", "break 10000", "until a0", "1 state"])[2:4]
        == ["E05: the user has not entered"] * 2
    )
    output = shown([*lines, "unbreak 20000", "break 10000", "until a0", "until 10000", "1 breaks"])
    positions = ["Stopped at the breakpoint at 0x10000; its instruction is the next one.", "=> 10000  jal x0, 0"]
    assert output[-5:-1] == positions * 2
    assert [line[:4] for line in output if line.startswith("E12")] == ["E12:"] * 2
    assert output[-1].split()[:3] == ["1", "breaks", f"{0x10000:016x}"]


def test_back_returns_to_instruction_or_write() -> None:
    """The first eight sums are stored at y in the first round, when a0 is still thirteen."""
    output = shown(
        ["run", "back", "back to write y", "peek y", "back to write y", "set x9 5", "step", "back 100"], STRIP_MINED
    )
    positions = [line[3:] for line in output if line.startswith("=>")]
    assert positions[2:4] == ["10040 next+0x28  bne x10, x0, -40", "1002c next+0x14  vse32.v v9, (x12)"]
    at = output.index(f"=> {positions[3]}")
    assert (
        "x10/a0=d" in output[at - 3]
        and output[at + 1] == "   11040  64 00 00 00 64 00 00 00 64 00 00 00 64 00 00 00  d...d...d...d..."
    )
    missing = output.index("No earlier instruction has changed 11040 y; the program stays here.")
    assert output[missing + 1] == f"=> {positions[3]}", "and not at the start"
    assert [line for line in output if line.endswith("before.")] == ["This is the start: there is nothing before."]
    assert positions[4:] == [positions[3], "10030 next+0x18  sub x10, x10, x5", "10000  addi x10, x0, 13"]
    assert shown(["back", "leave", "back"], STRIP_MINED)[-1] == "This is the start: there is nothing before."


def test_breakpoint_condition_is_evaluated() -> None:
    lines = [
        "break next+0x14 if x10 < 6",
        "break next if vl == 8",
        "break 10040 if a0 != a0",
        "breaks",
        "run",
        "run",
        "step 9",
    ]
    output = shown([*lines, "unbreak next+0x14", "break next+0x14", "breaks"], STRIP_MINED)
    assert output[4:7] == ["10018 next if vl == 8", "1002c next+0x14 if x10 < 6", "10040 next+0x28 if a0 != a0"]
    stops = [line[29:36] for line in output if line.startswith("Stopped at the breakpoint")]
    assert stops == ["0x10018", "0x1002c"]  # where vl is 8, in the second round; then a0 is 5
    assert output[-3:] == ["10018 next if vl == 8", "1002c next+0x14", "10040 next+0x28 if a0 != a0"]
    loaded = shown(["break _start+8 if a0 == 0", "load", "break _start+8", "breaks"], SUM)
    assert loaded[-2:] == ["E13: there already is a breakpoint", "11198 _start+0x8 if a0 == 0"]
    again = shown(["break next if a0 == d", f"source {STRIP_MINED}", "break next", "breaks"], STRIP_MINED)
    assert again[-1] == "10018 next if a0 == d", "the program is the same"


@pytest.mark.parametrize(
    "line, expected",
    [
        ("break next if a0 = 5", "a0 = 5 is no condition: a0 == 5 or vl < 8 is one"),
        ("break next if a0 == none", "there is no symbol none"),
        ("break next if v8 == 5", "there is no symbol v8"),
        ("break next if a0 == -5", "-5 is no register, no symbol and no value, which has only hexadecimal digits"),
        ("break none if a0 == 5", "there is no symbol none"),
        ("break 0x2 if a0 == 5", "E04: 2 isn't divisible by 4: the last digit is 0, 4, 8 or c; the form is break ADDR"),
        ("until", "the form is until PLACE"),
        ("until 0x2", "E04: 2 isn't divisible by 4: the last digit is 0, 4, 8 or c; the form is break ADDR"),
        ("until none", "there is no symbol none"),
        ("list zz", "there is no symbol zz"),
        ("list 0", "no source line is known of 0"),
        ("list y", "no source line is known of 11040 y"),
        ("changes all", "the form is changes"),
        ("back x", "the form is back N"),
        ("back to", "the form is back to write ADDR"),
        ("back to write", "the form is back to write ADDR"),
        ("back to write none", "there is no symbol none"),
        ("back to write fffffffffffff", "fffffffffffff is no address of memory"),
        ("changes", "nothing has changed"),
    ],
)
def test_bad_console_command_is_refused(line: str, expected: str) -> None:
    assert shown([line, "breaks", "1 state"], STRIP_MINED)[1:] == [expected, "1 state stopped pc=0000000000010000"]


def test_list_shows_source_around_line(tmp_path: pathlib.Path) -> None:
    text = STRIP_MINED.read_text().splitlines()
    output = shown(["break next", "run", "list", "list 10000"], STRIP_MINED)
    at = text.index(next(line for line in text if line.startswith("next:")))
    marks = ["=>" if number == at else "  " for number in range(at - 4, at + 6)]
    rows = [f"{mark} {number + 1:4}  {text[number]}".rstrip() for mark, number in zip(marks, range(at - 4, at + 6))]
    assert rows == output[-20:-10] and not any(row.startswith("=>") for row in output[-10:-6])
    image = tmp_path / "sum"
    image.write_bytes(SUM_DWARF4.read_bytes())
    assert shown(["list"], image)[1:] == ["the source sum.c is neither next to sum nor here"]
    (tmp_path / "sum.c").write_bytes((STOCK / "sum.c").read_bytes())
    output = shown(["list"], image)[1:]
    assert output[4] == "=>   30  {" and [int(row[2:7]) for row in output] == [*range(26, 36)]


def test_list_shows_the_assembled_text(tmp_path: pathlib.Path) -> None:
    """A file that is edited meanwhile has another program, until `restart` assembles it."""
    source = tmp_path / "edited.s"
    source.write_text("nop\naddi x5, x0, 1\nebreak\n")
    with subprocess.Popen([*CONSOLE, str(source)], stdin=subprocess.PIPE, stdout=subprocess.PIPE, text=True) as console:
        assert console.stdin and console.stdout
        console.stdin.write("step\n")
        console.stdin.flush()
        while "10004" not in console.stdout.readline():
            pass
        source.write_text("nop\n\nvid.v v8\nebreak\n")
        console.stdin.write("list\nrestart\nlist\n")
        console.stdin.close()
        rows = [row for row in console.stdout.read().splitlines() if re.match(r"(=>|  ) [ \d]{3}\d(  |$)", row)]
    assert rows[:3] == ["      1  nop", "=>    2  addi x5, x0, 1", "      3  ebreak"]
    assert rows[3:] == ["=>    1  nop", "      2", "      3  vid.v v8", "      4  ebreak"]


def test_run_changes_take_six_rows(tmp_path: pathlib.Path) -> None:
    """Of e8, m8: 256 elements in eight registers, of 32 numbers with a comma each, in two rows a register."""
    source = "vsetvli t0, x0, e8, m8, ta, ma\nvid.v v8\nebreak\n"
    (tmp_path / "wide.s").write_text(source)
    output = shown(["run", "changes"], tmp_path / "wide.s")
    assert (
        output[7:10] == ["      and 12 rows more: see changes", "=> 10008  ebreak", output[2]] and len(output) == 9 + 17
    )
    assert output[2:7] == output[9:14]
    values = re.findall("(?<=[=,])[0-9a-f]{2}(?=,|$)", ",".join("".join(output[10:]).split()))
    assert [int(value, 16) for value in values] == [*range(1, 256)]  # element 0 was 0 before


@pytest.mark.parametrize("width", [38, 60, 96])
@pytest.mark.parametrize("digits", [2, 8, 16])
def test_number_is_not_wrapped(width: int, digits: int) -> None:
    numbers = [f"{7 * number:0{digits}x}" for number in range(32)]
    texts = ["x10/a0=7fffefc0", "vtype=e8,m8,ta,ma", f"v16.e8[0..31]={','.join(numbers)}", "vl=5"]
    rows = [*change_rows(texts, width)]
    assert max(map(len, rows)) <= width and "vtype=e8,m8,ta,ma" in " ".join(rows)
    assert f"v16.e8[0..31]={','.join(numbers)}" in re.sub(" ", "", "".join(rows))
    assert all(number in "\n".join(rows) for number in numbers)
    (stored,) = ["".join(change_rows([f"[11040]={bytes(range(100)).hex()}"], width)).replace(" ", "")]
    assert stored == f"[11040]={bytes(range(100)).hex()}"
    rows = [*change_rows([f"[11040]={bytes(range(100)).hex()}"], width)]
    assert all(len(row.split("=")[-1].strip()) % 2 == 0 for row in rows)
    registers = ScalarRegisters(0, [(1 << 64) - 1] * 32)
    assert max(map(len, register_rows(registers, width))) <= width
    assert max(map(len, memory_rows(Memory(0x7FFFEFC0, bytes(40)), width))) <= width


@pytest.mark.parametrize("columns, rooms", [(12, (2, 1, 1, 1)), (38, (8, 4, 2, 2)), (120, (16, 8, 8, 4))])
def test_elements_fit_row(monkeypatch: pytest.MonkeyPatch, columns: int, rooms: tuple[int, ...]) -> None:
    """The name and four columns are before elements of this width, which have a digit for four bits and a space."""
    monkeypatch.setattr(Screen, "columns", columns)
    for width, room in zip((8, 16, 32, 64), rooms):
        rows = [*Screen(False).element_rows(VectorRegister(8, width, bytes(32)), ControlRegisters(), None)]
        assert {len(row.removeprefix("v8").split()) for row in rows} == {min(room, 256 // width)}


def test_rows_wrap_in_narrow_terminal(monkeypatch: pytest.MonkeyPatch, capsys: pytest.CaptureFixture[str]) -> None:
    monkeypatch.setattr(Screen, "columns", 38)
    rows = [
        "   10040 next+0x28  bne x10, x0, -40  (strip_mined.s:31)",
        "short",
        "x" * 50,
        "\033[2m" + "0 " * 18 + "\033[0m",
    ]
    Screen(False).say(*rows)
    output = capsys.readouterr().out.split("\n")
    assert output == ["   10040 next+0x28  bne x10, x0, -40", "        (strip_mined.s:31)", *rows[1:], ""]


def test_piped_input_imports_no_prompt_library() -> None:
    code = "import sys, vecmon_lab.__main__ as it; it.main(); sys.exit('prompt_toolkit' in sys.modules)"
    run = subprocess.run([sys.executable, "-c", code, "console"], cwd=TOP, input=b"vcsr\n", capture_output=True)
    assert (
        run.returncode == 0 and run.stdout.startswith(b"=> 0") and b"vill" in run.stdout and b"\x1b" not in run.stdout
    )


def test_dumb_terminal_works(tmp_path: pathlib.Path, forever: pathlib.Path) -> None:
    with terminal(tmp_path, forever, TERM="dumb") as console:
        console.expect("vecmon> ")
        console.type("run\n")
        console.expect("ready")
        console.type(INTERRUPT)
        console.expect("The program was stopped at 0x100")
        console.expect("vecmon> ")
        console.type("half a line")
        console.interrupt()
        console.expect("^C")
        console.expect("vecmon> ")
        console.type("regs\n")
        output = console.expect("vecmon> ")
        assert "x10/a0   0000000000000006" in output and "\x1b" not in output
        console.type(END)
        assert console.end()[0] == 0
    assert not (tmp_path / "state").exists()


def test_ctrl_c_stops_program_not_machine(tmp_path: pathlib.Path, forever: pathlib.Path) -> None:
    with terminal(tmp_path, forever) as console:
        console.expect("vecmon> ")
        console.type("\x1b[200~run\nregs\x1b[201~\r")  # the lines after it in the entry aren't executed
        console.expect("ready")
        console.type(INTERRUPT)
        console.expect("The program was stopped at 0x100")
        assert "pc  " not in console.expect("vecmon> ")
        console.type("half a line" + INTERRUPT)
        console.expect("vecmon> ")
        console.type("state\r")
        console.expect("state stopped pc=00000000000100")
        console.expect("vecmon> ")
        console.type(END)
        assert console.end()[0] == 0


@pytest.mark.parametrize("kind", ["xterm", "dumb"])
def test_lines_typed_ahead_survive_ctrl_c(tmp_path: pathlib.Path, forever: pathlib.Path, kind: str) -> None:
    with terminal(tmp_path, forever, TERM=kind) as console:
        console.expect("vecmon> ")
        console.type("run\r")
        console.expect("ready")
        console.type("state\rvcsr\r" + INTERRUPT)
        console.expect("The program was stopped at 0x100")
        console.expect("state stopped pc=00000000000100")
        console.expect("vl=0 vtype=")
        console.expect("vecmon> ")
        console.type(END)
        assert console.end()[0] == 0


@pytest.mark.parametrize("lines", [["until s1"], ["until 0x0"], ["break loop if a7 == 0", "run"]])
def test_ctrl_c_ends_endless_program(tmp_path: pathlib.Path, forever: pathlib.Path, lines: list[str]) -> None:
    with terminal(tmp_path, forever, TERM="dumb") as console:
        for line in lines:
            console.expect("vecmon> ")
            console.type(f"{line}\n")
        console.expect("ready")
        console.type(INTERRUPT)
        console.expect("The program was stopped at 0x1")
        console.type(END)
        assert console.end()[0] == 0


def test_prompt_completes_pastes_and_shows_bar(tmp_path: pathlib.Path) -> None:
    with terminal(tmp_path, STRIP_MINED) as console:
        console.expect("vecmon> ")
        console.expect("pc 10000   vtype vill   vl 0   policy keep")
        console.type("unbr\t")
        console.expect("eak ")
        console.type(" ne\t")
        console.expect("xt")
        console.type("\r")
        console.expect("E13: there is no breakpoint")
        console.expect("policy keep")  # below the new prompt
        console.type("help vsetiv\t")
        console.expect("help vsetivli")
        console.type("\r")
        console.expect("vsetivli rd, uimm, vtypei: ")
        console.type("\x1b[200~break next+4\nrun\npolicy ones\x1b[201~\r")
        console.expect("Stopped at the breakpoint at 0x1001c")
        console.expect("ok")
        console.expect("pc 1001c next+0x4   vtype e32,m1,ta,mu   vl 8   policy ones")
        console.type("quit\r")
        assert console.end()[0] == 0


def test_history_is_saved(tmp_path: pathlib.Path) -> None:
    with terminal(tmp_path) as console:
        console.expect("vecmon> ")
        console.type("set x9 1234\r")
        console.expect("ok")
        console.type("quit\r")
        console.end()
    with terminal(tmp_path) as console:
        console.expect("vecmon> ")
        console.type(UP + UP + "5\r")
        console.expect("ok")
        console.type("regs\r")
        console.expect("x9/s1    0000000000012345")
    (tmp_path / "file").write_text("")
    with terminal(tmp_path, XDG_STATE_HOME=str(tmp_path / "file")) as console:  # no folder can be made there
        console.expect("vecmon> ")
        console.type("vcsr\r")
        console.expect("(vill)")


@pytest.mark.parametrize("more, has_colours", [({}, True), ({"NO_COLOR": "1"}, False)])
def test_elements_are_coloured(tmp_path: pathlib.Path, more: dict[str, str], has_colours: bool) -> None:
    lines = ["break next+0x14", "run", "vreg v9", "step 9", "run", "vreg v8"]  # the second time there are five elements
    tail, masked, changed = "\x1b[2m", "\x1b[35m", "\x1b[33m"
    expected = {}
    with terminal(tmp_path, STRIP_MINED, **more) as console:
        console.expect(WHERE, is_raw=True)
        for line in lines:
            console.type(f"{line}\r")
            expected[line] = console.expect(WHERE, is_raw=True)
    assert (f"{changed}      x10/a0=5" in expected["step 9"]) is has_colours
    elements = re.findall("v8  ([^\r]*)\r", expected["vreg v8"])[-1].split()
    assert [element.startswith(tail) for element in elements] == [False] * 5 + [has_colours] * 3
    assert masked not in expected["vreg v9"]
    assert [colour in "".join(expected.values()) for colour in (tail, masked, changed)] == [
        has_colours,
        False,
        has_colours,
    ]


@pytest.mark.parametrize(
    "register, width, control, mask, placement",
    [
        ("v9", 32, {"vl": 11, "vtype": 0xD1}, None, "aaattttt"),  # e32, m2: these are elements 8 to 15
        ("v9", 32, {"vl": 11, "vtype": 0xD1}, 0x500, "amattttt"),
        ("v8", 32, {"vl": 11, "vtype": 0xD1}, 0x581, "ammmmmma"),
        ("v7", 8, {"vl": 16, "vtype": 0xC7}, None, "a" * 16 + "t" * 16),  # e8, mf2
        ("v3", 64, {"vl": 6, "vtype": 0xD0}, None, "aatt"),  # e32, m1, where 64 bits have groups of two
        ("v3", 16, {"vl": 0, "vtype": 1 << 63}, 0, "a" * 16),  # vill
    ],
)
def test_element_has_status(
    register: str, width: int, control: dict[str, int], mask: int | None, placement: str
) -> None:
    shown = read([" ".join(["1", register, *(f"{number:0{width // 4}x}" for number in range(256 // width))])])
    assert isinstance(shown, VectorRegister)
    rows = "\n".join(Screen(True).element_rows(shown, ControlRegisters(**control, vstart=0, vxrm=0, vxsat=0), mask))
    kinds = {"": "a", "35": "m", "2": "t"}
    found = [(kinds[colour], int(digits, 16)) for colour, digits in re.findall(r" (?:\x1b\[(\d+)m)?([0-9a-f]+)", rows)]
    assert found == list(zip(placement, range(256 // width)))
    assert all(len(re.sub(r"\x1b\[\d+m", "", row)) <= 80 for row in rows.split("\n"))


def test_masked_off_elements_are_marked(tmp_path: pathlib.Path) -> None:
    with terminal(tmp_path, STRIP_MINED) as console:
        for line in ["break next+0x10", "run", "step", "vreg v9"]:
            console.expect(WHERE, is_raw=True)
            console.type(f"{line}\r")
        output = console.expect(WHERE, is_raw=True)
    elements = re.findall("v9  ([^\r]*)\r", output)[-1].split()
    assert [element.startswith("\x1b[35m") for element in elements] == [x <= 4 for x in X[:8]]
