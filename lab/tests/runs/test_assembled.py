"""Assembler sources in place of images, as in docs/RUNNING.md: by the lab's assembler, and by a compiler's."""

import pathlib
import shutil
import subprocess

import pytest

from support.commands import Lab
from support.places import EXAMPLES
from support.skips import NO_BINUTILS, leave_out
from support.sources import ARGUMENTS
from vecmon_lab import CallStopped, Kernel, LabError
from vecmon_lab.classes.server.explore import read
from vecmon_lab.compilers.compiler import Compiler
from vecmon_lab.harness.assembled import assembled_image

STRIP_MINED = EXAMPLES / "strip_mined.s"
SUMS = """# Adds the numbers of a file to 3.
        .equ most, 16
_start: li a0, 3
        la a1, input
        ld t1, input_size - input(a1)
next:   beqz t1, done
        lbu t0, 0(a1)
        add a0, a0, t0
        addi a1, a1, 1
        addi t1, t1, -1
        j next
done:   li a7, 93
        ecall
        .bss
input:  .zero most
input_size: .zero 8
"""
INSN = ".insn isn't in this assembler: write .word with the instruction's 32 bits"
REPEATED = """        .macro thrice register
        .rept 3
        addi \\register, \\register, 1
        .endr
        .endm
        .section .rodata
seven:  .word 7
        .text
1:      thrice a0
        la a1, seven
        lw a1, 0(a1)
        add a0, a0, a1
        li a7, 93
        ecall
        .insn r 0x33, 0, 0, t6, zero, zero
"""
PREPROCESSED = """#define STATUS 5
_start: li a0, STATUS
#if 0
        li a0, 9
#endif
        # if this were a directive, it would be refused
        li a7, 93
        ecall
"""


@pytest.fixture
def sums(tmp_path: pathlib.Path) -> pathlib.Path:
    """A source that reads its input."""
    (tmp_path / "sums.s").write_text(SUMS, "ascii")
    return tmp_path / "sums.s"


def test_source_ends_as_image_does(lab: Lab, tmp_path: pathlib.Path) -> None:
    """With the arguments and the statuses of an image; an ebreak ends it, as in a console."""
    stop = f"vecmon-lab: {STRIP_MINED}: 10044 next+0x2c: ebreak: Stopped at the ebreak at 0x10044.\n"
    assert lab("run", STRIP_MINED) == (133, b"", stop)
    assert lab("compare", STRIP_MINED)[0] == 0
    (tmp_path / "arguments.S").write_text(ARGUMENTS, "ascii")
    assert lab("run", tmp_path / "arguments.S", "one", "-2") == (3, b"arguments\none\n-2\n", "")
    (tmp_path / "stray.s").write_text("lw a0, 0(zero)\n", "ascii")
    assert lab("run", tmp_path / "stray.s")[0] == 139


def test_source_gets_input(lab: Lab, sums: pathlib.Path, tmp_path: pathlib.Path) -> None:
    (tmp_path / "numbers").write_bytes(bytes([10, 20, 30]))
    assert lab("run", "--in", tmp_path / "numbers", sums) == (63, b"", "")
    assert lab("run", sums) == (3, b"", "")


def test_profile_and_compare_name_lines_of_source(lab: Lab, sums: pathlib.Path, tmp_path: pathlib.Path) -> None:
    """Counted by hand: two bytes are two rounds of six instructions, and a branch ends the loop; six others are around it."""
    (tmp_path / "numbers").write_bytes(bytes([1, 2]))
    status, output, errors = lab("profile", "--in", tmp_path / "numbers", sums)
    lines = [line.split() for line in output.decode().splitlines()]
    assert (status, errors, lines[-1]) == (0, "", "19 instructions in 19 ticks; status 6".split())
    assert lines[1] == "10010 10024 next sums.s:6-11 3 13 13 68 %".split()
    assert "10014 next+0x4 sums.s:7 lbu x5, 0(x11) 2 2".split() in lines
    status, output, _ = lab("compare", EXAMPLES / "unwritten" / "tail_added.s")
    assert status == 1 and b"  10014 strip tail_added.s:7: vadd.vi v8, v8, 1 (instruction 10), element 5\n" in output


def test_image_has_lines_and_labels_for_binutils(sums: pathlib.Path) -> None:
    """Addresses by hand: `li` is one word and `la` are two."""
    objdump = shutil.which("riscv64-linux-gnu-objdump")
    if objdump is None:
        leave_out(NO_BINUTILS)
    image = assembled_image(sums)
    words = [objdump, "-dl", "--no-show-raw-insn", "-M", "no-aliases", f"{image}"]
    listing = subprocess.run(words, capture_output=True, text=True, check=True)
    assert listing.stderr == "" and f"\n{sums}:4\n   10004:\tauipc\ta1,0x1\n   10008:\t" in listing.stdout
    assert f"0000000000010010 <next>:\nnext():\n{sums}:6\n   10010:\tbeq" in listing.stdout
    table = subprocess.run([objdump, "-t", image], capture_output=True, text=True, check=True).stdout.split("\n")
    names = {line.split()[-1]: line.split()[0] for line in table if line.endswith(("input", "input_size", "done"))}
    assert names == {"input": f"{0x11000:016x}", "input_size": f"{0x11010:016x}", "done": f"{0x10028:016x}"}


def test_mistakes_of_source_are_reported(lab: Lab, tmp_path: pathlib.Path) -> None:
    source = tmp_path / "wrong.s"
    source.write_text("nop\n vadd.vv v1, v2\n", "ascii")
    status, output, errors = lab("run", source)
    assert (status, output) == (2, b"") and errors.startswith(f"vecmon-lab: {source}:2:") and errors.count("\n") == 1
    source.write_text("vsetvli t0, a0, e32, m1, ta, ma\nvle32.v v33, (a0)\n", "ascii")
    assert lab("profile", source)[2].startswith(f"vecmon-lab: {source}:2:")


def test_ignored_inputs_are_reported(lab: Lab, tmp_path: pathlib.Path) -> None:
    """In one line, and not for lines that only a lesson executes, such as those of the first example."""
    source = tmp_path / "three.s"
    source.write_text(
        "#> a0 = 5\n#> step 60\n        addi a0, a0, 3\n #> set x11 1\n        li a7, 93\n        ecall\n", "ascii"
    )
    said = f"vecmon-lab: {source}: the inputs in lines 1 and 4 (#>) are ignored: pages and lessons take them\n"
    assert lab("run", source) == (3, b"", said)
    assert lab("profile", source)[2].startswith(said)


def test_stock_assembler_is_an_option(lab: Lab, clang: Compiler, tmp_path: pathlib.Path) -> None:
    """For what the lab's own assembler doesn't take, here `.insn`; and 3 + 7 by a macro, a repetition, a section and a numeric label."""
    source = tmp_path / "repeated.S"
    source.write_text(REPEATED, "ascii")
    assert lab("run", source) == (2, b"", f"vecmon-lab: {source}:15:9: {INSN}\n")
    assert lab("run", "--options", "stock", source) == (10, b"", "")
    status, output, _ = lab("profile", "--options", "stock", "--cc", clang.name, source)
    assert status == 0 and ["repeated.S:9", "3", "3"] == output.decode().split("\n\n")[1].splitlines()[1].split()[:3]
    assert lab("compare", "--options", "stock", source)[0] == 1  # nothing has written a0
    source.write_text(f"{REPEATED} bad x0\n", "ascii")
    assert lab("run", "--options", "stock", source)[2].startswith(
        f"vecmon-lab: {source}:16:2: unrecognized instruction"
    )


def test_options_choose_code_of_c_source(lab: Lab, clang: Compiler, tmp_path: pathlib.Path) -> None:
    """clang defines this name where it optimises."""
    source = tmp_path / "level.c"
    source.write_text(
        "#ifdef __OPTIMIZE__\nint main(void) { return 2; }\n#else\nint main(void) { return 0; }\n#endif\n"
    )
    levels: list[list[str]] = [[], ["--options", "O0"], ["--options", "O3"]]
    assert [lab("run", *words, source)[0] for words in levels] == [2, 0, 2]
    assert lab("run", "--options", "stock", source)[:2] == lab("run", "--options", "O3", STRIP_MINED)[:2] == (2, b"")


def test_bytes_that_are_not_utf_8_are_assembled(lab: Lab, tmp_path: pathlib.Path) -> None:
    """As GNU as does: the bytes of a string, here Latin-1, as they are."""
    source = tmp_path / "latin.s"
    source.write_bytes(
        b"_start: li a0, 1 # \xe9\nla a1, text\nli a2, 2\nli a7, 64\necall\nli a7, 93\necall\n"
        b'.data\ntext: .ascii "\xe9\xe8"\n'
    )
    assert lab("run", source)[:2] == (2, b"\xe9\xe8")


@pytest.fixture
def preprocessed(tmp_path: pathlib.Path) -> pathlib.Path:
    """A source for the preprocessor, which GCC and clang compile to a program that ends with 5."""
    (tmp_path / "both.S").write_text(PREPROCESSED, "ascii")
    return tmp_path / "both.S"


def test_stock_assembler_preprocesses(lab: Lab, clang: Compiler, preprocessed: pathlib.Path) -> None:
    """Also with a header next to it, and a mistake is at its line; in a `.s` the same lines are comments."""
    text = PREPROCESSED.replace("#define STATUS 5", '#include "status.h"')
    (preprocessed.parent / "status.h").write_text("#define STATUS 6\n", "ascii")
    for source, status in ((PREPROCESSED, 5), (text, 6)):
        preprocessed.write_text(source.replace("        # if", "        // if"), "ascii")
        assert lab("run", "--options", "stock", preprocessed) == (status, b"", "")
        with Kernel(preprocessed, "stock") as kernel, pytest.raises(CallStopped) as stopped:
            kernel.call("_start")
        assert stopped.value.stop and stopped.value.stop.number == status
    preprocessed.write_text("#define STATUS 5\n        li a9, STATUS\n", "ascii")
    assert lab("run", "--options", "stock", preprocessed)[2].startswith(f"vecmon-lab: {preprocessed}:2:")
    assert lab("lesson", "--options", "stock", preprocessed)[2].startswith("vecmon-lab: both.S:2:")
    comments = preprocessed.with_suffix(".s")
    comments.write_text(PREPROCESSED.replace("STATUS\n", "5\n"), "ascii")
    assert lab("run", "--options", "stock", comments)[0] == lab("run", comments)[0] == 9


def test_labs_assembler_refuses_preprocessor_lines(lab: Lab, preprocessed: pathlib.Path) -> None:
    """At the first one, unless the name ends in .s; comments with a space aren't taken for one."""
    advice = "the lab's assembler has no preprocessor: use --options stock, or .equ"
    for command in ("run", "lesson"):
        status, output, errors = lab(command, preprocessed)
        assert (status, output) == (2, b"") and errors.endswith(f"both.S:1:1: {advice}\n")
    with pytest.raises(LabError, match="line 1, column 1: the lab's assembler has no preprocessor"):
        read(preprocessed, "stock")
    preprocessed.write_text(PREPROCESSED.replace("#define STATUS 5", ".equ STATUS, 5").replace("#if 0", "# if 0"))
    assert lab("run", preprocessed)[2].endswith(f"both.S:5:1: {advice}\n")
    preprocessed.write_text(
        "        .equ STATUS, 5\n        li a0, STATUS\n# if this ends\n        li a7, 93\n        ecall\n"
    )
    assert lab("run", preprocessed) == (5, b"", "")
