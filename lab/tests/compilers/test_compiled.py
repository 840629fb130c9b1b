"""Sources in C: their images, the compilers' messages, and six kernels compared with the same in Python."""

import os
import pathlib
import re
import struct
import subprocess
import sys
from bisect import bisect_right

import pytest

from support.commands import Lab
from support.places import DATA, EXAMPLES
from vecmon_lab import LabError
from vecmon_lab.compilers import compiler
from vecmon_lab.compilers.compiled import program_of
from vecmon_lab.compilers.compiling import compile_c
from vecmon_lab.compilers.compiler import CHOICES, Compiler, choice_for, choice_of, find_compiler
from vecmon_lab.compilers.sandbox_main import Diagnostic, read_messages
from vecmon_lab.guest.guest import Guest
from vecmon_lab.machine.session import Session

KERNELS = EXAMPLES / "kernels"

PIXELS = [(5 * i % 256, (255 - 3 * i) % 256, i * i % 256) for i in range(45)]
LEFT = [[1000 * row - 300 * k for k in range(4)] for row in range(3)]
RIGHT = [[70 * column + k for column in range(20)] for k in range(4)]
OUTPUTS = {
    "saxpy": struct.pack("<37i", *(1000 + 2 * i for i in range(37))),
    "text_length": struct.pack("<Q", len("a text of more than thirty-two bytes that ends where its page does")),
    "matrix_product": struct.pack(
        "<60i", *(sum(a * b for a, b in zip(row, column)) for row in LEFT for column in zip(*RIGHT))
    ),
    "grey": bytes((77 * r + 150 * g + 29 * b) >> 8 for r, g, b in PIXELS),
    "filter": b"".join(struct.pack("<i", n) for i in range(40) if (n := i * 7919 % 100) > 60),
    "plain_sum": struct.pack("<I", sum(i * i for i in range(100))),
}


def run(session: Session, clang: Compiler, text: str, choice: int = 0) -> tuple[bytes, int]:
    """The output of a source, and its status."""
    program = compile_c(text, clang, choice, KERNELS)
    assert not program.mistakes, program.mistakes
    guest = Guest(session)
    guest.ask("enter", *program.load_lines())
    stop = guest.go(200_000)
    assert stop and stop.kind == "exit", stop
    return guest.output(), stop.number


@pytest.mark.parametrize("name", OUTPUTS)
def test_compiled_kernel_prints_expected_output(session: Session, clang: Compiler, name: str) -> None:
    assert run(session, clang, (KERNELS / f"{name}.c").read_text("ascii")) == (OUTPUTS[name], 0)


@pytest.mark.parametrize("choice", [at for at, each in enumerate(CHOICES) if each.source == "source.c"])
def test_all_options_give_equal_output(session: Session, clang: Compiler, choice: int) -> None:
    assert run(session, clang, (KERNELS / "plain_sum.c").read_text("ascii"), choice) == (OUTPUTS["plain_sum"], 0)


def test_every_kernel_has_expected_output() -> None:
    assert sorted(path.stem for path in KERNELS.glob("*.c")) == sorted(OUTPUTS)


def test_compiled_kernel_is_short_script(clang: Compiler) -> None:
    for path in (KERNELS / f"{name}.c" for name in OUTPUTS):
        program = compile_c(path.read_text("ascii"), clang, 0, KERNELS)
        assert sum(len(line) + 3 for line in program.lines) <= 12_000, path


def test_instructions_have_source_lines(clang: Compiler) -> None:
    text = "int twice(int x)\n{\n    return 2 * x;\n}\n\nint main(void)\n{\n    return twice(4);\n}\n"
    program = compile_c(text, clang, 1, KERNELS)  # -O0
    line_texts = program.source_lines(text)
    first = {number: address for address, number, _ in reversed(program.rows) if number}
    assert line_texts[f"{first[3]:x}"] == "3  return 2 * x;"
    assert program.labels["twice"] <= first[3] < program.labels["main"] <= first[8]


def test_line_starts_are_marked() -> None:
    rows = [
        (0x10, "source.c:3", ""),
        (0x10, "source.c:4", ""),
        (0x18, "source.c:4", ""),
        (0x20, "", ""),
        (0x24, "vecmon.h:5", ""),
        (0x28, "source.c:3", "f"),
    ]
    image = {"entry": 0, "segments": [], "symbols": {}, "rows": rows, "variables": []}
    program = program_of(image)
    assert program.line_starts() == {"10": 4, "20": 0, "28": 3}
    assert program.line_stops() == {"3": ["10", "28"], "4": ["10"]}, "an image of version 1.0 has none"
    program = program_of({**image, "stops": {"source.c:3": [0x28, 0x10], "f": [0x28]}})
    assert (program.line_stops(), program.entries) == ({"3": ["10", "28"]}, {"f": [0x28]})


def test_line_breakpoints_have_addresses(clang: Compiler) -> None:
    """A line that is inlined has an address in each copy, and a function's name too."""
    text = (DATA / "images" / "prefix_sums.c").read_text("ascii")
    program = compile_c(text, clang, 0, KERNELS)
    ranges = [program.labels[name] for name in ("prefix_bad", "prefix_good", "largest_bad", "main", "put")]
    assert ranges == sorted(ranges), "so each function ends where the next one begins"
    functions = ["prefix_bad", "prefix_good", "largest_bad", "main"]
    inside = {
        number: [functions[bisect_right(ranges, at) - 1] for at in stops] for number, stops in program.stops.items()
    }
    assert inside[10] == inside[17] == ["prefix_bad", "main"] and inside[26] == ["prefix_good"]
    assert inside[43] == ["largest_bad", "main"] and inside[54] == ["main"] and 20 in inside and 8 not in inside
    assert [program.line_at(at) for at in program.stops[10]] == [10, 10]
    assert [bisect_right(ranges, at) for at in program.entries["prefix_bad"]] == [1, 4]


def test_inlined_function_is_named(clang: Compiler) -> None:
    text = (KERNELS / "saxpy.c").read_text("ascii")
    line_texts = compile_c(text, clang, 0, KERNELS).source_lines(text)
    number = text[: text.index("sum = __riscv_vmacc")].count("\n") + 1
    assert any(line.startswith(f"{number}  ") and line.endswith("(saxpy, inlined)") for line in line_texts.values())


def test_compile_errors_have_locations(clang: Compiler) -> None:
    program = compile_c(
        "int main(void)\n{ return missing; }\nint unused(void) { int y; return 0; }\n", clang, 0, KERNELS
    )
    assert not program.lines
    assert [(each.line, each.column) for each in program.mistakes] == [(2, 10)]
    assert "undeclared" in program.mistakes[0].message


def test_undefined_symbol_is_located(clang: Compiler) -> None:
    (mistake,) = compile_c("long other(void);\nint main(void) { return other(); }\n", clang, 0, KERNELS).mistakes
    assert mistake.line == 0 and mistake.message == "undefined symbol: other"


def test_compiler_messages_are_parsed() -> None:
    expected = [
        "source.c:3:12: error: use of undeclared identifier 'x'",
        "source.c:3:12: note: it is here",
        "source.c:1:10: fatal error: '/etc/passwd' file not found",
        "/lab/vecmon_lab/compilers/runtime/runtime.c:5:1: warning: odd",
        "ld.lld-19: error: undefined symbol: f",
        "In file included from source.c:1:",
        "clang-19: error: linker command failed with exit code 1 (use -v to see invocation)",
        "error: unable to open output file 'image': 'Disk quota exceeded'",
        "source.s: Assembler messages:",
        "source.s:2: Error: illegal operands `vadd.vv v1,v2'",
        "source.s:3: Warning: odd",
    ]
    assert read_messages("\n".join([*expected, expected[0]])) == [
        Diagnostic(3, 12, True, "use of undeclared identifier 'x'"),
        Diagnostic(1, 10, True, "'passwd' file not found"),
        Diagnostic(0, 0, False, "runtime.c:5: odd"),
        Diagnostic(0, 0, True, "undefined symbol: f"),
        Diagnostic(0, 0, True, "unable to open output file 'image': 'Disk quota exceeded'"),
        Diagnostic(2, 1, True, "illegal operands `vadd.vv v1,v2'"),
        Diagnostic(3, 1, False, "odd"),
    ]


def test_segments_become_pages_and_bytes() -> None:
    segments = [
        [0x10000, "r", 0x1010, (b"\1" * 4).hex()],
        [0x11010, "rx", 0x20, (b"\2" * 0x20).hex()],
        [0x12000, "rw", 0x2000, ""],
    ]
    program = program_of(
        {"entry": 0x11010, "segments": segments, "symbols": {"_start": 0x11010}, "rows": [], "variables": []}
    )
    assert program.lines == [
        "map 10000 1 r",
        "map 11000 1 rx",
        "map 12000 2 rw",
        "poke 10000 01010101",
        f"poke 11010 {'02' * 0x20}",
    ]
    start = ["map 7fffb000 4 rw", "set x2 7fffefc0", "map 7ffff000 1 rx", "poke 7ffff000 73001000", "set x1 7ffff000"]
    assert program.load_lines() == [*program.lines, *start, "setpc 11010"]
    assert (program.entry, program.names()) == (0x11010, {"11010": ["_start"]})


def test_zero_bytes_are_not_written() -> None:
    data = b"\1" + bytes(100) + b"\2" * 300 + bytes(8)
    lines = program_of(
        {"entry": 0, "segments": [[0, "rw", 4096, data.hex()]], "symbols": {}, "rows": [], "variables": []}
    ).lines
    assert lines[1:4] == ["poke 0 01", f"poke 65 {'02' * 256}", f"poke 165 {'02' * 44}"]


def test_oversized_image_is_refused() -> None:
    for size, data in ((4096 * 201, b"\1"), (1 << 17, b"\1" * 65_537)):
        with pytest.raises(LabError, match="are the most"):
            program_of(
                {"entry": 0, "segments": [[0, "rw", size, data.hex()]], "symbols": {}, "rows": [], "variables": []}
            )


def test_compiler_arguments_are_closed_list() -> None:
    clang, gcc = Compiler("clang-19"), Compiler("riscv64-linux-gnu-gcc-14")
    for each in (clang, gcc):
        for choice in range(len(CHOICES)):
            assert each.words(choice)[0] == each.name
            sources = each.words(choice)[-2:]
            assert "source.s" in sources if choice == choice_of("stock") else sources[0] == "source.c"
        for choice in (-1, len(CHOICES)):
            with pytest.raises(LabError, match="options have numbers"):
                each.words(choice)
    assert clang.has_vectors and gcc.has_vectors and not Compiler("riscv64-linux-gnu-gcc").has_vectors


INSN = "        .insn r 0x33, 0, 0, t6, zero, zero\n"
NO_INSN = ".insn isn't in this assembler: write .word with the instruction's 32 bits"
DOUBLES = """\
## Doubles by a macro
# Three times.
        .macro double to, from
        vadd.vv \\to, \\from, \\from
        .endm
        .text
        j start  # where it begins, if nothing says `_start`
        .balign 64
start:  vsetivli zero, 8, e32, m1, ta, ma
# The numbers 0 to 7.
        vid.v v1
        .rept 3
        double v1, v1
        .endr
        la a1, numbers
        vse32.v v1, (a1)
        li a7, 64
        li a0, 1
        li a2, 8 * 4
        ecall
        li a7, 93
        li a0, 5
        ecall
#> peek numbers 20
        .bss
        .balign 64
numbers: .zero 8 * 4
"""


def test_stock_assembler_source_builds(session: Session, clang: Compiler) -> None:
    """Its lines are at its instructions, a macro's too; it begins at `_start`, or with its first instruction."""
    stock, expected = choice_of("stock"), struct.pack("<8i", *range(0, 64, 8))
    assert run(session, clang, DOUBLES, stock) == (expected, 5)
    program = compile_c(DOUBLES, clang, stock, KERNELS)
    assert sorted(program.addresses())[:4] == [7, 9, 11, 12]
    start, reply = program.labels["start"], program.source_lines(DOUBLES)
    assert [reply[f"{start + at:x}"].split()[0] for at in (0, 4, 8)] == ["9", "11", "12"]
    assert program.entry < start and not program.variables
    started = DOUBLES.replace("start:", "_start:").replace("j start", "j _start")
    assert (other := compile_c(started, clang, stock, KERNELS)).entry == other.labels["_start"] == start
    again = DOUBLES.replace("start:", ".globl _start\n_start:").replace("j start", "ebreak")
    assert run(session, clang, again, stock) == (expected, 5)


def test_stock_assembler_mistakes_have_locations(clang: Compiler) -> None:
    program = compile_c("nop\n vadd.vv v1, v2\n fadd.s f1, f2, f3\n", clang, choice_of("stock"), KERNELS)
    assert not program.lines and [mistake.line for mistake in program.mistakes] == [2, 3]
    (mistake,) = compile_c("call missing\n", clang, choice_of("stock"), KERNELS).mistakes
    assert mistake.line == 0 and mistake.message == "undefined symbol: missing"


def test_options_match_file_suffix() -> None:
    kernel, source = pathlib.Path("kernel.c"), pathlib.Path("kernel.s")
    assert choice_for(kernel, "O0") == choice_of("O0") and choice_for(source, "stock") == choice_of("stock")
    assert [choice_for(path, None) for path in (kernel, source, pathlib.Path("script"))] == [
        choice_of("O2"),
        None,
        None,
    ]
    for path in (kernel, pathlib.Path("script")):
        with pytest.raises(LabError, match="stock is for assembler"):
            choice_for(path, "stock")
    for path in (source, pathlib.Path("script")):
        with pytest.raises(LabError, match="O0 is for C, and the name of such a source ends in .c"):
            choice_for(path, "O0")


@pytest.mark.parametrize("name", ["/bin/sh", "@file", "", "clang-19 -fplugin=x"])
def test_unknown_compiler_is_refused(name: str) -> None:
    with pytest.raises(LabError, match="no compiler"):
        find_compiler(name)


@pytest.mark.parametrize("is_root", [True, False])
def test_command_installs_compilers(
    lab: Lab, monkeypatch: pytest.MonkeyPatch, tmp_path: pathlib.Path, is_root: bool
) -> None:
    log, installer, sudo = tmp_path / "log", tmp_path / "debian_packages", tmp_path / "sudo"
    installer.write_text(f'#!/bin/sh\necho "$@" >> {log}\n')
    sudo.write_text("#!/bin/sh\nexit 1\n")
    for file in (installer, sudo):
        file.chmod(0o755)
    monkeypatch.setenv("PATH", f"{tmp_path}:/usr/bin:/bin")
    monkeypatch.setattr(os, "geteuid", lambda: 0 if is_root else 1000)
    monkeypatch.setattr(compiler, "INSTALLER", installer)
    lab("lesson", "nowhere.c", "-o", tmp_path / "page.html")
    if compiler.find_compilers():
        assert not log.exists()
    monkeypatch.setattr(compiler, "find_compilers", lambda: [])
    lab("lesson", "nowhere.s", "-o", tmp_path / "page.html")
    log.touch()
    assert log.read_text() == ""
    status, _, errors = lab("lesson", KERNELS / "grey.c", "-o", tmp_path / "page.html")
    assert (status, log.read_text()) == (2, "compilers\n" if is_root else "")
    assert errors == "vecmon-lab: there is no compiler for C: sudo apt install clang-19 lld-19 bubblewrap\n"
    monkeypatch.setattr(compiler, "INSTALLER", tmp_path / "none")
    lab("lesson", KERNELS / "grey.c", "-o", tmp_path / "page.html")
    assert log.read_text() == ("compilers\n" if is_root else "")


def test_c_source_makes_lesson(clang: Compiler, tmp_path: pathlib.Path) -> None:
    page = tmp_path / "page.html"
    arguments = ["lesson", str(KERNELS / "grey.c"), "-o", str(page), "--cc", clang.name, "--options", "O3"]
    subprocess.run([sys.executable, "-m", "vecmon_lab", *arguments], check=True)
    text = page.read_text("utf-8")
    assert "Colours to grey: three fields of a pixel" in text and "vlseg3e8.v" in text
    assert "length = __riscv_vsetvl_e8m1(count);" in text
    assert "the grey is the upper eight." in text
    assert text.count("vecmon.h") == 1  # in the source; none of its lines is in the listing


def test_c_source_with_mistakes_makes_no_lesson(clang: Compiler, tmp_path: pathlib.Path) -> None:
    source = tmp_path / "wrong.c"
    source.write_text("int main(void)\n{\n    return 1 +;\n}\n", "ascii")
    arguments = ["lesson", str(source), "--cc", clang.name]
    completed = subprocess.run([sys.executable, "-m", "vecmon_lab", *arguments], capture_output=True, text=True)
    assert (completed.returncode, completed.stderr) == (2, "vecmon-lab: wrong.c:3:15: expected expression\n")


def test_stock_assembler_source_makes_lesson(clang: Compiler, tmp_path: pathlib.Path) -> None:
    """Which the lab's own assembler doesn't take; sentences and set-up are as they are there."""
    source, page = tmp_path / "doubles.s", tmp_path / "page.html"
    source.write_text(DOUBLES.replace("        .bss\n", f"{INSN}        .bss\n"), "ascii")
    words = [sys.executable, "-m", "vecmon_lab", "lesson", str(source), "-o", str(page)]
    completed = subprocess.run(words, capture_output=True, text=True)
    assert (completed.returncode, completed.stderr) == (2, f"vecmon-lab: doubles.s:25:9: {NO_INSN}\n")
    subprocess.run([*words, "--cc", clang.name, "--options", "stock"], check=True)
    text = page.read_text("utf-8")
    assert "<title>Doubles by a macro" in text and "The numbers 0 to 7." in text and "Three times." in text
    assert '"12  .rept 3"' in text and re.search(r"1 peek [0-9a-f]{5} 20", text)
