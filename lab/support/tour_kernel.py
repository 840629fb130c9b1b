"""The kernel in C of the tour, as a compiler makes it: `python3 -m support.tour_kernel`, in lab/, stores what it made.

So the tour needs no compiler.
"""

import json
import textwrap
from collections.abc import Iterator

from vecmon_lab.compilers.compiled import CompiledProgram
from vecmon_lab.compilers.compiling import compile_c
from vecmon_lab.machine.start_state import STACK
from vecmon_lab.compilers.compiler import Compiler, choice_of
from vecmon_lab.lessons.tour import TOURS

KERNEL = "kernel_in_c"  # how its files in the tour are named
COMPILER, OPTIONS = Compiler("clang-19"), "O1"
DIGITS = 128  # of a line that writes bytes: a table of the tour's page has no room for more


def made() -> tuple[str, str]:
    """The script, and the data of the source next to it."""
    text = (TOURS / f"{KERNEL}.c").read_text("ascii")
    program = compile_c(text, COMPILER, choice_of(OPTIONS), TOURS)
    first = first_vector_instruction(program, text)
    lines = ["1 enter", *(f"1 {line}" for line in short_lines(program)), f"1 setpc {program.entry:x}"]
    lines += [f"1 break {first:x}", "1 go", "* run 1", f"1 unbreak {first:x}", "1 step 256", "1 out"]
    return "".join(f"{line}\n" for line in lines), kernel_json(program, text)


def first_vector_instruction(program: CompiledProgram, text: str) -> int:
    """The address of the first instruction of the line that sets the vector length."""
    number = next(number for number, line in enumerate(text.splitlines(), 1) if "__riscv_vsetvl" in line)
    return min(int(address, 16) for address, line in program.line_starts().items() if line == number)


def short_lines(program: CompiledProgram) -> Iterator[str]:
    """The lines that bring a program in, with fewer bytes each."""
    for line in (*program.lines, *STACK):
        match line.split():
            case ["poke", address, digits]:
                for place, part in enumerate(textwrap.wrap(digits, DIGITS)):
                    yield f"poke {int(address, 16) + place * DIGITS // 2:x} {part}"
            case _:
                yield line


def kernel_json(program: CompiledProgram, text: str) -> str:
    """Labels, lines, where lines begin, and variables, as JSON with a line for each of these."""
    parts = {
        "labels": program.names(),
        "said": program.source_lines(text),
        "starts": program.line_starts(),
        "variables": program.variables,
    }
    return "{\n" + ",\n".join(f"{json.dumps(name)}: {json.dumps(part)}" for name, part in parts.items()) + "\n}\n"


if __name__ == "__main__":
    for suffix, content in zip(("", ".json"), made()):
        (TOURS / f"{KERNEL}{suffix}").write_text(content, "ascii")
