"""Variables of a source: their declarations in it, and their places, by the RISC-V ABI and DWARF 4."""

import re

import pytest

from support.places import EXAMPLES
from vecmon_lab.compilers.compiled import CompiledProgram
from vecmon_lab.compilers.compiling import compile_c
from vecmon_lab.compilers.compiler import CHOICES, Compiler
from vecmon_lab.compilers.locations import CODE_END, Location, Operation, location
from vecmon_lab.compilers.variables import Variable, read_variables

KERNELS = EXAMPLES / "kernels"
O0, O2 = (next(at for at, choice in enumerate(CHOICES) if choice.name == name) for name in ("O0", "O2"))
DECLARED = {
    "int16_t left[3][4]": ("i16", [3, 4]),
    "const unsigned char *volatile const from": ("x64", []),
    "volatile int const flag": ("i32", []),
    "char text[6]": ("c8", [6]),
    "_Bool is_done": ("u8", []),
    "enum colour { RED } one": ("u32", []),
    "struct pixel { int red; } pixels[2]": ("", [2]),
    "union both { int whole; } both": ("", []),
    "int (*rows)[4]": ("x64", []),
    "long (*function)()": ("x64", []),
    "void *nothing": ("x64", []),
    "signed char small": ("i8", []),
    "uint64_t large": ("u64", []),
}


def compiled(clang: Compiler, text: str, choice: int = O2) -> CompiledProgram:
    """The program of a source without mistakes."""
    program = compile_c(text, clang, choice, KERNELS)
    assert not program.mistakes, program.mistakes
    return program


def test_types_are_written_in_c(clang: Compiler) -> None:
    text = "#include <stdint.h>\n" + "".join(f"{each};\n" for each in DECLARED) + "int main(void) { return 0; }\n"
    expected = {words: (element, counts) for _, words, element, counts, *_ in compiled(clang, text, O0).variables}
    assert expected == {re.sub(r" {.*}", "", words): form for words, form in DECLARED.items()}


def test_global_is_at_its_symbol(clang: Compiler) -> None:
    program = compiled(clang, (KERNELS / "saxpy.c").read_text("ascii"))
    (found,) = (each for each in program.variables if each[1] == "int32_t y[37]")
    assert found[4:6] == ("", []) and found[6] == [Location(0, CODE_END, "memory", 0, f"{program.labels['y']:x}")]


def test_arguments_are_in_registers(clang: Compiler) -> None:
    text = "__attribute__((noinline)) long sum(long one, long other) { return one + other; }\n"
    program = compiled(clang, text + "int main(void) { return (int)sum(3, 4); }\n")
    places = {
        name: (function, scopes, locations[0]) for name, _, _, _, function, scopes, locations, _ in program.variables
    }
    for number, name in enumerate(("one", "other"), 10):
        function, scopes, place = places[name]
        assert function == "sum" and place[2:] == ("register", number, "0")
        assert scopes[0][0] == program.labels["sum"] and place[0] <= scopes[0][0]


def test_locals_are_in_their_frame(clang: Compiler) -> None:
    text = "int main(void)\n{\n    int first = 1;\n    long second = 2;\n    return first + (int)second;\n}\n"
    variables = compiled(clang, text, O0).variables
    assert {name for name, *_ in variables} == {"first", "second"}
    for _, _, _, _, function, _, (place,), _ in variables:
        assert function == "main" and place[2:4] == ("memory", 8) and int(place[4], 16) >= (1 << 64) - 64


def test_optimized_out_variable_has_no_location(clang: Compiler) -> None:
    """A vector is in no register that clang describes, and 3 is a part of an instruction."""
    found = {each[0]: each for each in compiled(clang, (KERNELS / "saxpy.c").read_text("ascii")).variables}
    for name, declared in (("sum", "vint32m2_t sum"), ("factor", "int32_t factor")):
        _, words, _, _, function, scopes, places, _ = found[name]
        assert (words, function, places) == (declared, "saxpy", []) and scopes == found["length"][5]


def test_runtime_variables_are_omitted(clang: Compiler) -> None:
    assert compiled(clang, "int main(void) { return 0; }\n").variables == []


def operation(name: str, code: int, *arguments: int) -> Operation:
    return code, f"DW_OP_{name}", list(arguments), 0


REGISTER, BASE, LITERAL = operation("reg10", 0x5A), operation("breg12", 0x7C, -8), operation("lit3", 0x33)
VALUE, LENGTH = operation("stack_value", 0x9F), operation("bregx", 0x92, 7202, 0)
PLUS, MINUS, TIMES = operation("plus", 0x22), operation("minus", 0x1C), operation("mul", 0x1E)


@pytest.mark.parametrize(
    ("operations", "kind", "register", "offset"),
    [
        ([REGISTER], "register", 10, 0),
        ([operation("regx", 0x90, 96 + 8)], "vector", 8, 0),
        ([operation("regx", 0x90, 64)], "untold", 64, 0),
        ([operation("regx", 0x90, 128)], "untold", 32, 0),
        ([operation("addr", 0x03, 0x12480)], "memory", 0, 0x12480),
        ([BASE], "memory", 12, -8),
        ([BASE, VALUE], "value", 12, -8),
        ([LITERAL, VALUE], "value", 0, 3),
        ([operation("fbreg", 0x91, -20)], "memory", 8, -4),
        ([operation("fbreg", 0x91, -64), LITERAL, LENGTH, TIMES, MINUS], "memory", 8, 16 - 64 - 3 * 32),
        ([LITERAL, BASE, PLUS, operation("plus_uconst", 0x23, 5)], "memory", 12, 0),
        ([operation("const1u", 0x08, 7), operation("consts", 0x11, -9), PLUS, VALUE], "value", 0, -2),
    ],
)
def test_location_expression_is_decoded(operations: list[Operation], kind: str, register: int, offset: int) -> None:
    reply = location(4, 8, operations, (8, 16))
    assert reply == Location(4, 8, kind, register, f"{offset % (1 << 64):x}")


def test_frame_without_base_has_no_locations() -> None:
    """As those of gcc, whose base is the frame's address as the unwinder has it (DW_OP_call_frame_cfa)."""
    with pytest.raises(ValueError, match="isn't known here"):
        location(0, 8, [operation("fbreg", 0x91, -20)], None)


@pytest.mark.parametrize(
    "operations",
    [
        [],
        [PLUS],
        [VALUE],
        [REGISTER, operation("piece", 0x93, 4)],
        [BASE, operation("deref", 0x06)],
        [BASE, BASE, PLUS],
        [LITERAL, BASE, MINUS],
        [BASE, LITERAL, TIMES],
        [LENGTH, operation("bregx", 0x92, 40, 0)],
        [operation("regval_type", 0xA5, 10, 8)],
    ],
)
def test_unknown_location_is_omitted(operations: list[Operation]) -> None:
    with pytest.raises((ValueError, IndexError)):
        location(0, 8, operations, (8, 0))


@pytest.mark.parametrize(
    ("place", "part"),
    [
        (2, "q32"),
        (2, None),
        (3, ["x"]),
        (5, [[1]]),
        (5, [[1, "y"]]),
        (6, [[0, 1, "memory", 0, "x"]]),
        (6, [[0, 1, "memory", "0", "1"]]),
        (6, 7),
    ],
)
def test_malformed_variables_are_refused(place: int, part: object) -> None:
    reply: list[object] = ["a", "int a", "i32", [], "", [[0, 8]], [[0, 8, "memory", 34, "12480"]]]
    (read,) = read_variables([reply])
    assert read == Variable("a", "int a", "i32", [], "", [(0, 8)], [Location(0, 8, "memory", 2, "12480")])
    reply[place] = part
    with pytest.raises((ValueError, TypeError)):
        read_variables([reply])
