"""Integers of C types as arguments and results: the registers of a caller that clang compiles, on QEMU, and C's conversions by ctypes."""

import array
import ctypes
import io
import pathlib
import shutil
import struct
import subprocess
from collections.abc import Iterator
from typing import Any, NamedTuple

import pytest
from elftools.elf.elffile import ELFFile
from hypothesis import given, settings
from hypothesis import strategies as st

from support.places import TOTAL
from support.skips import NO_BINUTILS, leave_out
from vecmon_lab import Kernel, LabError
from vecmon_lab.compilers.compiler import Compiler
from vecmon_lab.compilers.compiling import compiled_image
from vecmon_lab.compilers.signatures import Signatures
from vecmon_lab.guest.symbols import Symbols


class Kind(NamedTuple):
    """A type in C and in ctypes, and the range of its values."""

    c: str
    host: Any
    smallest: int
    largest: int


KINDS = {
    "i8": Kind("int8_t", ctypes.c_int8, -128, 127),
    "u8": Kind("uint8_t", ctypes.c_uint8, 0, 255),
    "character": Kind("char", ctypes.c_uint8, 0, 255),  # which has no sign in RISC-V's ABI
    "i16": Kind("narrow", ctypes.c_int16, -32768, 32767),
    "u16": Kind("uint16_t", ctypes.c_uint16, 0, 65535),
    "i32": Kind("int32_t", ctypes.c_int32, -(1 << 31), (1 << 31) - 1),
    "u32": Kind("uint32_t", ctypes.c_uint32, 0, (1 << 32) - 1),
    "i64": Kind("int64_t", ctypes.c_int64, -(1 << 63), (1 << 63) - 1),
    "u64": Kind("size_t", ctypes.c_uint64, 0, (1 << 64) - 1),
    "truth": Kind("_Bool", ctypes.c_bool, 0, 1),
    "signed_enum": Kind("enum with_sign", ctypes.c_int32, -(1 << 31), (1 << 31) - 1),
    "enum": Kind("enum without_sign", ctypes.c_uint32, 0, (1 << 32) - 1),
}
FUNCTIONS = """
static const volatile {c} edges_{name}[] = {{ ({c})0x{smallest:x}u, ({c})0x{largest:x}u, ({c})0xc5u & ({c})0x{largest:x}u }};
{c} same_{name}({c} x) {{ return x; }}
uint64_t wide_{name}({c} x) {{ return (uint64_t)x; }}
_Bool equal_{name}({c} *from, {c} x) {{ return *from == x; }}
{c} sum_{name}({c} x, {c} y) {{ return ({c})((uint64_t)x + (uint64_t)y); }}
__attribute__((noinline)) uint64_t register_{name}({c} x)
{{
    register uint64_t whole __asm__("a0");
    __asm__ volatile("" : "=r"(whole) : "r"(x));
    return whole;
}}
"""
OTHERS = """
struct pair { int32_t left, right; };
float real(float x) { return x; }
long double wide_real(const long double *x) { return *x; }
struct pair swapped(struct pair p) { return (struct pair){ p.right, p.left }; }
struct pair both(int x) { return (struct pair){ x, x }; }
int left(const struct pair *from) { return from->left; }
__int128 large(__int128 x) { return x; }
_BitInt(7) narrow_bits(_BitInt(7) x) { return x; }
unsigned _BitInt(37) wide_bits(void) { return 1; }
int count(int n, ...) { __builtin_va_list rest; __builtin_va_start(rest, n); return __builtin_va_arg(rest, int); }
void nothing(void) { __asm__ volatile("li a0, 7" ::: "a0"); }
uint64_t address(uintptr_t one, void *other) { return one + (uint64_t)other; }
int nine(int a, int b, int c, int d, int e, int f, int g, int h, int i) { return a + b + c + d + e + f + g + h + i; }
__attribute__((noinline)) static int changed(int unused, int x) { return 3 * x; }
int calls(int x) { return changed(x, x) + changed(5, x); }
"""


def source() -> str:
    """A source with functions of each type, whose `main` writes the registers of arguments."""
    enums = "typedef const int16_t narrow;\nenum with_sign { LOW = -1, HIGH = 1 };\nenum without_sign { ZERO, TOP = 0x80000000u };\n"
    functions = "".join(FUNCTIONS.format(name=name, **_unsigned(kind)) for name, kind in KINDS.items())
    calls = "".join(
        f"for (int i = 0; i < 3; i++) {{ uint64_t x = register_{name}(edges_{name}[i]); put(&x, 8); }}\n"
        for name in KINDS
    )
    return f'#include "vecmon.h"\n{enums}{functions}{OTHERS}int main(void)\n{{\n{calls}return 0;\n}}\n'


def _unsigned(kind: Kind) -> dict[str, Any]:
    """The parts of a template of a type, with numbers modulo 2^64."""
    return kind._asdict() | {"smallest": kind.smallest % (1 << 64), "largest": kind.largest}


@pytest.fixture(scope="module")
def image(clang: Compiler, tmp_path_factory: pytest.TempPathFactory) -> pathlib.Path:
    """The image of the source, by the lab's options."""
    path = tmp_path_factory.mktemp("arguments") / "typed.c"
    path.write_text(source())
    copy = path.with_name("typed")
    shutil.copyfile(compiled_image(path), copy)
    copy.chmod(0o755)  # for QEMU
    return copy


@pytest.fixture(scope="module")
def kernel(image: pathlib.Path) -> Iterator[Kernel]:
    """The functions of the source."""
    with Kernel(image) as kernel:
        yield kernel


def test_registers_equal_those_of_compiled_caller(image: pathlib.Path, kernel: Kernel, qemu: None) -> None:
    """The caller is `main`, and `register_...` returns the register that it was given."""
    command = ["qemu-riscv64", "-cpu", "rv64,v=true,vext_spec=v1.0,vlen=256", str(image)]
    output = subprocess.run(command, stdout=subprocess.PIPE, check=True).stdout
    expected = iter(struct.unpack(f"<{3 * len(KINDS)}Q", output))
    for name, kind in KINDS.items():
        for edge in (kind.smallest, kind.largest, kind.host(0xC5 & kind.largest).value):
            assert kernel.call(f"register_{name}", edge).value == next(expected), (name, edge)
    assert next(expected, None) is None
    assert kernel.call("register_u32", 0x80000001).value == 0xFFFFFFFF80000001
    assert kernel.call("register_u16", 0xFFFF).value == 0xFFFF


@settings(max_examples=60)
@given(st.data(), st.sampled_from(list(KINDS)))
def test_functions_convert_as_c_does(kernel: Kernel, data: st.DataObject, name: str) -> None:
    kind = KINDS[name]
    edges = st.sampled_from([kind.smallest, kind.largest, kind.largest // 2, min(kind.largest, kind.largest // 2 + 1)])
    one, other = (data.draw(edges | st.integers(kind.smallest, kind.largest)) for _ in range(2))
    result = kernel.call(f"same_{name}", one)
    assert result.value == kind.host(one).value
    assert result.bits == 8 * ctypes.sizeof(kind.host)
    assert kernel.call(f"wide_{name}", one).value == ctypes.c_uint64(one).value
    assert kernel.call(f"sum_{name}", one, other).value == kind.host(one + other).value
    for number in (one, other):
        assert kernel.call(f"equal_{name}", (kind.host * 1)(one), number).value == int(one == number)


@pytest.mark.parametrize("name", KINDS)
def test_value_outside_of_type_is_refused(kernel: Kernel, name: str) -> None:
    kind = KINDS[name]
    for number in (kind.smallest - 1, kind.largest + 1):
        with pytest.raises(LabError, match=rf"^argument 1, {number}, doesn't fit into .* x: {kind.smallest} to "):
            kernel.call(f"same_{name}", number)


@pytest.mark.parametrize(
    "argument, register",
    [
        (ctypes.c_int8(-3), -3),
        (ctypes.c_uint8(253), 253),
        (ctypes.c_char(b"\xfd"), 253),
        (ctypes.c_int16(-3), -3),
        (ctypes.c_uint16(0xFFFD), 0xFFFD),
        (ctypes.c_int32(-3), -3),
        (ctypes.c_uint32(0x7FFFFFFF), 0x7FFFFFFF),
        (ctypes.c_uint32(0x80000001), 0xFFFFFFFF80000001),
        (ctypes.c_uint32(-1), (1 << 64) - 1),
        (ctypes.c_int64(-3), -3),
        (ctypes.c_size_t(1 << 63), 1 << 63),
        (ctypes.c_bool(True), 1),
        (ctypes.c_void_p(None), 0),
        (0x80000001, 0x80000001),
        (True, 1),
    ],
)
def test_argument_of_ctypes_has_its_type(tmp_path: pathlib.Path, argument: Any, register: int) -> None:
    """By section `Integer Calling Convention` of the psABI, worked by hand; the lab's assembler has no debug data."""
    (tmp_path / "second.s").write_text("second: mv a0, a1\n ret\n")
    with Kernel(tmp_path / "second.s") as kernel:
        assert kernel.call("second", 0, argument).value == register % (1 << 64)


def test_type_of_parameter_decides(kernel: Kernel) -> None:
    assert kernel.call("wide_u64", ctypes.c_uint32(1 << 31)).value == 1 << 31
    with pytest.raises(
        LabError, match="^argument 1, 2147483648, doesn't fit into int32_t x: -2147483648 to 2147483647$"
    ):
        kernel.call("wide_i32", ctypes.c_uint32(1 << 31))


@pytest.mark.parametrize(
    "symbol, arguments, expected",
    [
        ("sum_u8", [1], "sum_u8 takes 2 arguments (uint8_t x, uint8_t y), and this call has 1"),
        ("nothing", [1], "nothing takes 0 arguments (void), and this call has 1"),
        ("count", [], "count takes at least 1 argument (int n), and this call has 0"),
        ("nine", [0] * 9, "a call has 8 arguments at most, and this one has 9"),
        ("real", [1], "real: argument 1, float x, is no integer or pointer: pass a pointer to it"),
        ("wide_real", [1], "wide_real: its result, long double, is no integer or pointer: store it by a pointer"),
        ("swapped", [1], "swapped: argument 1, struct pair p, is no integer or pointer: pass a pointer to it"),
        ("both", [1], "both: its result, struct pair, is no integer or pointer: store it by a pointer"),
        ("large", [1], "large: argument 1, __int128 x, is no integer or pointer: pass a pointer to it"),
        ("narrow_bits", [63], "narrow_bits: argument 1, _BitInt x, is no integer or pointer: pass a pointer to it"),
        ("wide_bits", [], "wide_bits: its result, unsigned _BitInt, is no integer or pointer: store it by a pointer"),
        ("sum_u32", [1, 2.5], "argument 2, 2.5, is no integer and no array: pass array.array('i', [7]), for example"),
        ("sum_u32", [1, ctypes.c_float(2)], "argument 2, c_float(2.0), is no integer and no array: "),
        ("sum_u32", [1, b"ab"], "argument 2 is an array, and uint32_t y is no pointer"),
        ("changed", [1, 2], "changed: the compiler changed how this static function takes its arguments: "),
    ],
)
def test_call_against_signature_is_refused(kernel: Kernel, symbol: str, arguments: Any, expected: str) -> None:
    with pytest.raises(LabError) as caught:
        kernel.call(symbol, *arguments)
    assert str(caught.value).startswith(expected) and "naked" not in str(caught.value)


def test_promoted_argument_is_refused(clang: Compiler, tmp_path: pathlib.Path) -> None:
    """With -O3 clang passes `ends` the two numbers that it reads in place of the pointer, and `plain` its arguments."""
    text = """struct big { long a, b, c, d; };
static __attribute__((noinline)) long ends(const struct big *b) { return b->a * 2 + b->d; }
long all(const struct big *b) { return ends(b) + b->a + b->b + b->d; }
static __attribute__((noinline)) long plain(long a, long b) { return a * 3 + b; }
long twice(long a) { return plain(a, 7) + plain(a + 1, 8); }
"""
    (tmp_path / "big.c").write_text(text)
    with Kernel(tmp_path / "big.c", options="O3", compiler=clang.name) as kernel:
        with pytest.raises(
            LabError, match="^ends: the compiler changed how this static function takes its arguments: "
        ):
            kernel.call("ends", array.array("q", [1, 2, 3, 4]))
        assert kernel.call("all", array.array("q", [1, 2, 3, 4])).value == 6 + 1 + 2 + 4
        assert kernel.call("plain", 5, -6).value == 9


def test_pointers_variadic_arguments_and_void(kernel: Kernel) -> None:
    pair = (ctypes.c_int32 * 2)(-7, 3)
    assert kernel.call("left", pair).value == -7
    assert kernel.call("address", 1 << 63, (1 << 63) + 5).value == 5
    assert kernel.call("address", b"abcd", 0).value == 0x1_0000_0FFC
    assert kernel.call("count", 1, ctypes.c_int32(-9)).value == -9
    nothing = kernel.call("nothing")
    assert (nothing.value, nothing.signed) == (0, 0)


def test_result_has_both_signs(kernel: Kernel) -> None:
    unsigned, signed = kernel.call("same_u32", 0x80000001), kernel.call("same_i32", -0x7FFFFFFF)
    assert (unsigned.value, unsigned.signed) == (0x80000001, -0x7FFFFFFF)
    assert (signed.value, signed.signed) == (-0x7FFFFFFF, -0x7FFFFFFF)


def test_kernel_of_c_source_knows_types(clang: Compiler, tmp_path: pathlib.Path) -> None:
    text = """#include "vecmon.h"
size_t count_equal(const uint32_t *from, size_t n, uint32_t key)
{
    size_t s = 0;
    for (size_t i = 0; i < n; i++)
        s += from[i] == key;
    return s;
}
int is_largest(uint32_t x) { return x == 0xffffffffu; }
"""
    (tmp_path / "sub.c").write_text(text)
    with Kernel(tmp_path / "sub.c", compiler=clang.name) as kernel:
        assert kernel.call("count_equal", array.array("I", [0x80000001] * 3), 3, 0x80000001, policy="both").value == 3
        assert kernel.call("is_largest", 0xFFFFFFFF).value == 1
        steps = list(kernel.steps("is_largest", 0xFFFFFFFE))
        assert steps[0].pc and steps[0].why("a0").value in (0, 1, (1 << 64) - 1)


def test_namespaces_and_references_of_dwarf_5(clang: Compiler, tmp_path: pathlib.Path) -> None:
    """A source in C++, whose debug data has the declaration apart from the definition."""
    text = """namespace inner { struct box { unsigned value(const unsigned &x, char32_t y) const; }; }
unsigned inner::box::value(const unsigned &x, char32_t y) const { return x + y; }
extern "C" bool is_not(bool x) { return !x; }
"""
    (tmp_path / "box.cpp").write_text(text)
    target = ["--target=riscv64-linux-gnu", "-march=rv64im", "-mabi=lp64", "-ffreestanding", "-nostdlib", "-static"]
    linked = [f"-fuse-ld=lld{clang.name.removeprefix('clang')}", "-Wl,--entry=0", "-O1", "-g", "-gdwarf-5"]
    command = [clang.name, "-x", "c++", *target, *linked, "-o", "box", "box.cpp"]
    subprocess.run(command, cwd=tmp_path, check=True)
    with Kernel(tmp_path / "box") as kernel:
        value = "_ZNK5inner3box5valueERKjDi"
        assert kernel.call(value, 0, array.array("I", [0x7FFFFFFF]), 2).value == 0x80000001
        assert kernel.call("is_not", False).value == 1
        with pytest.raises(
            LabError, match=r"takes 3 arguments \(.*\*\s*(const )?this, const unsigned int &x, char32_t y\)"
        ):
            kernel.call(value, 0, 1)


@pytest.mark.parametrize("path", TOTAL, ids=["DWARF 4", "DWARF 5"])
def test_types_in_images_by_gcc(path: pathlib.Path) -> None:
    """By lab/tests/data/images/total.c, and the declarations in vecmon.h."""
    found, addresses = Signatures(path.read_bytes()), Symbols.read(path).addresses
    declared = {
        "total": ("unsigned int", ["const unsigned int *from", "unsigned int count"]),
        "put": ("long int", ["const void *bytes", "size_t count"]),
        "exit": ("", ["int status"]),
    }
    for name, (result, parameters) in declared.items():
        signature = found.at(addresses[name])
        assert signature and [each.declaration for each in signature.parameters] == parameters
        assert (signature.result.declaration if signature.result else "") == result
    with Kernel(path) as kernel:
        numbers = array.array("I", [0x7FFFFFFF, 2])
        assert kernel.call("total", numbers, 2).value == 0x80000001


def test_assembled_function_has_no_types(tmp_path: pathlib.Path) -> None:
    """GNU's assembler lists functions in debug data, without their parameters."""
    if not shutil.which("riscv64-linux-gnu-ld"):
        leave_out(NO_BINUTILS)
    text = ".globl total\n.type total, @function\ntotal: add a0, a0, a1\n ret\n.size total, .-total\n"
    (tmp_path / "total.s").write_text(text)
    subprocess.run(["riscv64-linux-gnu-as", "-g", "-march=rv64im", "-o", "o", "total.s"], cwd=tmp_path, check=True)
    subprocess.run(["riscv64-linux-gnu-ld", "--entry=total", "-o", "total", "o"], cwd=tmp_path, check=True)
    with Kernel(tmp_path / "total") as kernel:
        assert kernel.call("total", 1 << 40, 2).value == (1 << 40) + 2


def test_damaged_debug_data_has_no_types(image: pathlib.Path, kernel: Kernel) -> None:
    data, address = image.read_bytes(), kernel._symbols.addresses["same_u8"]
    place = ELFFile(io.BytesIO(data)).get_section_by_name(".debug_info")["sh_offset"]
    assert Signatures(data).at(address)
    for damaged in (
        b"",
        data[: len(data) // 2],
        data[:64],
        data[: place + 8] + b"\xff" * 64 + data[place + 72 :],
    ):
        assert Signatures(damaged).at(address) is None
