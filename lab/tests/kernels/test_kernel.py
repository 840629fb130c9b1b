"""Functions called from Python: their arguments, their results, and the message if a call doesn't return."""

import array
import asyncio
import ctypes
import pathlib
import re
import shutil
import signal
import subprocess
import sys
from collections.abc import Iterator
from typing import Any

import pytest

import vecmon_lab
from support.places import EXAMPLES, SQUARES_DWARF5, TOP
from vecmon_lab import CallStopped, Kernel, LabError, Placed, PoliciesDiffer
from vecmon_lab.compilers.compiler import Compiler
from vecmon_lab.guest.runner import Runner
from vecmon_lab.kernels import kernel as kernels

SOURCE = """
fifth:  mv a0, a4
        ret
least:  lb a0, -1(a0)
        ret
first:  lb a0, 0(a0)
        ret
turned: beqz a1, done                   # each of a1 bytes from a0 on is turned round
        lb t0, 0(a0)
        not t0, t0
        sb t0, 0(a0)
        addi a0, a0, 1
        addi a1, a1, -1
        j turned
done:   ret
tail:   vsetivli x0, 4, e32, m1, ta, ma # the tail holds a 9 before, and then it is what the policy makes of it
        vmv.v.i v8, 9
        vsetivli x0, 2, e32, m1, ta, ma
        vmv.v.i v8, 1
        vsetivli x0, 4, e32, m1, ta, ma
        vse32.v v8, (a0)
        vmv.s.x v9, x0
        vredsum.vs v9, v8, v9
        vmv.x.s a0, v9
        ret
counts: la t0, count
        ld a0, 0(t0)
        addi a0, a0, 1
        sd a0, 0(t0)
        ret
says:   mv a3, ra
next:   mv a2, a1
        li a0, 1
        la a1, count
        li a7, 64
        ecall
        mv a1, a2
        addi a4, a4, -1
        bnez a4, next
        jr a3
ends:   li a7, 93
        ecall
halts:  ebreak
stays:  j stays
        .data
count:  .dword 0x30
"""


class _Pair(ctypes.Structure):
    """Of an array of these no memory can be made anew."""

    _fields_ = [("first", ctypes.c_int), ("second", ctypes.c_int)]


@pytest.fixture(scope="module")
def kernel(tmp_path_factory: pytest.TempPathFactory) -> Iterator[Kernel]:
    """The functions of the source."""
    path = tmp_path_factory.mktemp("kernel") / "source.s"
    path.write_text(SOURCE)
    with Kernel(path) as kernel:
        yield kernel


@pytest.mark.parametrize("number", [0, 7, -1, -(1 << 63), (1 << 64) - 1])
def test_call_passes_and_returns_numbers(kernel: Kernel, number: int) -> None:
    result = kernel.call("fifth", 1, 2, 3, 4, number)
    assert result.value == number % (1 << 64) and result.signed == number - (1 << 64 if number > 1 << 63 else 0)


@pytest.mark.parametrize(
    "given, left",
    [
        (b"\x00\x01\xfe", b"\xff\xfe\x01"),
        (bytearray(b"\x80"), bytearray(b"\x7f")),
        (array.array("h", [0, -2, 300]), array.array("h", [-1, 1, -301])),
        (memoryview(array.array("q", [5, -1])), memoryview(array.array("q", [-6, 0]))),
        (memoryview(b"\0\1\2\3").cast("B", (2, 2)), memoryview(b"\xff\xfe\xfd\xfc").cast("B", (2, 2))),
        (memoryview((ctypes.c_short * 2)(1, -2)), memoryview(array.array("h", [-2, 1]))),
        (b"", b""),
        (bytes(range(256)) * 20, bytes(range(255, -1, -1)) * 20),
    ],
    ids=["bytes", "bytearray", "array", "memoryview", "rows", "ctypes", "empty", "two pages"],
)
@pytest.mark.parametrize("offset", [None, 0, 1, 4095])
def test_call_passes_and_returns_arrays(kernel: Kernel, given: Any, left: Any, offset: int | None) -> None:
    """A word that is turned round is -1 minus it."""
    size, before = memoryview(given).nbytes, bytes(memoryview(given).cast("B")) if len(given) else b""
    result = kernel.call("turned", Placed(given, offset), size)
    assert type(result.arrays[0]) is type(given) and result.arrays[0] == left
    assert (result.value - size) % 4096 == ((-size) % 4096 if offset is None else offset)
    assert bytes(memoryview(given).cast("B") if len(given) else b"") == before


def test_array_pages_have_unmapped_neighbours(kernel: Kernel) -> None:
    assert kernel.call("least", Placed(b"ab", 1)).value == kernel.call("first", Placed(b"\0", 4095)).value == 0
    with pytest.raises(
        CallStopped, match=r"least.*may not read from 0xffffffff on: .* Array 1 is from 0x100000000 to "
    ):
        kernel.call("least", Placed(b"ab", 0))
    with pytest.raises(CallStopped, match=r"first.*may not read from 0x100001000 on.* to 0x100001000\.$") as caught:
        kernel.call("first", b"")
    assert caught.value.stop and (caught.value.stop.kind, caught.value.stop.cause) == ("fault", 5)
    with pytest.raises(CallStopped, match=r"turned\+0xc: sb x5, 0\(x10\): .*may not write"):
        kernel.call("turned", Placed(b"a", permissions="r"), 1)


def test_agnostic_elements_are_reported(kernel: Kernel) -> None:
    """Elements 2 and 3 keep their 9 under `keep`; under `ones` they are all ones, which is -1."""
    before, kept = array.array("i", [0] * 4), array.array("i", [1, 1, 9, 9])
    result = kernel.call("tail", before)
    assert (result.value, result.arrays) == (20, [kept])
    assert kernel.call("tail", before, policy="ones").arrays == [array.array("i", [1, 1, -1, -1])]
    expected = (
        "tail: the result is 0x14 under keep, 0x0 under ones; array 1, byte 8: 09 under keep, ff under ones; 8 bytes"
    )
    with pytest.raises(PoliciesDiffer, match=re.escape(expected)):
        kernel.call("tail", before, policy="both")
    assert kernel.call("fifth", 0, 0, 0, 0, 5, policy="both").value == 5


def test_seeds_choose_agnostic_elements(kernel: Kernel) -> None:
    """Seed 0 chooses nothing, seed 1 all ones; of 2 and 3 each element of the tail is ones with one of them."""
    before = array.array("i", [9] * 4)
    left = [kernel.call("tail", before, policy="open", seed=seed).arrays[0] for seed in range(4)]
    assert left[0] == kernel.call("tail", before).arrays[0]
    assert left[1] == kernel.call("tail", before, policy="ones").arrays[0]
    for kept, ones, *others in zip(*left):
        assert sorted(others) == sorted([kept, ones])
    assert kernel.call("fifth", 0, 0, 0, 0, 5, policy="open", seed=7).value == 5


def test_seed_and_policy_need_each_other(kernel: Kernel) -> None:
    for given in ({"policy": "open"}, {"seed": 1}, {"policy": "open", "seed": 1, "counted": True}):
        with pytest.raises(LabError, match="needs a seed"):
            kernel.call("fifth", 0, 0, 0, 0, 5, **given)  # type: ignore[arg-type]


def test_calls_are_independent(kernel: Kernel, monkeypatch: pytest.MonkeyPatch) -> None:
    processes = set()
    monkeypatch.setattr(kernels, "RENEWED_BYTES", 3000)
    for _ in range(20):
        assert kernel.call("counts").value == 0x31
        processes.add(kernel._guest.session.process)
    assert 1 < len(processes) < 20


def test_interrupt_raises_keyboard_interrupt(kernel: Kernel) -> None:
    with pytest.MonkeyPatch.context() as patch:
        patch.setattr(Runner, "_grant", lambda *_: signal.raise_signal(signal.SIGINT))
        with pytest.raises(KeyboardInterrupt):
            kernel.call("stays")
    assert kernel.call("counts").value == 0x31


def test_call_returns_output(kernel: Kernel) -> None:
    """A write of 128 bytes, nine times: more than the machine holds at once."""
    output = kernel.call("says", 0, 128, 0, 0, 9).output
    assert len(output) == 9 * 128 and output[:8] == bytes([0x30, *[0] * 7])
    assert kernel.call("fifth", 0, 0, 0, 0, 5).output == b""


@pytest.mark.parametrize(
    "symbol, expected",
    [
        ("ends", "The program has ended with status 7, at "),
        ("halts", "halts: ebreak: Stopped at the ebreak at "),
        ("stays", "stays: the ticks ran out at "),
    ],
)
def test_call_without_return_is_reported(kernel: Kernel, symbol: str, expected: str) -> None:
    with pytest.raises(CallStopped, match=re.escape(expected)):
        kernel.call(symbol, 7, ticks=2000)
    assert kernel.call("counts").value == 0x31


@pytest.mark.parametrize("size", [0, 1, 36, 200, 9362])
def test_limit_of_ticks_is_exact(kernel: Kernel, size: int) -> None:
    """A byte takes `turned` seven instructions, and the end two: 2, 9, 254, 1,402 and 65,536 ticks."""
    assert kernel.call("turned", bytes(size), size, ticks=7 * size + 2).arrays == [b"\xff" * size]
    with pytest.raises(CallStopped, match="turned: the ticks ran out at [0-9a-f]+ done$") as caught:
        kernel.call("turned", bytes(size), size, ticks=7 * size + 1)
    assert caught.value.stop is None


def test_vector_store_takes_a_tick_for_each_element(kernel: Kernel) -> None:
    """Nine instructions of `tail`, and the store of four elements."""
    assert kernel.call("tail", bytes(16), ticks=13).value == 20
    with pytest.raises(CallStopped, match="tail: the ticks ran out"):
        kernel.call("tail", bytes(16), ticks=12)


@pytest.mark.parametrize(
    "arguments, options, expected",
    [
        ([0] * 9, {}, "a call has 8 arguments at most, and this one has 9"),
        ([1 << 64], {}, "argument 1, 18446744073709551616, doesn't fit into 64 bits"),
        ([0, 1.5], {}, "argument 2, 1.5, is no integer and no array: pass array.array('i', [7]), for example"),
        ([[0, 1]], {}, "argument 1, [0, 1], is no integer and no array: pass array.array("),
        ([Placed("a")], {}, "argument 1: memoryview: a bytes-like object is required, not 'str'"),
        ([Placed(b"a", 4096)], {}, "argument 1: its offset in a page is 4096, and isn't from 0 to 4,095"),
        ([Placed(b"a", permissions="rq")], {}, "argument 1: its permissions are 'rq', and aren't r, w or rw"),
        ([Placed(b"a", 0, "")], {}, "argument 1: its permissions are '', and aren't r, w or rw"),
        ([bytes(1 << 20)], {}, "fifth: map 100000000 256 rw: E10: the user would have more than 256 pages"),
        ([bytes(1 << 19), bytes((1 << 19) + 1)], {}, "the arrays take 257 pages of 4,096 bytes, and a call has 256 at"),
        ([memoryview((_Pair * 1)())], {}, "argument 1: memoryview: destination format must be a native"),
        ([], {"ticks": 0}, "a call has a tick at least, and not 0"),
        ([], {"policy": "none"}, "fifth: policy none: E04: none is no policy"),
    ],
)
def test_uncallable_symbol_is_refused(kernel: Kernel, arguments: Any, options: Any, expected: str) -> None:
    with pytest.raises(LabError, match=f"^{re.escape(expected)}"):
        kernel.call("fifth", *arguments, **options)
    assert kernel.call("fifth", 0, 0, 0, 0, 5).value == 5


def test_unsuitable_program_is_refused(kernel: Kernel, tmp_path: pathlib.Path) -> None:
    with pytest.raises(LabError, match="has no symbol none$"):
        kernel.call("none")
    (tmp_path / "bad.s").write_text("add t0, t1 t2")
    (tmp_path / "script").write_text("1 regs\n")
    for name, expected in (
        ("bad.s", "bad.s:1:12: "),
        ("script", f"{tmp_path}/script: it is no image, and no source"),
        ("none", f"{tmp_path}/none: it can't be read: No such file or directory$"),
    ):
        with pytest.raises(LabError, match=f"^{expected}"):
            Kernel(tmp_path / name)
    with pytest.raises(AttributeError, match="has no attribute Karnel"):
        getattr(vecmon_lab, "Karnel")


def test_kernel_calls_image_function() -> None:
    """`fill` stores squares: 37 of them are three groups of sixteen, the last one in part."""
    with Kernel(SQUARES_DWARF5) as kernel:
        result = kernel.call("fill", array.array("I", [0] * 37), 37, policy="both")
        assert result.arrays == [array.array("I", [number * number for number in range(37)])]
        with pytest.raises(CallStopped, match=r"next\+0x10: vse32.v v8, \(x10\): .* It stopped at element 4\."):
            kernel.call("fill", array.array("I", [0] * 36), 37)


def test_stripped_image_has_no_symbols(tmp_path: pathlib.Path) -> None:
    """Its header has neither an offset nor a number of section headers, as after `strip --strip-section-headers`."""
    image = bytearray(SQUARES_DWARF5.read_bytes())
    image[40:48], image[60:64] = bytes(8), bytes(4)
    (tmp_path / "stripped").write_bytes(image)
    with Kernel(tmp_path / "stripped") as kernel:
        with pytest.raises(LabError, match="/stripped has no symbols: link it without -s, and don't strip it$"):
            kernel.call("fill", 0, 0)


def test_kernel_keeps_image_that_it_opened(tmp_path: pathlib.Path) -> None:
    """The file is removed before the calls, and each of them has another session."""
    path = pathlib.Path(shutil.copy(SQUARES_DWARF5, tmp_path))
    with Kernel(path) as kernel:
        path.unlink()
        for ticks in (1_000_000, 999):
            result = kernel.call("fill", array.array("I", [0] * 3), 3, ticks=ticks, counted=True)
            assert result.arrays == [array.array("I", [0, 1, 4])]


def test_call_counts_instructions() -> None:
    """By fill.S: one instruction, ten in each of three rounds, four of them with groups of sixteen elements, and `ret`."""
    with Kernel(SQUARES_DWARF5) as kernel:
        zeros = array.array("I", [0] * 37)
        result = kernel.call("fill", zeros, 37, counted=True)
        assert result.counts and result.counts.instructions == 1 + 3 * 10 + 1
        assert list(result.counts.elements) == [4 * 37, 0, 4 * (48 - 37)]
        assert result.arrays == kernel.call("fill", zeros, 37).arrays and kernel.call("fill", zeros, 37).counts is None
        with pytest.raises(CallStopped, match=r"It stopped at element 5\."):
            kernel.call("fill", zeros, 38, counted=True)


def test_kernel_calls_c_function(clang: Compiler, tmp_path: pathlib.Path) -> None:
    (tmp_path / "double.c").write_text("long twice(int n) { return 2L * n; }\n")
    with Kernel(tmp_path / "double.c", options="O0", compiler=clang.name) as kernel:
        assert kernel.call("twice", -21).signed == -42

    async def in_a_loop() -> int:
        with Kernel(tmp_path / "double.c", options="O3-scalar") as kernel:
            return kernel.call("twice", 1 << 30).value

    assert asyncio.run(in_a_loop()) == 1 << 31
    (tmp_path / "double.c").write_text("long twice(int n) { return 2L * m; }\n")
    with pytest.raises(LabError, match="double.c:1:33: use of undeclared identifier 'm'$"):
        Kernel(tmp_path / "double.c")


def test_stock_assembler_takes_source(clang: Compiler, tmp_path: pathlib.Path) -> None:
    """With a directive that the lab's assembler doesn't have, local labels with numbers, and another section."""
    text = """
        .section .rodata
table:  .byte 3, 1, 4
        .text
        .globl total
total:  li a2, 0
1:      beqz a1, 2f
        lbu t0, 0(a0)
        add a2, a2, t0
        addi a0, a0, 1
        addi a1, a1, -1
        j 1b
2:      la t0, table
        lbu t0, 2(t0)
        add a0, a2, t0
        ret
        .insn r 0x33, 0, 0, t6, zero, zero
"""
    (tmp_path / "total.S").write_text(text)
    with Kernel(tmp_path / "total.S", options="stock", compiler=clang.name) as kernel:
        assert kernel.call("total", bytes([1, 2, 250]), 3, policy="both").value == 253 + 4
    with pytest.raises(LabError, match="^total.S:17:9: .insn isn't in this assembler"):
        Kernel(tmp_path / "total.S")
    (tmp_path / "total.s").write_text("total: add a0, a0, a1\n ret a0\n")
    with pytest.raises(LabError, match="^total.s:2:6: invalid operand for instruction$"):
        Kernel(tmp_path / "total.s", options="stock")
    with pytest.raises(LabError, match=f"^{tmp_path}/none.c: it can't be read: No such file or directory$"):
        Kernel(tmp_path / "none.c")


@pytest.mark.parametrize("name", ["source.s", "source.S", "source.c", "image"])
def test_unknown_options_are_refused(tmp_path: pathlib.Path, name: str) -> None:
    (tmp_path / name).write_text("first: ret\n")
    expected = "^O9 aren't options; there are O2, O0, O1, O3, O2-scalar, O3-scalar, stock$"
    with pytest.raises(LabError, match=expected):
        Kernel(tmp_path / name, options="O9")


def test_stock_assembler_refuses_other_files(tmp_path: pathlib.Path) -> None:
    for path in (tmp_path / "source.c", SQUARES_DWARF5):
        with pytest.raises(
            LabError, match=f"^{path}: stock is for assembler, and the name of such a source ends in .s$"
        ):
            Kernel(path, options="stock")


def test_documented_example_passes(clang: Compiler, tmp_path: pathlib.Path) -> None:
    folder = EXAMPLES / "tested"
    command = [sys.executable, "-B", "-m", "pytest", "-q", "-p", "no:cacheprovider", "-c", "/dev/null", str(folder)]
    run = subprocess.run(command, cwd=tmp_path, capture_output=True, text=True, check=False)
    assert run.returncode == 0 and "2 passed" in run.stdout, run.stdout
    page = (TOP / "docs" / "TESTING.md").read_text("utf-8")
    paths = sorted(folder.glob("*.[cp]*"))
    assert {path.suffix for path in paths} == {".c", ".py"}
    for path in paths:
        text = path.read_text("utf-8")
        assert f"\n{text[text.index('@settings') if path.suffix == '.py' else 0:]}```" in page
