"""Lines of LLVM for x86-64, and the same lines for wasm32, worked by hand: a pointer in memory keeps its slot of 8 bytes."""

import pytest

from tests.webassembly.tools import load

RETARGET = load("retarget")


def retargeted(*lines: str) -> list[str]:
    """The lines for wasm32, without their newlines."""
    return [line.rstrip("\n") for line in RETARGET.retarget([f"{line}\n" for line in lines])]


@pytest.mark.parametrize(
    "line, expected",
    [
        ("  %a = load i64, ptr %b, align 8", ["  %a = load i64, ptr %b, align 8"]),
        (
            "  %a = load ptr, ptr %b, align 8, !nonnull !3",
            ["%slot.0 = load i64, ptr %b, align 8", "%a = inttoptr i64 %slot.0 to ptr"],
        ),
        ("  store ptr @f, ptr %b, align 8", ["%slot.0 = ptrtoint ptr @f to i64", "store i64 %slot.0, ptr %b, align 8"]),
        ("  %a = alloca ptr, align 8", ["%a = alloca i64, align 8"]),
        ("  %a = getelementptr i8, ptr %b, i64 24", ["%a = getelementptr i8, ptr %b, i64 24"]),
        ("  %a = phi ptr [ %b, %c ], [ null, %d ]", ["%a = phi ptr [ %b, %c ], [ null, %d ]"]),
        (
            '@a = internal constant <{ ptr, [8 x i8] }> <{ ptr @b, [8 x i8] c"\\05, }\\00\\00\\00\\00" }>, align 8',
            [
                "@a = internal constant <{ ptr, [4 x i8], [8 x i8] }> "
                '<{ ptr @b, [4 x i8] zeroinitializer, [8 x i8] c"\\05, }\\00\\00\\00\\00" }>, align 8'
            ],
        ),
        ('@"core::ptr::a" = constant [2 x i8] c"ab"', ['@"core::ptr::a" = constant [2 x i8] c"ab"']),
        ('@"a b" = constant [6 x i8] c"a ptr "', ['@"a b" = constant [6 x i8] c"a ptr "']),
        ("@llvm.used = appending global [1 x ptr] [ptr @a]", ["@llvm.used = appending global [1 x ptr] [ptr @a]"]),
        ("@a = alias i8, ptr @b", ["@a = alias i8, ptr @b"]),
        ("@a = constant i64 ptrtoint (ptr @b to i64)", ["@a = constant i64 ptrtoint (ptr @b to i64)"]),
    ],
)
def test_line_is_retargeted(line: str, expected: list[str]) -> None:
    assert [it.strip() for it in retargeted(line)] == [it.strip() for it in expected]


def test_pointer_pair_is_retargeted() -> None:
    """The second value of a pair is 8 bytes after the first one."""
    lines = retargeted("  %a = load { ptr, i64 }, ptr %b, align 8")
    assert "  %pair.0.second = getelementptr i8, ptr %b, i64 8" in lines
    assert "  %pair.0.2 = load i64, ptr %b" in lines and "  %pair.0.4 = load i64, ptr %pair.0.second" in lines
    assert lines[-1] == "  %a = insertvalue { ptr, i64 } %pair.0.half, i64 %pair.0.4.value, 1"


@pytest.mark.parametrize(
    "line",
    [
        "  store { ptr, i64 } %a, ptr %b, align 8",
        "  %a = load <2 x ptr>, ptr %b, align 16",
        "  %a = getelementptr ptr, ptr %b, i64 3",
        "  %a = alloca [4 x ptr], align 8",
        "@a = global ptr @b",
        "@a = constant <{ <{ ptr, i8 }>, i8 }> <{ <{ ptr, i8 }> <{ ptr @b, i8 1 }>, i8 2 }>, align 8",
        '@"a b" = constant [2 x ptr] [ptr @c, ptr @d]',
    ],
)
def test_other_pointer_size_is_refused(line: str) -> None:
    with pytest.raises(RETARGET.Unsupported, match="tools/building/retarget.py doesn't support pointers in: "):
        retargeted(line)


def test_functions_called_by_readers_are_never_inlined() -> None:
    """`run` reaches `read` by `fill`; `step` doesn't, and `run` calls it."""
    lines = retargeted(
        "define void @run() #1 {", "  call void @fill()", "  call void @step()", "}",
        "define void @fill() #1 {", "  %a = call i64 @read(i32 0)", "}",
        "define void @step() #1 {", "  call void @deeper()", "}",
        "define void @deeper() #1 {", "}",
    )  # fmt: skip
    assert [line for line in lines if line.startswith("define")] == [
        "define void @run() #1 {",
        "define void @fill() #1 {",
        "define void @step() nounwind noinline {",
        "define void @deeper() #1 {",
    ]
