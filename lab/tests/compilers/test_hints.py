"""Advice for messages of compilers and linkers that the machine is the cause of; and sources in C++."""

import pathlib

import pytest

from support.commands import Lab
from vecmon_lab import Kernel, LabError
from vecmon_lab.compilers.compiler import Compiler
from vecmon_lab.compilers.debug import NO_CONSTRUCTORS, NO_THREADS
from vecmon_lab.compilers.hints import (
    NO_ATOMICS,
    NO_FLOATS,
    NO_LIBRARY,
    NO_MAIN,
    NO_MEMORY_FUNCTION,
    NO_WIDE_INTEGERS,
    with_advice,
)
from vecmon_lab.compilers.sandbox_main import Diagnostic, read_messages

# The functions of libgcc's manual, "Routines for floating point emulation", for one or two modes each
SOFT_FLOAT = """
__addsf3 __adddf3 __addtf3 __subdf3 __muldf3 __divsf3 __negdf2 __extendsfdf2 __truncdfsf2 __fixsfsi __fixdfdi __fixunsdfsi __floatsisf
__floatdidf __floatunsidf __floatundisf __cmpdf2 __unordsf2 __eqsf2 __nedf2 __gedf2 __ltsf2 __ledf2 __gtsf2 __powidf2 __muldc3 __divsc3
""".split()


@pytest.mark.parametrize("symbol", SOFT_FLOAT)
def test_floating_point_is_named_as_missing(symbol: str) -> None:
    assert with_advice(f"undefined symbol: {symbol}") == f"undefined symbol: {symbol}: {NO_FLOATS}"


@pytest.mark.parametrize(
    "symbol, advice",
    [
        *(
            (symbol, NO_WIDE_INTEGERS) for symbol in ("__divti3", "__umodti3", "__udivti3", "__multi3")
        ),  # libgcc's manual
        *((symbol, NO_ATOMICS) for symbol in ("__atomic_fetch_add_4", "__atomic_load_8", "__sync_fetch_and_add_4")),
        *((symbol, NO_MEMORY_FUNCTION) for symbol in ("memmove", "memcmp")),
        ("strlen", NO_LIBRARY),
    ],
)
def test_library_function_is_named_as_missing(symbol: str, advice: str) -> None:
    assert with_advice(f"undefined symbol: {symbol}") == f"undefined symbol: {symbol}: {advice}"


@pytest.mark.parametrize(
    "message",
    [
        "'stdio.h' file not found",  # clang without other headers
        "stdlib.h: No such file or directory",  # gcc
        "stdio.h:27: 'bits/libc-header-start.h' file not found",  # clang with those of x86-64
        "stubs.h:14: 'gnu/stubs-lp64.h' file not found",  # clang with those of riscv64-linux-gnu, which are for lp64d
    ],
)
def test_c_library_is_named_as_missing(message: str) -> None:
    assert with_advice(message) == f"{message}: {NO_LIBRARY}"


@pytest.mark.parametrize(
    "message",
    [
        "'mine.h' file not found",
        "mine.h: No such file or directory",
        "undefined symbol: domain",
        "undefined symbol: __add",
        "undefined symbol: __muldi3",  # of integers
        "undefined symbol: __clzdi2",
        "use of undeclared identifier 'stdio'",
        "expected 'stdio.h' file not found here",
    ],
)
def test_other_messages_get_no_advice(message: str) -> None:
    assert with_advice(message) == message


def test_gnu_linker_messages_are_read() -> None:
    """As GNU ld 2.40 prints them, with debug data and without."""
    stderr = (
        "/usr/bin/riscv64-linux-gnu-ld: /tmp/ccA.o: in function `main':\n"
        "source.c:3: undefined reference to `other'\n"
        "/usr/bin/riscv64-linux-gnu-ld: /tmp/ccB.o: in function `_start':\n"
        "runtime/runtime.c:(.text+0x1c): undefined reference to `main'\n"
        "collect2: error: ld returned 1 exit status\n"
    )
    assert read_messages(stderr) == [
        Diagnostic(3, 1, True, "undefined symbol: other"),
        Diagnostic(0, 0, True, f"undefined symbol: main: {NO_MAIN}"),
        Diagnostic(0, 0, True, "ld returned 1 exit status"),
    ]


@pytest.mark.parametrize(
    "source, advice",
    [
        ("#include <stdio.h>\nint main(void) { return 0; }\n", NO_LIBRARY),
        ("int main(void) { volatile double x = 1; x = x + x; return 0; }\n", NO_FLOATS),
        ("int other(void) { return 1; }\n", NO_MAIN),
        (
            "volatile int g;\n__attribute__((constructor)) void set(void) { g = 5; }\nint main(void) { return g; }\n",
            NO_CONSTRUCTORS,
        ),
        ("_Thread_local volatile int t = 5;\nint main(void) { return t; }\n", NO_THREADS),
    ],
)
def test_advice_follows_message(lab: Lab, clang: Compiler, tmp_path: pathlib.Path, source: str, advice: str) -> None:
    (tmp_path / "source.c").write_text(source)
    status, output, errors = lab("run", tmp_path / "source.c")
    assert (status, output) == (2, b"") and errors.endswith(f": {advice}\n")


@pytest.mark.parametrize("name", ["own.cc", "own.cpp", "own.cxx", "own.C"])
def test_cxx_source_is_named(lab: Lab, tmp_path: pathlib.Path, name: str) -> None:
    path = tmp_path / name
    path.write_text("int main() { return 0; }\n")
    text = f"{path} is a source in C++, which the lab doesn't compile: compile it to an image with clang++-19"
    for command in ("run", "console", "lesson", "explore"):
        status, output, errors = lab(command, path)
        assert (status, output, errors.count("\n")) == (2, b"", 1) and errors.startswith(f"vecmon-lab: {text}")
    with pytest.raises(LabError, match="is a source in C"):
        Kernel(path)


def test_stack_overflow_is_named(lab: Lab, clang: Compiler, tmp_path: pathlib.Path) -> None:
    """The stack has the four pages below 7ffff000 (docs/IMAGES.md); the array needs twenty."""
    source = tmp_path / "deep.c"
    source.write_text(
        "int main(void) { volatile int a[20000]; for (int i = 0; i < 20000; i++) a[i] = i; return a[7]; }\n"
    )
    status, _, errors = lab("run", source)
    assert status == 139 and " The stack is full: it has 16 KiB, from 0x7fffb000 on. " in errors
