"""Advice for messages of compilers and linkers whose cause is the machine: it has no C library and no floating point.

These messages have no codes, so they are recognized by their texts. The patterns are whole messages of clang, GCC, lld and GNU ld.
A message with another text gets no advice.
"""

import re

_NO_HEADER = re.compile(r"(?:\S+:\d+: )?(?:'([^']+)' file not found|(\S+): No such file or directory)")
_UNDEFINED = re.compile(r"undefined symbol: (\S+)")
_REFERENCE = re.compile(r"(?:\S*/)?([^/:\s]+):(?:(\d+)|\(\S+\)): undefined reference to [`']([^`']+)'")

_LIBRARY_HEADERS = frozenset(
    "assert complex ctype errno fenv inttypes locale math pthread setjmp signal stdio stdlib string strings tgmath"
    " threads time uchar unistd wchar wctype".split()
)
"""Headers of C and POSIX that need a C library, without `.h`. Compilers bring the other headers of C."""

_OF_GLIBC = (
    "bits/",
    "gnu/",
    "sys/",
)  # folders of headers that its own headers include, here the ones of another system

# The functions of libgcc's manual, "Routines for floating point emulation", by their modes: hf, sf, df, tf, xf, bf
_SOFT_FLOAT = re.compile(
    r"__(?:(?:add|sub|mul|div)[a-z]f3|neg[a-z]f2|powi[a-z]f2|(?:mul|div)[a-z]c3"
    r"|(?:cmp|unord|eq|ne|lt|le|gt|ge)[a-z]f2|(?:extend|trunc)[a-z]f[a-z]f2"
    r"|fix(?:uns)?[a-z]f[a-z]i|float(?:un)?[a-z]i[a-z]f)"
)
_WIDE_INTEGERS = re.compile(
    "__u?(?:div|mod|divmod)ti[34]|__(?:mul|mulo|neg|ashl|ashr|lshr)ti[234]"
)  # mode ti: 128 bits
_ATOMICS = re.compile(r"__(?:atomic|sync)_\w+")

NO_LIBRARY = 'there is no C library here. "vecmon.h" declares put, put_int, put_uint, put_hex, exit, memcpy and memset; docs/COMPILING.md links picolibc'
NO_FLOATS = "the machine has no floating point, and nothing computes it in software: use integers"
NO_MEMORY_FUNCTION = "compilers call it to copy or to compare; memory.c in docs/COMPILING.md defines memmove and memcmp"
NO_WIDE_INTEGERS = "no library divides or multiplies integers of 128 bits here: use 64 bits"
NO_ATOMICS = "no library has atomic operations, and the machine doesn't have the extension A: use plain variables"
NO_MAIN = "a program begins with a function main, or with a function _start of its own"

_OF_LIBGCC = [(_SOFT_FLOAT, NO_FLOATS), (_WIDE_INTEGERS, NO_WIDE_INTEGERS), (_ATOMICS, NO_ATOMICS)]
"""Functions of libgcc, and advice if one is undefined."""


def with_advice(message: str) -> str:
    """Return a message of a compiler or a linker, with advice if the machine is the cause."""
    advice = _advice(message)
    return f"{message}: {advice}" if advice else message


def undefined_reference(line: str) -> tuple[str, int, str] | None:
    """Parse GNU ld's message on an undefined symbol, which lacks the word error; return the file, the line or 0, and the symbol.

    Return None for any other line.
    """
    found = _REFERENCE.fullmatch(line)
    return (found[1], int(found[2] or 0), found[3]) if found else None


def _advice(message: str) -> str:
    """Return the advice for a message, or ""."""
    if found := _NO_HEADER.fullmatch(message):
        header = found[1] or found[2]
        is_library = header.removesuffix(".h") in _LIBRARY_HEADERS or header.startswith(_OF_GLIBC)
        return NO_LIBRARY if is_library else ""
    if found := _UNDEFINED.fullmatch(message):
        symbol = found[1]
        advice = {"main": NO_MAIN, "memmove": NO_MEMORY_FUNCTION, "memcmp": NO_MEMORY_FUNCTION, "strlen": NO_LIBRARY}
        of_libgcc = next((text for names, text in _OF_LIBGCC if names.fullmatch(symbol)), "")
        return advice.get(symbol, of_libgcc)
    return ""
