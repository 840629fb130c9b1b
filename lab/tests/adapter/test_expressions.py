"""Expressions of a client: the operators of C, and what isn't one."""

import re

import pytest

from vecmon_lab import LabError
from vecmon_lab.adapter import expressions

NAMES = {"a0": 5, "vl": 8, "zero": 0, "minus": (1 << 64) - 1, "i": -1}
POINTERS = {"short_at": "i16", "long_at": "u64"}


class Names:
    """Some names; an element is its index, and a number in memory is its address."""

    def value(self, name: str, path: expressions.Path) -> expressions.Value:
        """The value of a name or an element. `pair` has a field `second`, which is 7, and `pair_at` points to it."""
        if (name, path) in (("pair", ("second",)), ("pair_at", (0, "second"))):
            return expressions.Value(7)
        indices = [part for part in path if isinstance(part, int)]
        if len(indices) < len(path) or path and name in NAMES:
            raise LabError(f"{name} has no such part")
        if name in POINTERS and indices:
            return self.load(0x1000 + indices[0] * int(POINTERS[name][1:]) // 8, POINTERS[name])
        if name in POINTERS:
            return expressions.Value(0x1000, POINTERS[name])
        return expressions.Value(sum(indices) if indices else NAMES[name])

    def load(self, address: int, kind: str) -> expressions.Value:
        """The number at an address."""
        return expressions.Value(address, place=(address, int(kind[1:]) // 8))


def value_of(text: str) -> int:
    """The value of an expression."""
    return expressions.evaluate(text, Names()).number


@pytest.mark.parametrize(
    "text, value",
    [
        ("a0 == 5", 1),
        ("$a0 == 0x5", 1),
        ("a0 != 5 || vl < 8", 0),
        ("!(a0 == 5) || vl <= 8 && a0 >= 5", 1),
        ("!a0", 0),
        ("-7 / 2", -3),  # as in C, towards 0
        ("-7 % 2", -1),
        ("7 / -2", -3),
        ("a0 << 2 | 1", 21),
        ("~0 & 0xff", 255),
        ("v8[3] + x[2][4]", 9),
        ("v8[a0]", 5),
        ("minus == -1", 1),  # by the low 64 bits
        ("i == -1", 1),
        ("i < 0", 1),
        ("vl > 3", 1),
        ("!a0 == 1", 0),  # (!a0) == 1
        ("!zero + 1", 2),
        ("1 + !zero", 2),
        ("5 > 3 > 1", 0),  # (5 > 3) > 1
        ("3 == 3 == 1", 1),
        ("a0 & 1 == 1", 1),  # a0 & (1 == 1)
        ("6 & 4 == 4", 0),  # 6 & (4 == 4)
        ("1 | 2 ^ 3 & 1", 3),
        ("1 << 2 + 1", 8),
        ("7 - 2 - 1", 4),
        ("a0 || 1 && zero", 1),
        ("zero && 1 / zero", 0),  # the right side isn't evaluated
        ("1 || 1 / zero", 1),
        ("0b101", 5),
    ],
)
def test_values_are_those_of_c(text: str, value: int) -> None:
    """The values are those that clang 19 and gcc 12 print for these expressions, with a0 = 5 and so on."""
    assert value_of(text) == value


@pytest.mark.parametrize(
    "text, value",
    [
        ("short_at + 3", 0x1006),
        ("3 + short_at", 0x1006),
        ("short_at - 1", 0xFFE),
        ("long_at + 1", 0x1008),
        ("short_at + 3 - short_at", 3),
        ("*short_at", 0x1000),
        ("*(short_at + 2) + 1", 0x1005),
        ("(long_at + 1)[2]", 0x1018),
        ("(long_at + 1)[-1]", 0x1000),
        ("*(int32_t *)(a0 + 3)", 8),
        ("((uint8_t*)a0)[3]", 8),
        ("((int *)long_at)[1]", 0x1004),
        ("(long *)a0 + 1", 13),
        ("*short_at + short_at[3]", 0x2006),
        ("pair.second * 2 + pair_at->second", 21),
        ("(*pair_at).second == -(-7)", 1),
        ("(a0) * (vl)", 40),
    ],
)
def test_pointers_count_what_they_point_to(text: str, value: int) -> None:
    assert value_of(text) == value


@pytest.mark.parametrize(
    "text",
    [
        "",
        "a0 =",
        "a0 = 5",
        "a0 == ",
        "1 / 0",
        "1 << 64",
        "1 << -1",
        "2 ** 9",
        "__import__('os')",
        "a0.x",
        "a0->x",
        "(a0 + 1).x",
        "pair.",
        "pair.2",
        "pair->",
        "[1, 2]",
        "'text'",
        "1.5",
        "lambda: 1",
        "(1)[2]",
        "a0 if vl else 1",
        "a0 and vl",
        "1_000",
        "0o17",
        "010",
        "0x",
        "*a0",
        "*5",
        "a0[1",
        "(a0",
        "short_at - long_at",
        "(void *)a0",
        "-" * 900 + "1",
        "(" * 300 + "1" + ")" * 300,
        "1 +" * 400 + "1",
    ],
)
def test_what_is_no_expression_is_refused(text: str) -> None:
    with pytest.raises(LabError):
        value_of(text)


@pytest.mark.parametrize(
    "text, kind",
    [
        ("((float *)a0)[0]", "float *"),
        ("*(double*)a0", "double *"),
        ("(unsigned int *)a0", "unsigned int *"),
        ("1 + *(int **)a0", "int **"),
        ("((void *)(a0 + 1))", "void *"),
    ],
)
def test_types_that_are_not_supported_are_named(text: str, kind: str) -> None:
    with pytest.raises(LabError, match=re.escape(f"the type {kind} isn't supported here: pointers to int8_t")):
        value_of(text)


def test_names_are_told_from_other_expressions() -> None:
    assert expressions.name_in("x[2][0x10]", Names()) == ("x", (2, 16))
    assert expressions.name_in("x[a0 - 1]", Names()) == ("x", (4,))
    assert expressions.name_in("(*x[1]).y->z[2]", Names()) == ("x", (1, 0, "y", 0, "z", 2))
    assert expressions.is_name("*x") and expressions.is_name("x->y") and not expressions.is_name("(x + 1)[0]")
    assert [expressions.is_name(text) for text in ("a0", "v8[1]", "a0 + 1", "5", "a b")] == [
        True,
        True,
        False,
        False,
        False,
    ]
