"""Inputs for the exercises of the course, made by chance, each with what a plain reading of the exercise's text gives."""

from collections.abc import Callable, Sequence
from dataclasses import dataclass
from random import Random

from vecmon_lab.exercises.exercise import Numbers, Results

OUT, IN, MORE = 0x20000, 0x30000, 0x30800  # in pages that the exercises have


@dataclass(frozen=True)
class Drawn:
    """The input of an answer, and the expected result."""

    registers: dict[str, int]
    memory: list[Numbers]
    expected: Results


def numbers(random: Random, kind: str, count: int) -> list[int]:
    """This number of values of a type, some of them at its limits."""
    bits = int(kind[1:])
    least = -(1 << bits - 1) if kind[0] == "i" else 0
    limit = least + (1 << bits) - 1
    ends = [least, limit, 0, 1, limit - 1]
    return [random.choice(ends) if random.random() < 0.2 else random.randint(least, limit) for _ in range(count)]


def wrapped(value: int) -> int:
    """A number as a signed one of 32 bits."""
    return (value + (1 << 31)) % (1 << 32) - (1 << 31)


def length(random: Random, limit: int) -> int:
    """How many numbers there are; often one of a group's ends."""
    return min(limit, random.choice([0, 1, 8, 31, 32, 33, 64, 128, random.randint(0, limit), random.randint(0, 20)]))


def _given(*values: int) -> dict[str, int]:
    """Return registers with these values, from a0 on."""
    return {f"x{number}": value % (1 << 64) for number, value in enumerate(values, 10)}


def _written(
    random: Random, registers: dict[str, int], memory: list[Numbers], kind: str, results: Sequence[int]
) -> Drawn:
    """An input with these expected results at OUT, and unchanged bytes after them."""
    before, behind = numbers(random, kind, len(results)), numbers(random, kind, 3)
    place = Numbers(OUT, kind, [*results, *behind])
    return Drawn(registers, [*memory, Numbers(OUT, kind, before + behind)], Results({}, [place], None))


def _answered(registers: dict[str, int], memory: list[Numbers], value: int) -> Drawn:
    """An input to which a0 is the answer."""
    return Drawn(registers, memory, Results({"x10": value % (1 << 64)}, [], None))


def doubles(random: Random) -> Drawn:
    n, x = random.randint(0, 8), numbers(random, "i32", 10)
    given = _given(OUT, OUT + 0x800, n)
    return _written(random, given, [Numbers(OUT + 0x800, "i32", x)], "i32", [wrapped(2 * each) for each in x[:n]])


def strip_mined_copy(random: Random) -> Drawn:
    n = length(random, 300)
    x = numbers(random, "u8", n + 3)
    return _written(random, _given(OUT, IN, n), [Numbers(IN, "u8", x)], "u8", x[:n])


def saturating_sum(random: Random) -> Drawn:
    n = length(random, 200)
    x, y = numbers(random, "i16", n + 1), numbers(random, "i16", n + 1)
    sums = [max(-32768, min(32767, one + other)) for one, other in zip(x[:n], y)]
    memory = [Numbers(OUT + 0x400, "i16", x), Numbers(OUT + 0x800, "i16", y)]
    return _written(random, _given(OUT, OUT + 0x400, OUT + 0x800, n), memory, "i16", sums)


def byte_sum(random: Random) -> Drawn:
    n = length(random, 1000)
    x = numbers(random, "u8", n + 3)
    return _answered(_given(OUT, n), [Numbers(OUT, "u8", x)], sum(x[:n]))


def dot_product(random: Random) -> Drawn:
    n = length(random, 400)
    x, y = numbers(random, "i8", n + 3), numbers(random, "i8", n + 3)
    memory = [Numbers(OUT, "i8", x), Numbers(IN, "i8", y)]
    return _answered(_given(OUT, IN, n), memory, sum(one * other for one, other in zip(x[:n], y)))


def mask_count(random: Random) -> Drawn:
    n = length(random, 300)
    x, (least, limit) = numbers(random, "i16", n + 3), numbers(random, "i16", 2)
    return _answered(
        _given(OUT, n, least, limit), [Numbers(OUT, "i16", x)], sum(least <= each <= limit for each in x[:n])
    )


def clamped_magnitude(random: Random) -> Drawn:
    n, limit = length(random, 150), random.choice([0, 1, 1000, (1 << 31) - 1, random.randint(0, (1 << 31) - 1)])
    x, flags = numbers(random, "i32", n + 2), numbers(random, "u8", n + 2)
    results = [min(abs(each), limit) if flag else each for each, flag in zip(x[:n], flags)] + x[n:]
    memory = [Numbers(OUT, "i32", x), Numbers(IN, "u8", flags)]
    return Drawn(_given(OUT, IN, n, limit), memory, Results({}, [Numbers(OUT, "i32", results)], None))


def strlen(random: Random) -> Drawn:
    n = length(random, 400)
    at = random.choice([0x20100, 0x20FFF - n])
    text = [1 + each % 255 for each in numbers(random, "u8", n)]
    return _answered(_given(at), [Numbers(at, "u8", [*text, 0])], n)


def rgb_to_grey(random: Random) -> Drawn:
    n = length(random, 150)
    x = numbers(random, "u8", 3 * n + 3)
    greys = [round((77 * x[3 * at] + 150 * x[3 * at + 1] + 29 * x[3 * at + 2]) / 256) for at in range(n)]
    return _written(random, _given(OUT, IN, n), [Numbers(IN, "u8", x)], "u8", greys)  # round goes to the even one, too


def table_look_up(random: Random) -> Drawn:
    n, table = length(random, 300), numbers(random, "u8", 16)
    x = [each % 16 for each in numbers(random, "u8", n + 3)]
    memory = [Numbers(IN, "u8", x), Numbers(MORE, "u8", table)]
    return _written(random, _given(OUT, IN, n, MORE), memory, "u8", [table[each] for each in reversed(x[:n])])


def filter(random: Random) -> Drawn:
    n, (bound,) = length(random, 200), numbers(random, "i32", 1)
    x = numbers(random, "i32", n + 1)
    kept = [each for each in x[:n] if each > bound]
    drawn = _written(random, _given(OUT, IN, n, bound), [Numbers(IN, "i32", x)], "i32", kept)
    return Drawn(drawn.registers, drawn.memory, Results({"x10": len(kept)}, drawn.expected.memory, None))


def prefix_sums(random: Random) -> Drawn:
    n = length(random, 150)
    x = numbers(random, "i32", n + 1)
    sums = [wrapped(sum(x[: place + 1])) for place in range(n)]
    return _written(random, _given(OUT, IN, n), [Numbers(IN, "i32", x)], "i32", sums)


DRAWS: dict[str, Callable[[Random], Drawn]] = {
    each.__name__: each
    for each in (
        doubles,
        strip_mined_copy,
        saturating_sum,
        byte_sum,
        dot_product,
        mask_count,
        clamped_magnitude,
        strlen,
        rgb_to_grey,
        table_look_up,
        filter,
        prefix_sums,
    )
}
