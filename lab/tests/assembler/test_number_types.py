"""The types of numbers in memory: their limits as in C's <stdint.h>, their sizes by ctypes, and bytes worked out by hand."""

import ctypes

import pytest

from vecmon_lab.assembler.data_runs import DataRun
from vecmon_lab.assembler.inputs import read_inputs
from vecmon_lab.assembler.number_types import NUMBER_TYPES
from vecmon_lab.exercises.exercise import Numbers

LIMITS = {
    "i8": (-128, 127),
    "u8": (0, 255),
    "i16": (-32768, 32767),
    "u16": (0, 65535),
    "i32": (-2147483648, 2147483647),
    "u32": (0, 4294967295),
    "i64": (-9223372036854775808, 9223372036854775807),
    "u64": (0, 18446744073709551615),
}
"""The smallest and the largest number of each type, as INT8_MIN and UINT64_MAX."""
BYTES = {
    "i8": "80 7f ff 01",
    "u8": "00 ff fe 01",
    "i16": "0080 ff7f ffff 0100",
    "u16": "0000 ffff feff 0100",
    "i32": "00000080 ffffff7f ffffffff 01000000",
    "u32": "00000000 ffffffff feffffff 01000000",
    "i64": "0000000000000080 ffffffffffffff7f ffffffffffffffff 0100000000000000",
    "u64": "0000000000000000 ffffffffffffffff feffffffffffffff 0100000000000000",
}
"""The smallest number, the largest one, -1 (or the second largest one of an unsigned type) and 1, in little-endian order."""


def numbers_of(kind: str) -> list[int]:
    minimum, maximum = LIMITS[kind]
    return [minimum, maximum, -1 if minimum else maximum - 1, 1]


def test_every_type_is_in_table() -> None:
    assert NUMBER_TYPES.keys() == LIMITS.keys()


@pytest.mark.parametrize("kind", LIMITS)
def test_type_has_size_and_limits_of_c(kind: str) -> None:
    found, of_c = NUMBER_TYPES[kind], getattr(ctypes, f"c_{'u' * (kind[0] == 'u')}int{kind[1:]}")
    assert (found.name, found.size) == (kind, ctypes.sizeof(of_c))
    assert (found.minimum, found.maximum) == LIMITS[kind]


@pytest.mark.parametrize("kind", BYTES)
def test_numbers_are_little_endian(kind: str) -> None:
    data = bytes.fromhex(BYTES[kind])
    assert NUMBER_TYPES[kind].packed(numbers_of(kind)) == data
    assert NUMBER_TYPES[kind].unpacked(data) == tuple(numbers_of(kind))


@pytest.mark.parametrize("kind", BYTES)
def test_input_and_exercise_have_same_bytes(kind: str) -> None:
    """A `#>` line of a source, and a place in memory of an exercise."""
    data, numbers = bytes.fromhex(BYTES[kind]), numbers_of(kind)
    inputs = read_inputs([(1, f"#> a0 = {kind} {', '.join(map(str, numbers))}")], {})
    assert not inputs.mistakes and f"poke {0x201000 - len(data):x} {data.hex()}" in [it for _, it in inputs.commands]
    assert list(inputs.data.values()) == [DataRun(NUMBER_TYPES[kind].name, len(numbers))]
    place = Numbers(0x10000, kind, numbers)
    assert place.data == data and place.holding(data[::-1]).data == data[::-1]


@pytest.mark.parametrize("kind", LIMITS)
def test_number_beyond_limits_is_refused(kind: str) -> None:
    for number in (LIMITS[kind][0] - 1, LIMITS[kind][1] + 1):
        refused = read_inputs([(1, f"#> a0 = {kind} {number}")], {}).mistakes
        assert [(it.line, it.column) for it in refused] == [(1, 10 + len(kind))]
