"""add_scaled.c compared with the same in Python, for numbers that hypothesis draws: `python3 -m pytest` in this folder."""

import pathlib
from array import array
from collections.abc import Iterator

import pytest
from hypothesis import given, settings
from hypothesis import strategies as st

from vecmon_lab import CallStopped, Kernel, Placed

INT32 = st.integers(-(1 << 31), (1 << 31) - 1)


def wrapped(number: int) -> int:
    """A number modulo 2^32, as an int32_t has it."""
    return (number + (1 << 31)) % (1 << 32) - (1 << 31)


@pytest.fixture(scope="module")
def kernel() -> Iterator[Kernel]:
    """The function, compiled, on a machine."""
    with Kernel(pathlib.Path(__file__).with_name("add_scaled.c")) as kernel:
        yield kernel


@settings(deadline=None)
@given(st.lists(st.tuples(INT32, INT32)), INT32, st.sampled_from([None, 0, 1, 4092]))
def test_result_equals_python(kernel: Kernel, pairs: list[tuple[int, int]], factor: int, offset: int | None) -> None:
    before, added = array("i", [one for one, _ in pairs]), array("i", [other for _, other in pairs])
    to = Placed(before, offset)  # with None both arrays end where a page ends, so that an overrun faults
    result = kernel.call("add_scaled", len(pairs), factor, added, to, policy="both")
    assert result.arrays == [added, array("i", [wrapped(one + factor * other) for one, other in pairs])]


def test_short_array_faults(kernel: Kernel) -> None:
    with pytest.raises(CallStopped, match="may not read from 0x[0-9a-f]*000 on: .* It stopped at element 15."):
        kernel.call("add_scaled", 16, 1, array("i", range(15)), array("i", range(16)))
