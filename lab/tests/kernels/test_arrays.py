"""Arrays of a call: those that share memory, and the types in which they come back."""

import array
import ctypes
import sys
import types
from collections.abc import Iterator
from typing import Any

import pytest

from vecmon_lab import Kernel, LabError, Placed

SOURCE = """
inc:    lw t0, 0(a0)                    # *a += 1, *b += 2
        addi t0, t0, 1
        sw t0, 0(a0)
        lw t0, 0(a1)
        addi t0, t0, 2
        sw t0, 0(a1)
        sub a0, a1, a0
        ret
copy:   beqz a2, done                   # a2 bytes from a0 to a1, forwards
        lb t0, 0(a0)
        sb t0, 0(a1)
        addi a0, a0, 1
        addi a1, a1, 1
        addi a2, a2, -1
        j copy
done:   ret
"""


class Point(ctypes.Structure):
    """A structure that a function has a pointer to."""

    _fields_ = [("x", ctypes.c_int32), ("name", ctypes.c_char * 4)]


@pytest.fixture(scope="module")
def kernel(tmp_path_factory: pytest.TempPathFactory) -> Iterator[Kernel]:
    """The functions of the source."""
    path = tmp_path_factory.mktemp("arrays") / "source.s"
    path.write_text(SOURCE)
    with Kernel(path) as kernel:
        yield kernel


def numbers_in(data: Any) -> list[int]:
    """The 32-bit numbers in an array's bytes."""
    return memoryview(data).cast("B").cast("i").tolist()


@pytest.mark.parametrize(
    "one",
    [bytearray(b"\3\0\0\0"), array.array("i", [3]), memoryview(bytearray(b"\3\0\0\0")), (ctypes.c_int * 1)(3)],
    ids=["bytearray", "array", "memoryview", "ctypes"],
)
def test_array_given_twice_is_one(kernel: Kernel, one: Any) -> None:
    """As in C: 3 + 1 + 2, in both."""
    result = kernel.call("inc", one, one)
    assert [numbers_in(each) for each in result.arrays] == [[6], [6]] and result.value == 0
    assert numbers_in(one) == [3]
    same = Placed(one, 8, "rw")
    assert [numbers_in(each) for each in kernel.call("inc", same, Placed(one, 8), policy="both").arrays] == [[6], [6]]


def test_equal_arrays_are_two(kernel: Kernel) -> None:
    """Also read-only ones: whether equal bytes are one object is Python's choice."""
    for one, other in ((bytearray(4), bytearray(4)), (b"\0\0\0\0", b"\0\0\0\0")):
        assert [numbers_in(each) for each in kernel.call("inc", one, other).arrays] == [[1], [2]]


def test_overlapping_views_share_memory(kernel: Kernel) -> None:
    """A copy forwards of bytes 0 to 3 to bytes 1 to 4 repeats the first one, as memcpy in C may."""
    whole = memoryview(bytearray(b"abcdef"))
    result = kernel.call("copy", whole[:4], whole[1:5], 4)
    assert [bytes(each) for each in result.arrays] == [b"aaaa", b"aaaa"] and bytes(whole) == b"abcdef"
    result = kernel.call("copy", whole[1:5], whole[:4], 4)
    assert [bytes(each) for each in result.arrays] == [b"cdee", b"bcde"]
    result = kernel.call("copy", whole[4:], whole, 2)
    assert [bytes(each) for each in result.arrays] == [b"ef", b"efcdef"]


def test_neighbouring_views_share_none(kernel: Kernel) -> None:
    """So that an overrun of the first one faults."""
    whole = memoryview(bytearray(8))
    result = kernel.call("inc", whole[:4], whole[4:])
    assert [numbers_in(each) for each in result.arrays] == [[1], [2]] and result.value == 0x2000


def test_shared_memory_with_two_places_is_refused(kernel: Kernel) -> None:
    whole, other = bytearray(8), memoryview(bytearray(8))
    view = memoryview(whole)
    pairs: list[tuple[Placed, Placed]] = [
        (Placed(whole, 8), Placed(whole)),
        (Placed(whole, 8), Placed(whole, 16)),
        (Placed(whole, permissions="r"), Placed(whole)),
        (Placed(view[:4], 8), Placed(view[2:6], 8)),
    ]
    for one, two in pairs:
        with pytest.raises(
            LabError, match="^arguments 1 and 3 share memory: give them the same place, or give copies$"
        ):
            kernel.call("inc", one, other, two)
    with pytest.raises(
        LabError, match="^arguments 1 and 2 are one array, which isn't contiguous: give a contiguous one$"
    ):
        kernel.call("inc", rows := other[::2], rows)
    assert [bytes(each) for each in kernel.call("inc", other[::2], other[1::2]).arrays] == [b"\1\0\0\0", b"\2\0\0\0"]


def test_arrays_of_ctypes_keep_their_type(kernel: Kernel) -> None:
    points, numbers = (Point * 2)(Point(5, b"one"), Point(7, b"two")), (ctypes.c_int * 2)(30, 40)
    result = kernel.call("inc", points, numbers)
    assert [type(each) for each in result.arrays] == [type(points), type(numbers)]
    assert [(each.x, each.name) for each in result.arrays[0]] == [(6, b"one"), (7, b"two")]
    assert list(result.arrays[1]) == [32, 40] and points[0].x == 5
    (point, _) = kernel.call("inc", Point(5, b"one"), bytearray(4)).arrays
    assert type(point) is Point and (point.x, point.name) == (6, b"one")


def test_arrays_of_numpy_keep_their_type(kernel: Kernel) -> None:
    numpy = pytest.importorskip("numpy")
    rows = numpy.array([[3, 4], [5, 6]], dtype="int32")
    result = kernel.call("inc", rows, numpy.zeros(1, dtype="uint32"))
    assert [type(each) for each in result.arrays] == [numpy.ndarray] * 2
    assert result.arrays[0].tolist() == [[4, 4], [5, 6]] and result.arrays[0].dtype == rows.dtype
    assert result.arrays[1].tolist() == [2] and result.arrays[1].flags.writeable
    assert [each.tolist() for each in kernel.call("inc", rows, rows[1:]).arrays] == [[[4, 4], [7, 6]], [[7, 6]]]
    assert kernel.call("inc", rows.T, rows[:, 1].copy()).arrays[0].tolist() == [[4, 5], [4, 6]]
    assert kernel.call("copy", numpy.zeros((0, 2)), 0, 0).arrays[0].shape == (0, 2)
    pairs = numpy.array([(1, 2.5)], dtype=[("a", "<i4"), ("b", "<f8")])
    assert kernel.call("inc", pairs, bytearray(4)).arrays[0].tolist() == [(2, 2.5)]
    assert kernel.call("inc", rows, bytearray(8)).value % 4096 == 8
    assert kernel.call("copy", numpy.uint32(0x80000001), 0, numpy.int8(0)).value == 0xFFFFFFFF80000001
    for refused in (numpy.array([object()]), numpy.float32(1), numpy.array(["2026-01-01"], dtype="datetime64[D]")):
        with pytest.raises(LabError, match="^argument 1"):
            kernel.call("copy", refused, 0, 0)


def test_array_of_absent_numpy(kernel: Kernel, monkeypatch: pytest.MonkeyPatch) -> None:
    """As numpy's, with a class that has its names: an array comes back by `frombuffer`, with its shape and its class."""

    class Array(ctypes.c_int * 2):  # type: ignore[misc]
        """A buffer with a dtype and a shape."""

        dtype, shape = "int32", (2, 1)

    class Made(list[str]):
        """The calls on an array that is made."""

        def reshape(self, shape: tuple[int, ...]) -> "Made":
            return Made([*self, f"{shape}"])

        def view(self, kind: type) -> "Made":
            return Made([*self, kind.__name__])

    def frombuffer(data: bytearray, dtype: str) -> Made:
        return Made([data.hex(), dtype])

    stand_in: Any = types.SimpleNamespace(ndarray=Array, integer=(), bool_=(), frombuffer=frombuffer)
    monkeypatch.setitem(sys.modules, "numpy", stand_in)
    result = kernel.call("inc", Array(3, 4), bytearray(4))
    assert result.arrays == [["0400000004000000", "int32", "(2, 1)", "Array"], bytearray(b"\2\0\0\0")]
