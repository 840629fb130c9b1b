"""The arrays of a call in the machine's memory: their pages, arrays that share memory, and their contents after the call."""

import array
import ctypes
import sys
from collections.abc import Iterator, Sequence
from dataclasses import dataclass
from typing import TYPE_CHECKING, Any, TypeAlias

from .. import LabError, mistakes_in
from ..guest.guest import peeks, pokes
from ..instructions.accesses import PAGE_BYTES

if TYPE_CHECKING:
    from _typeshed import ReadableBuffer

Array: TypeAlias = "ReadableBuffer"
"""An object with the buffer protocol: bytes, bytearray, memoryview, or an array of array, ctypes or numpy."""

ARRAYS = 0x1_0000_0000
"""The address of the first page of arrays."""

MAX_PAGES = 256
"""The most pages that a user of the machine can have."""

PERMISSIONS = ("r", "w", "rw")
"""The permissions that a program can have for an array."""


@dataclass(frozen=True)
class Placed:
    """An array, and its place in its pages. The pages before and after them aren't mapped.

    offset: the offset in bytes from the start of the first page, 0 to 4,095; None to end the array at the end of its last page
    permissions: the program's permissions for the array: `r`, `w` or `rw`
    """

    data: Array
    offset: int | None = None
    permissions: str = "rw"


@dataclass(frozen=True)
class _Given:
    """An argument that is an array.

    number: the number of the argument, from 1; data: the array's bytes
    host: the addresses of the array's bytes in this process; empty if the bytes are read-only or not contiguous. Such an array is copied, so
        it can't share memory with another one.
    """

    number: int
    placed: Placed
    data: bytes
    host: range


@dataclass(frozen=True)
class PlacedArray:
    """An array of a call: the caller's object, its address in the machine, and its size in bytes."""

    given: Array
    address: int
    size: int


class Layout:
    """The arrays of a call in the machine's memory. Arrays that share memory in this process also share it in the machine.

    arrays: the arrays by the number of their argument, from 1
    lines: the commands that map the pages and write the arrays
    """

    def __init__(self, given: Sequence[tuple[int, Placed]]) -> None:
        """given: each array, with the number of its argument. Raises LabError for an array that can't be placed or returned."""
        self.arrays = dict[int, PlacedArray]()
        self.lines = list[str]()
        page, total = ARRAYS, 0
        for group in _groups([_given(number, placed) for number, placed in given]):
            pages = self._place(group, page)
            page, total = page + (pages + 1) * PAGE_BYTES, total + pages
        if total > MAX_PAGES:
            most = f"a call has {MAX_PAGES} at most, with the program and its stack"
            raise LabError(f"the arrays take {total:,} pages of {PAGE_BYTES:,} bytes, and {most}")
        self.arrays = dict(sorted(self.arrays.items()))

    def _place(self, group: Sequence[_Given], page: int) -> int:
        """Place a group of arrays that share memory. Return the number of pages that they need, at least one.

        page: the address of the first page for the group
        """
        start, placed = group[0].host.start, group[0].placed
        data = bytearray(max(each.host.start - start + len(each.data) for each in group))
        offset = placed.offset
        pages = max(1, -(-((offset or 0) + len(data)) // PAGE_BYTES))
        address = page + (pages * PAGE_BYTES - len(data) if offset is None else offset)
        for each in group:
            first = each.host.start - start
            data[first : first + len(each.data)] = each.data
            self.arrays[each.number] = PlacedArray(each.placed.data, address + first, len(each.data))
        self.lines += [f"map {page:x} {pages} {placed.permissions}", *pokes(address, bytes(data))]
        return pages

    def looks(self) -> list[str]:
        """Return the commands that read the arrays' memory."""
        return [look for each in self.arrays.values() for look in peeks(each.address, each.size)]

    def contents(self, parts: Iterator[bytes]) -> list[bytes]:
        """Return the bytes of each array, from the replies to `looks`."""
        return [b"".join(next(parts) for _ in peeks(each.address, each.size)) for each in self.arrays.values()]


def like(given: Array, data: bytes) -> Any:
    """Return bytes as an object of the same type as `given`. Raises TypeError and ValueError if that is impossible."""
    numpy = sys.modules.get("numpy")  # the lab doesn't need it; it is used only if the caller has imported it
    if numpy and isinstance(given, numpy.ndarray):
        return numpy.frombuffer(bytearray(data), given.dtype).reshape(given.shape).view(type(given))
    if isinstance(given, bytes | bytearray):
        return type(given)(data)
    if isinstance(given, array.array):
        return array.array(given.typecode, data)
    if isinstance(given, ctypes.Array | ctypes.Structure | ctypes.Union):
        return type(given).from_buffer_copy(data)
    view = memoryview(given)
    form = view.format.removeprefix("<")  # ctypes adds it
    return memoryview(bytearray(data)).cast(form, view.shape or (1,)) if data else view


def _given(number: int, placed: Placed) -> _Given:
    """Return an array argument. Raises LabError if its bytes can't be read or returned, or if its place is invalid."""
    offset = placed.offset
    with mistakes_in(f"argument {number}", TypeError, ValueError, LabError):
        data = memoryview(placed.data).tobytes()
        if placed.permissions not in PERMISSIONS:
            raise LabError(f"its permissions are {placed.permissions!r}, and aren't r, w or rw")
        if offset is not None and not 0 <= offset < PAGE_BYTES:
            raise LabError(f"its offset in a page is {offset}, and isn't from 0 to {PAGE_BYTES - 1:,}")
        like(placed.data, data)
    return _Given(number, placed, data, _host_addresses(placed.data, len(data)))


def _host_addresses(given: Array, size: int) -> range:
    """Return the addresses of an array's bytes in this process; empty if they are read-only or not contiguous."""
    view = memoryview(given)
    if view.readonly or not view.c_contiguous:
        return range(0)
    start = ctypes.addressof((ctypes.c_char * size).from_buffer(view))
    return range(start, start + size)


def _groups(given: Sequence[_Given]) -> list[list[_Given]]:
    """Return groups of arrays that share memory, in the order of their first arguments.

    Raises LabError for arrays that can't share their memory in the machine.
    """
    groups, end = list[list[_Given]](), 0
    for each in sorted(given, key=lambda each: each.host.start):
        if each.host and each.host.start < end:
            _check_places(groups[-1][0], each)
            groups[-1].append(each)
        else:
            groups.append([each])
        end = max(end, each.host.stop)
    _check_copies(given)
    return sorted(groups, key=lambda group: min(each.number for each in group))


def _check_places(one: _Given, other: _Given) -> None:
    """Raise LabError if arrays that share memory are given different places."""
    offset, permissions = one.placed.offset, one.placed.permissions
    is_moved = offset is not None and one.host.start != other.host.start
    if is_moved or (offset, permissions) != (other.placed.offset, other.placed.permissions):
        raise LabError(f"{_numbers(one, other)} share memory: give them the same place, or give copies")


def _check_copies(given: Sequence[_Given]) -> None:
    """Raise LabError if an array that isn't contiguous is given twice, since it is passed as a copy."""
    seen = dict[int, _Given]()
    for each in given:
        view = memoryview(each.placed.data)
        if view.readonly or view.c_contiguous:
            continue
        if (first := seen.setdefault(id(each.placed.data), each)) is not each:
            raise LabError(f"{_numbers(first, each)} are one array, which isn't contiguous: give a contiguous one")


def _numbers(one: _Given, other: _Given) -> str:
    """Return the numbers of two arguments, in rising order."""
    return "arguments {} and {}".format(*sorted((one.number, other.number)))
