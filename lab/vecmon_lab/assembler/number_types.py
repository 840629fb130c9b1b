"""The types of numbers in memory, `i8` to `u64`, which `#>` lines of sources and exercises name."""

import struct
from collections.abc import Mapping, Sequence
from dataclasses import dataclass

from .data_runs import DataType


@dataclass(frozen=True)
class NumberType:
    """A type of numbers that memory contains in little-endian order.

    name: such as `i32`; code: the type's code in the module struct
    """

    name: DataType
    code: str

    @property
    def size(self) -> int:
        """The size of a number in bytes."""
        return struct.calcsize(f"<{self.code}")

    @property
    def minimum(self) -> int:
        """The smallest number of the type."""
        return -(1 << 8 * self.size - 1) if self.code.islower() else 0

    @property
    def maximum(self) -> int:
        """The largest number of the type."""
        return self.minimum + (1 << 8 * self.size) - 1

    def packed(self, numbers: Sequence[int]) -> bytes:
        """Return the bytes that memory contains for numbers, which must fit into the type."""
        return struct.pack(f"<{len(numbers)}{self.code}", *numbers)

    def unpacked(self, data: bytes) -> tuple[int, ...]:
        """Return the numbers that these bytes contain. The length of `data` is a multiple of the type's size."""
        return struct.unpack(f"<{len(data) // self.size}{self.code}", data)


NUMBER_TYPES: Mapping[str, NumberType] = {
    it.name: it
    for it in (
        NumberType("i8", "b"),
        NumberType("u8", "B"),
        NumberType("i16", "h"),
        NumberType("u16", "H"),
        NumberType("i32", "i"),
        NumberType("u32", "I"),
        NumberType("i64", "q"),
        NumberType("u64", "Q"),
    )
}
"""The types by name."""
