"""The numbers and texts that directives put into memory, as runs of one type."""

from collections.abc import Callable, Collection, Iterable
from dataclasses import dataclass
from typing import Literal

from .value import Section

DataType = Literal["i8", "u8", "i16", "u16", "i32", "u32", "i64", "u64", "text"]

MAX_RUNS = 1000
_SIGNED: dict[int, DataType] = {1: "i8", 2: "i16", 4: "i32", 8: "i64"}
_UNSIGNED: dict[int, DataType] = {1: "u8", 2: "u16", 4: "u32", 8: "u64"}


@dataclass(frozen=True)
class DataItem:
    """A number or a text in a section.

    offset: the offset of the first byte in the section; size: the number of bytes
    value: returns the number, once sections have their bases; None for a text
    """

    section: Section
    offset: int
    size: int
    value: Callable[[], int] | None

    @property
    def address(self) -> int:
        """The address of the first byte, once sections have their bases."""
        return self.section.base + self.offset


@dataclass(frozen=True)
class DataRun:
    """Consecutive numbers of one type, or a text.

    type: the type of the numbers, which is unsigned only if some number doesn't fit into the signed type; `text` for a text
    count: how many numbers there are, or the number of bytes of the text
    """

    type: DataType
    count: int


def data_runs(items: Iterable[DataItem], labels: Collection[int]) -> dict[int, DataRun]:
    """Return the first MAX_RUNS runs of data items, by the address of a run's first byte.

    A run has consecutive items of one size, all numbers or all texts. An item at a label starts a new run.

    labels: the addresses that have labels
    """
    runs = list[list[DataItem]]()
    for item in sorted(items, key=lambda each: each.address):
        last = runs[-1][-1] if runs else None
        is_next = last is not None and last.address + last.size == item.address and item.address not in labels
        if (
            last
            and is_next
            and (last.value is None) == (item.value is None)
            and (not item.value or last.size == item.size)
        ):
            runs[-1].append(item)
        else:
            runs.append([item])
    return {run[0].address: _run(run) for run in runs[:MAX_RUNS]}


def _run(items: list[DataItem]) -> DataRun:
    values, size = [item.value() for item in items if item.value], items[0].size
    if not values:
        return DataRun("text", sum(item.size for item in items))
    is_unsigned = max(values) >> 8 * size - 1 > 0
    return DataRun((_UNSIGNED if is_unsigned else _SIGNED)[size], len(items))
