"""Where breakpoints of source lines are, by `llvm-dwarfdump --debug-line --debug-info` and `objdump -d` of the same images."""

import pathlib
from collections.abc import Mapping, Sequence

import pytest

from support.places import NAMESAKES, PREFIX_SUMS, SUM, SUM_DWARF4, SUM_DWARF5, TOTAL
from vecmon_lab.guest.source_lines import Copy, SourceLines, SourceRow, innermost, line_addresses

BY_CLANG = {
    9: "11190 111ac 111b4 11340 11348",  # `for` of the copy that nothing calls; main's has no test before the loop
    10: "111c0 11354",
    12: "111c8 111d4 111dc 11368",
    17: "111a4 11338",
    25: "111e8 11204 1120c",  # of a function that isn't inlined
    54: "11354",  # a call without any instruction left; 11330 jumps to the start of the copy's loop
    56: "1138c",  # the next one, not the row at 113cc behind what is inlined
}
BY_GCC = {6: "1018c 101b8 101dc", 8: "10190 101bc 101f4", 10: "1020c", 16: "10120 10178", 18: "1018c", 20: "101b4"}


def digits(addresses: Mapping[str, Sequence[int]], names: Sequence[str]) -> dict[str, str]:
    """The addresses of these names."""
    return {name: " ".join(f"{address:x}" for address in addresses[name]) for name in names}


@pytest.mark.parametrize("images, name, lines", [(PREFIX_SUMS, "prefix_sums.c", BY_CLANG), (TOTAL, "total.c", BY_GCC)])
@pytest.mark.parametrize("version", [4, 5])
def test_line_has_address_in_every_copy(
    images: Sequence[pathlib.Path], name: str, lines: Mapping[int, str], version: int
) -> None:
    source = SourceLines(images[version - 4])
    expected = {f"{name}:{line}": addresses for line, addresses in lines.items()}
    assert digits(source.stops, list(expected)) == expected and source.warning == ""


def test_dwarf_versions_give_equal_lines() -> None:
    for four, five in (PREFIX_SUMS, TOTAL, (SUM_DWARF4, SUM_DWARF5)):
        old, new = SourceLines(four), SourceLines(five)
        assert old.stops == new.stops and old.functions == new.functions and len(new.stops) > 5
        assert new.at(0x11194) == old.at(0x11194)


def test_functions_include_inlined_copies() -> None:
    functions = SourceLines(PREFIX_SUMS[1]).functions
    assert functions["prefix_bad"] == {"prefix_sums.c:6": [0x11190, 0x11354]}
    assert functions["prefix_good"] == {"prefix_sums.c:22": [0x111E8]}
    assert functions["call"] == {"runtime.c:4": [0x11400, 0x11410, 0x11534]}, "static, so it has no copy of its own"
    assert SourceLines(TOTAL[0]).functions["total"] == {"total.c:4": [0x1018C, 0x101B4, 0x101DC]}
    assert SourceLines(NAMESAKES).functions["scaled"] == {"namesake.c:6": [0x111D0], "namesake_other.c:1": [0x111E0]}


def test_file_without_debug_data_has_no_lines(tmp_path: pathlib.Path) -> None:
    assert not SourceLines().stops and not SourceLines(SUM).stops and not SourceLines(SUM).warning
    damaged, header = bytearray(SUM_DWARF4.read_bytes()), b"\x01\x01\x01\xfb\x0e\x0d"  # of a line table: DWARF 4, 6.2.4
    # the first special opcode, so lengths of more opcodes should follow than there are
    damaged[damaged.index(header) + 5] = 255
    (tmp_path / "damaged").write_bytes(damaged)
    source = SourceLines(tmp_path / "damaged")
    assert source.at(0x11190) == "" and source.warning.count("\n") == 0 and "source lines of damaged" in source.warning


ROWS = [
    (0, "a.c:1", True),
    (4, "a.c:2", False),
    (8, "a.c:2", True),
    (12, "", True),
    (16, "a.c:2", True),
    (20, "a.c:3", False),
]


def test_consecutive_rows_of_line_have_one_address() -> None:
    """The first one that is recommended, or else the first; a row without a line interrupts no run, another line does."""
    rows = [SourceRow(*row) for row in [*ROWS, (24, "a.c:2", False), (28, "a.c:2", True)]]
    assert line_addresses(rows, []) == {"a.c:1": [0], "a.c:2": [8, 28], "a.c:3": [20]}


def test_inlined_code_belongs_to_calling_line() -> None:
    """So a line that continues after the inlined code stops once, and each copy has an address of its own."""
    whole = Copy(0, 0, 32, 1, -1, "f", "a.c:1", "", (0,))
    inner = [Copy(1, at, at + 8, number, 1, "g", "a.c:9", "a.c:2", (at + 4,)) for at, number in ((8, 2), (16, 3))]
    rows = [(0, "a.c:1", True), (4, "a.c:2", True), (8, "a.c:9", True), (16, "a.c:9", True), (24, "a.c:2", True)]
    assert line_addresses([SourceRow(*row) for row in rows], [whole, *inner]) == {
        "a.c:1": [0],
        "a.c:2": [4],
        "a.c:9": [8, 16],
    }
    assert line_addresses([SourceRow(*row) for row in rows if row[0] != 4], [whole, *inner])["a.c:2"] == [12]
    assert [copy.number for copy in innermost([4, 8, 16, 24], [whole, *inner]).values()] == [1, 2, 3, 1]
