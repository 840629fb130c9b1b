"""Symbols and source lines, by what readelf and objdump of binutils 2.40 say of the same files."""

import pathlib

from support.places import SQUARES, SQUARES_DWARF5, STOCK, SUM, SUM_DWARF4, SUM_DWARF5
from vecmon_lab.guest.symbols import Symbols


def test_symbols_name_addresses() -> None:
    symbols = Symbols.read(SUM)
    assert sorted(symbols.addresses) == ["_start", "_start.squares"]
    assert symbols.addresses["_start"] == 0x11190 and symbols.addresses["_start.squares"] == 0x122E8
    assert "start" not in symbols.addresses
    assert symbols.place(0x11190) == "_start" and symbols.place(0x11198) == "_start+0x8"
    assert symbols.place(0x112E4) == "_start+0x154" and symbols.place(0x112E8) == ""
    assert symbols.place(0x1118C) == symbols.place(0x122E7) == symbols.place(0x7FFFEFC0) == ""
    assert symbols.place(0x122E8 + 399) == "_start.squares+0x18f" and symbols.place(0x122E8 + 400) == ""


def test_best_symbol_names_address() -> None:
    """At 11008 are the object `table` and the untyped `_edata` and `__bss_start`, and before it `count`."""
    symbols = Symbols.read(SQUARES_DWARF5)
    assert symbols.place(0x11008) == "table" and symbols.place(0x11000) == "count"
    assert [symbols.place(address) for address in (0x10120, 0x10174, 0x10184, 0x10188, 0x1018C)] == [
        "main",
        "_start",
        "fill",
        "next",
        "next+0x4",
    ]
    assert symbols.addresses["__global_pointer$"] == 0x11800


def test_file_without_symbols_has_none(tmp_path: pathlib.Path) -> None:
    damaged = tmp_path / "damaged"
    for data in (b"", b"\x7fELF", SUM.read_bytes()[:100], SUM.read_bytes()[:1500]):
        damaged.write_bytes(data)
        symbols = Symbols.read(damaged)
        assert (list(symbols.addresses), symbols.place(0x11190), symbols.line(0x11190), symbols.warning) == (
            [],
            "",
            "",
            "",
        )
    for file in (SQUARES, STOCK / "sum.c"):
        assert not Symbols.read(file).addresses and Symbols.read(file).place(0x10174) == ""


def test_source_lines_are_read() -> None:
    symbols = Symbols.read(SUM_DWARF4)
    assert symbols.warning == ""
    lines = [symbols.line(address) for address in (0x11190, 0x11194, 0x111B4, 0x112DC, 0x112E8, 0)]
    assert lines == ["sum.c:30", "sum.c:34", "sum.c:34", "sum.c:11", "", ""]
    symbols = Symbols.read(SQUARES_DWARF5)
    lines = [symbols.line(address) for address in (0x10120, 0x1013C, 0x10174, 0x10198, 0x101B0)]
    assert lines == ["squares.c:9", "squares.c:9", "fill.S:5", "fill.S:17", "fill.S:23"]
    assert (Symbols.read(SUM).line(0x11190), Symbols.read(SUM).warning) == ("", "")


def test_unreadable_debug_data_gives_one_warning() -> None:
    """pyelftools 0.29 doesn't know a form that clang's DWARF 5 has; a later one may."""
    symbols = Symbols.read(SUM_DWARF5)
    assert symbols.place(0x11194) == "_start+0x4"
    line, warning = symbols.line(0x11190), symbols.warning
    assert line == "sum.c:30" if not warning else line == "" and "\n" not in warning and "sum_dwarf5" in warning
