"""The accesses of loads and stores, from their lines in a log, whose words were encoded by hand."""

import pytest

from vecmon_lab.replay.watches import Watch, logged_access

LINE = "core   0: 0 0x0000000000010014 (0x{word:08x}){rest}\n"
LD, LBU = 0x00033283, 0x00034283  # ld x5, 0(x6); lbu x5, 0(x6)
VLE16, VLUXEI8 = 0x02035107, 0x06130107  # vle16.v v2, (x6); vluxei8.v v2, (x6), v1
SD, VSE8 = 0x00533023, 0x02030127  # sd x5, 0(x6); vse8.v v2, (x6)
LOADED, PAIR = " mem 0x0000000000011000", " mem 0x0000000000011000 mem 0x0000000000011010"
STORED = " mem 0x0000000000011000 0x0102030405060708"
TYPE = " e32 m1 l2 v2  0x" + 64 * "0"


@pytest.mark.parametrize(
    "word, rest, kind, at",
    [
        (LD, LOADED, "rwatch", range(8)),
        (LBU, LOADED, "awatch", range(1)),
        (VLE16, TYPE + PAIR, "rwatch", [0, 1, 16, 17]),  # elements as wide as the name says
        (VLUXEI8, TYPE + PAIR, "rwatch", [0, 1, 2, 3, 16, 17, 18, 19]),  # as vtype says
        (SD, STORED, "awatch", range(8)),
        (SD, STORED, "rwatch", []),
        (VSE8, " e8 m1 l2 mem 0x0000000000011000 0x01 mem 0x0000000000011001 0x02", "awatch", [0, 1]),
        (LD, " x5  0x0000000000011000", "rwatch", []),
    ],
)
def test_accessed_bytes_are_watched(word: int, rest: str, kind: str, at: list[int]) -> None:
    line = LINE.format(word=word, rest=rest).encode()
    places = [Watch(kind, 0x11000 + byte, 1) for byte in range(32)]
    assert [place.address - 0x11000 for place in places if logged_access([place], line)] == list(at)
