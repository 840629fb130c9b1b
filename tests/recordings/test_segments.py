"""The log of a segment store, by hand."""

import pathlib

from tests.recordings.log_lines import bytes_stored, read_log
from tests.recordings.recorder import record_log
from tests.recordings.test_counts import write_inputs

SEGMENT_STORE = (0xC0017057, 0x5E03B257, 0x5E04B2D7, 0x22058227, 0x00100073)
"""vsetivli x0, 2, e8, m1, tu, mu; vmv.v.i v4, 7; vmv.v.i v5, 9; vsseg2e8.v v4, (x11); ebreak."""


def test_segment_fields_are_in_one_line(tmp_path: pathlib.Path) -> None:
    result = record_log(tmp_path, "--to", 5, *write_inputs(tmp_path, SEGMENT_STORE))
    lines, _ = read_log(result.log)
    assert dict(bytes_stored(lines[3])) == {0x2000: 7, 0x2001: 9, 0x2002: 7, 0x2003: 9}
