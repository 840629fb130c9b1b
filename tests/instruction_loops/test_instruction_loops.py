"""Compares what the loops leave with what is stored."""

from tests.instruction_loops.loops import HERE, checksums
from tests.program import built, difference


def test_checksums_equal_stored_output() -> None:
    output = difference(checksums(built(), 3), (HERE / "stdout").read_text("ascii"))
    assert not output, output
