"""Files that a source includes: read for your own source, from its folder; refused where others' could be read."""

import os
import pathlib

import pytest

from vecmon_lab import LabError
from vecmon_lab.assembler.own_files import files_beside
from vecmon_lab.assembler.source import read_source
from vecmon_lab.exercises.answer import source_answer
from vecmon_lab.harness.assembled import assembled_image
from vecmon_lab.lessons.script import read_assembled

TEXT = """        .include "macros.s"
        .data
bytes:  .incbin "parts/bytes", 1, 2
        .text
_start: load    a0
"""


@pytest.fixture
def source(tmp_path: pathlib.Path) -> pathlib.Path:
    """A source with two files in its folder, and one outside of it."""
    folder = tmp_path / "own"
    (folder / "parts").mkdir(parents=True)
    (folder / "macros.s").write_text(".macro load to\n li \\to, 7 # seven\n.endm\n")
    (folder / "parts" / "bytes").write_bytes(b"abcd")
    (tmp_path / "solution.s").write_text("nop\n")
    (folder / "link.s").symlink_to(tmp_path / "solution.s")
    path = folder / "main.s"
    path.write_text(TEXT)
    return path


def test_files_beside_own_source_are_read(source: pathlib.Path) -> None:
    own = read_source(TEXT, files=files_beside(source))
    assert not own.mistakes and [(it.line, it.text) for it in own.statements] == [(5, "addi x10, x0, 7")]
    assert own.lines[-1] == "poke 11000 6263"
    assert b"\x13\x05\x70\x00" in assembled_image(source).read_bytes()


@pytest.mark.parametrize("name", ["../solution.s", "link.s", "/etc/hostname", "missing", "parts", "a\\0b"])
def test_other_files_are_refused(source: pathlib.Path, name: str) -> None:
    for directive in (".include", ".incbin"):
        (mistake,) = read_source(f'{directive} "{name}"', files=files_beside(source)).mistakes
        assert mistake.line == 1 and mistake.column == len(directive) + 2
        assert "outside of the folder" in mistake.message or "can't be read" in mistake.message


def test_named_pipe_is_refused(source: pathlib.Path) -> None:
    os.mkfifo(source.parent / "pipe")
    (mistake,) = read_source('.incbin "pipe"', files=files_beside(source)).mistakes
    assert mistake.message == "pipe can't be read: it isn't a regular file"


@pytest.mark.parametrize(
    "operands, problem", [("5", "1:24 the file has 4 bytes, and this leaves out 5"), ("4", ""), ("4, 1", "")]
)
def test_skip_past_end_of_file_is_refused(source: pathlib.Path, operands: str, problem: str) -> None:
    """GNU as refuses 5 of 4 bytes, too."""
    mistakes = read_source(f'.incbin "parts/bytes", {operands}', files=files_beside(source)).mistakes
    assert [f"{it.line}:{it.column} {it.message}" for it in mistakes] == ([problem] if problem else [])


def test_mistake_in_file_is_at_its_directive(source: pathlib.Path) -> None:
    (source.parent / "macros.s").write_text("nop\n bad\n")
    mistake = read_source(TEXT, files=files_beside(source)).mistakes[0]
    assert (mistake.line, mistake.column) == (1, 9)
    assert mistake.message.endswith('; in "macros.s", line 2')


def test_lessons_and_answers_read_no_file(source: pathlib.Path) -> None:
    """An answer of a class, of `grade` and of the playground comes here."""
    refused = r"1:9: \.include isn't here"
    with pytest.raises(LabError, match=refused):
        read_assembled(TEXT, "main.s")
    with pytest.raises(LabError, match=refused):
        source_answer(TEXT, source)
