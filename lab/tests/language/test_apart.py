"""Sources that take long are assembled in a separate process, with limits; small ones here."""

import pathlib
from dataclasses import replace

import pytest

from vecmon_lab import LabError
from vecmon_lab.assembler.line import SourceError
from vecmon_lab.language import apart
from vecmon_lab.language.apart import read_limited, read_small

ADD = "add a0, a0, a1\n"
REPEATED = f".rept 300\n{ADD}.endr\n"
LARGE = ADD * 400


def test_small_sources_are_assembled_here(program: pathlib.Path) -> None:
    """Comments and blanks don't count; lines that macros make do."""
    small = [ADD, ADD * 300 + "# a comment, which takes no time\n" * 1000, f".rept 60\n{ADD}.endr\n", "add a0\n"]
    assert [bool(read_small("whole", text, program)) for text in small] == [True] * 4
    large = [
        LARGE,
        REPEATED,
        f".macro m\n{ADD * 20}.endm\n" + "m\n" * 20,
        ".irp r, a0, a1\n.rept 99\nneg \\r, \\r\n.endr\n.endr",
    ]
    assert [read_small("whole", text, program) for text in large] == [None] * 4


@pytest.mark.parametrize("reader", apart.READERS)
def test_separate_process_gives_the_same_program(program: pathlib.Path, reader: str) -> None:
    """Also mistakes, by the machine too, with what may replace them."""
    for text in (
        REPEATED + ".data\nx: .word 1, 2\n",
        LARGE + "ad a0, a0, a1\nadd a0, a0\nj nowhere\nadd a0, a1, x32\n\ud800",
    ):
        here, there = apart.READERS[reader](text, program, 400_000), read_limited(reader, text, program)
        assert replace(there, mistakes=[], warnings=[]) == replace(here, mistakes=[], warnings=[])
        assert [*map(fields, there.mistakes)] == [*map(fields, here.mistakes)]
        assert [*map(fields, there.warnings)] == [*map(fields, here.warnings)]


def fields(mistake: SourceError) -> tuple[int, int, str, str, list[str]]:
    """All that is shown of a mistake."""
    return mistake.line, mistake.column, mistake.message, mistake.code, [*mistake.fix]


def test_processor_is_limited(program: pathlib.Path, tmp_path: pathlib.Path, monkeypatch: pytest.MonkeyPatch) -> None:
    """The limit is of the process, which is started with a smaller one here."""
    lists = ".rept 1990\n.byte " + ", ".join(["1"] * 90) + "\n.endr\n"
    limited(monkeypatch, tmp_path, "CPU_SECONDS = 1")
    with pytest.raises(LabError, match="^assembling this source takes more than 10 s of processor: shorten its "):
        read_limited("source", lists, program)


def test_memory_is_limited(program: pathlib.Path, tmp_path: pathlib.Path, monkeypatch: pytest.MonkeyPatch) -> None:
    limited(monkeypatch, tmp_path, "MEMORY_BYTES = 60 << 20")
    with pytest.raises(LabError, match="^assembling this source takes more than 60 MB of memory: shorten its "):
        read_limited("source", LARGE * 300, program)


def limited(monkeypatch: pytest.MonkeyPatch, folder: pathlib.Path, limit: str) -> None:
    """Let the process have another limit: it runs this module with a changed line."""
    name, _, _ = limit.partition(" ")
    lines = pathlib.Path(apart.__file__).read_text("utf-8").split("\n")
    start = "CPU_SECONDS, MEMORY_BYTES = "
    (place,) = (number for number, line in enumerate(lines) if line.startswith(start))
    lines.insert(place + 1, limit)
    package = folder / "vecmon_lab"
    package.mkdir()
    source = apart.LAB / "vecmon_lab"
    for path in source.iterdir():
        if path.name != "language":
            (package / path.name).symlink_to(path)
    (package / "language").mkdir()
    for path in (source / "language").iterdir():
        (package / "language" / path.name).symlink_to(path)
    (package / "language" / "apart.py").unlink()
    (package / "language" / "apart.py").write_text("\n".join(lines), "utf-8")
    monkeypatch.setattr(apart, "LAB", folder)
