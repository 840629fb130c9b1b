"""`new_words` adds the encodings of a name to the files of `test_assembler`; here of a name that was taken out of them."""

import pathlib
import re

import pytest

from support.skips import NO_BINUTILS, NO_LLVM, leave_out
from tests.peers import digests, new_words
from tests.peers.tools import GNU, LLVM_MC
from vecmon_lab.instructions.table import instruction_table

NAME, BEFORE, AFTER = "vmin.vx", "vmin.vv", "vmaxu.vv"


@pytest.fixture
def stored(tmp_path: pathlib.Path, monkeypatch: pytest.MonkeyPatch) -> pathlib.Path:
    """A copy of the crate's data and output without the words and texts of NAME."""
    texts = (new_words.DATA / "spellings").read_bytes().decode("latin-1").split("\n")
    words = {line.split()[0] for line in texts if line.split()[1:2] == [NAME]}
    assert len(words) > 4
    (tmp_path / "data").mkdir()
    for name in ("data/encodings", "data/spellings", "stdout"):
        lines = (digests.STORED.parent / name).read_bytes().decode("latin-1").split("\n")
        kept = [line for line in lines if line.split()[:1] == [] or line.split()[0] not in words]
        (tmp_path / name).write_bytes("\n".join(kept).encode("latin-1"))
    monkeypatch.setattr(new_words, "DATA", tmp_path / "data")
    monkeypatch.setattr(digests, "STORED", tmp_path / "stdout")
    return tmp_path


def names_in(path: pathlib.Path) -> list[str]:
    """The names of the texts in a file, without repetition."""
    lines = (line.split() for line in path.read_text("latin-1").split("\n"))
    return list(dict.fromkeys(parts[1] for parts in lines if len(parts) > 1))


def test_added_words_follow_those_of_name_before(stored: pathlib.Path, capsys: pytest.CaptureFixture[str]) -> None:
    for tool, reason in ((f"{GNU}objdump", NO_BINUTILS), (LLVM_MC[0], NO_LLVM)):
        if not new_words.is_installed(tool):
            leave_out(reason)
    before = (stored / "stdout").read_text("latin-1")
    assert NAME not in names_in(stored / "data/spellings")
    changed = re.sub(r"(opcode 57: .* names )\w+", r"\g<1>00000000", before)
    (stored / "stdout").write_text(changed, "latin-1")
    assert new_words.main() == 0
    printed = capsys.readouterr().out.splitlines()
    assert len(printed) == new_words.WORDS and sum(line.endswith("v0.t") for line in printed) == new_words.WORDS // 2
    row = instruction_table()[NAME]
    fixed = [(at, bit) for at, bit in enumerate(row.bits) if bit != "-"]
    for line in printed:
        word, name = line.split()[:2]
        assert name == NAME and all(f"{int(word, 16):032b}"[at] == bit for at, bit in fixed)
    names = names_in(stored / "data/spellings")
    place = names.index(NAME)
    assert names[place - 1 : place + 2] == [BEFORE, NAME, AFTER]
    output = (stored / "stdout").read_text("latin-1").splitlines()
    words = [line.split()[0] for line in printed]
    assert [line for line in output if line in printed] == printed
    assert [line for line in output if line in {f"{word} yes {word}" for word in words}] == [
        f"{word} yes {word}" for word in words
    ]
    digest = re.findall(r"^opcode 57: .*", before, re.MULTILINE)
    assert [line for line in output if line.startswith("opcode 57: ")] == digest


def test_nothing_is_written_without_new_names(stored: pathlib.Path, monkeypatch: pytest.MonkeyPatch) -> None:
    monkeypatch.setattr(new_words.StoredWords, "missing", lambda self: [])
    before = (stored / "stdout").read_bytes()
    assert new_words.main() == 0 and (stored / "stdout").read_bytes() == before


def test_name_that_llvm_lacks_is_named(
    stored: pathlib.Path, monkeypatch: pytest.MonkeyPatch, capsys: pytest.CaptureFixture[str]
) -> None:
    monkeypatch.setattr(new_words, "drawn_words", lambda row: [])
    before = (stored / "stdout").read_bytes()
    assert new_words.main() == 1 and (stored / "stdout").read_bytes() == before
    assert (
        capsys.readouterr().out == f"llvm-mc has no word of {NAME}: is its extension in instruction_extensions.txt?\n"
    )
