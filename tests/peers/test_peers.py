"""A sample of each comparison with other tools; and each of them finds one planted error."""

import pathlib
import re
import shutil
from collections.abc import Sequence
from typing import Any

import pytest

from support.skips import NO_BINUTILS, NO_LLVM, NO_QEMU, leave_out
from tests.peers import digests, encodings, instructions, programs
from tests.peers.__main__ import parsed
from tests.peers.tally import Tally
from tests.peers.tools import GNU, LLVM_MC, gnu_assembled, gnu_disassembled, llvm_assembled, llvm_disassembled
from vecmon_lab.instructions.table import instruction_table
from vecmon_lab.meanings.extensions import names_lacked_by
from vecmon_lab.vectors.on_qemu import version

NAMES = instructions.names()
WORD_COUNT, RANDOM_COUNT = 4, 8000


@pytest.fixture(scope="module")
def qemu() -> None:
    """QEMU 7.2 in user mode: other versions differ from `vecmon` in other cases."""
    if not shutil.which("qemu-riscv64") or version() != (7, 2):
        leave_out(NO_QEMU)


@pytest.fixture(scope="module")
def binutils() -> None:
    """GNU binutils for RISC-V."""
    if not shutil.which(f"{GNU}objdump"):
        leave_out(NO_BINUTILS)


@pytest.fixture(scope="module")
def llvm() -> None:
    """LLVM's assembler, and an objcopy for its files."""
    if not shutil.which(LLVM_MC[0]) or not shutil.which(f"{GNU}objcopy"):
        leave_out(NO_LLVM)


@pytest.fixture(scope="module")
def words() -> list[int]:
    """Words of each name."""
    return encodings.words_of_names(WORD_COUNT, 1)


def check(tally: Tally, least: int) -> None:
    """Checks that no case differs, and that at least some agree."""
    assert not tally.differing, "\n".join(tally.lines())
    assert tally.agreeing >= least, "\n".join(tally.lines())


@pytest.mark.usefixtures("qemu")
@pytest.mark.parametrize(("policy", "first"), [("keep", 0), ("ones", 4)])
def test_each_ninth_instruction_on_qemu(policy: str, first: int) -> None:
    check(instructions.tally_of(instructions.drawn_cases(NAMES[first::9], 5, 7, policy)), 220)


@pytest.mark.usefixtures("qemu")
def test_a_changed_digit_of_a_register_is_found() -> None:
    drawn = instructions.drawn_cases(["vadd.vv", "mulhsu"], 12, 3)
    ran = [case for case in drawn if case["end"] == "ran" and not case["vstart"]]
    assert instructions.tally_of(ran).agreeing == len(ran) > 12
    for kind, name in (("v", "vadd.vv"), ("x", "mulhsu")):
        registers = next(named[kind] for case in ran if case["name"] == name and kind in (named := after(case)))
        number = next(iter(registers))
        registers[number] = other_digit(registers[number])
    tally = instructions.tally_of(ran)
    assert tally.agreeing == len(ran) - 2
    assert [line.split(" ")[1] for line in tally.differing] == ["vadd.vv", "mulhsu"]


@pytest.mark.usefixtures("binutils")
def test_gnu_binutils(words: Sequence[int]) -> None:
    known = {*instruction_table()} - names_lacked_by("as")
    check(encodings.compare_assembler("as", gnu_assembled, words), WORD_COUNT * len(known))
    check(encodings.compare_disassembler("objdump", gnu_disassembled, both(words)), 10_000)


@pytest.mark.usefixtures("llvm")
def test_llvm(words: Sequence[int]) -> None:
    check(encodings.compare_assembler("llvm-mc", llvm_assembled, words), 2200)
    check(encodings.compare_disassembler("llvm-mc", llvm_disassembled, both(words)), 10_000)


@pytest.mark.usefixtures("binutils", "llvm")
def test_a_changed_digit_of_a_text_is_found(words: Sequence[int]) -> None:
    """The other tools get and give an instruction whose last digit differs."""

    for name, assembler in (("as", gnu_assembled), ("llvm-mc", llvm_assembled)):
        tally = encodings.compare_assembler(name, given_other_text(assembler), words)
        assert [line.split(" ")[1] for line in tally.differing] == ["vsub.vv"]
    for name, disassembler in (("objdump", gnu_disassembled), ("llvm-mc", llvm_disassembled)):
        tally = encodings.compare_disassembler(name, giving_other_text(disassembler), words)
        assert [line.split(" ")[1] for line in tally.differing] == ["vsub.vv"]


@pytest.mark.usefixtures("binutils")
def test_another_name_and_no_instruction_are_found() -> None:
    """vadd.vv as vsub.vv; an instruction that the other tool doesn't know; and one that `vecmon` doesn't know."""
    words = [0x022180D7, 0x022180D7, 0x022180D7, 0]
    texts = ["vadd.vv v1,v2,v3", "vsub.vv v1,v2,v3", "", "addi x0,x0,0"]
    tally = encodings.compare_disassembler("objdump", lambda _: texts, words)
    assert (tally.agreeing, len(tally.differing)) == (1, 3)


def test_words_of_extensions_that_binutils_lack_are_left_out(monkeypatch: pytest.MonkeyPatch) -> None:
    """vadd.vv, as if it were of Zvkb: refused, known after all, and another instruction of Zvkb that `vecmon` lacks."""
    monkeypatch.setattr(encodings, "names_lacked_by", lambda tool: {"vadd.vv"})
    monkeypatch.setattr(encodings, "added_archs", lambda: ())
    texts = ["", "vadd.vv v1,v2,v3", "vrev8.v v8,v9"]
    words = [0x022180D7, 0x022180D7, 0x4A94A457]
    tally = encodings.compare_disassembler("objdump", lambda _: texts, words)
    assert (tally.agreeing, len(tally.differing)) == (1, 1) and tally.left_out == {encodings.LACKED: 1}
    monkeypatch.setattr(encodings, "added_archs", lambda: ("zvkb",))
    tally = encodings.compare_disassembler("llvm-mc", lambda _: texts, words)
    assert (tally.agreeing, len(tally.differing)) == (1, 1) and tally.left_out == {encodings.NO_INSTRUCTION: 1}
    tally = encodings.compare_assembler("as", lambda given: ([0x00A00093], {}), [0x022180D7, 0x00A00093])
    assert (tally.agreeing, tally.differing) == (1, []) and tally.left_out == {encodings.LACKED: 1}


@pytest.mark.usefixtures("binutils", "llvm")
def test_stored_names_of_random_words(tmp_path: pathlib.Path, monkeypatch: pytest.MonkeyPatch) -> None:
    """The names of vector operations and fences; and a changed digit of a stored digest is found."""
    check(digests.compare("57", "0f"), 2)
    stored, changed = digests.STORED.read_bytes().decode("latin-1"), tmp_path / "stdout"
    other = re.sub(r"(opcode 0f: .* names )(\w+)", lambda found: found[1] + other_digit(found[2]), stored)
    changed.write_bytes(other.encode("latin-1"))
    monkeypatch.setattr(digests, "STORED", changed)
    assert [line.split(":")[0] for line in digests.compare("57", "0f").differing] == ["opcode 0f"]


@pytest.mark.usefixtures("qemu")
def test_programs_on_qemu(tmp_path: pathlib.Path) -> None:
    paths = programs.write_programs(tmp_path, 60, 100, 100)
    check(programs.tally_of(paths), 60)
    check(programs.tally_of(paths[:: programs.OF_ONES], "ones"), 6)


@pytest.mark.usefixtures("qemu")
def test_a_changed_digit_of_a_digest_is_found(tmp_path: pathlib.Path) -> None:
    paths = programs.write_programs(tmp_path, 3, 50, 7, "--faults")
    check(programs.tally_of(paths, faults=True), 3)
    reference = paths[1].with_suffix(".reference")
    reference.write_text(other_digit(reference.read_text("ascii"), 0), "ascii")
    assert programs.tally_of(paths, faults=True).differing == ["program_8"]


def test_unknown_part(capsys: pytest.CaptureFixture[str]) -> None:
    with pytest.raises(SystemExit, match="2"):
        parsed(["encodings", "spike"])
    assert capsys.readouterr().err.endswith(
        "error: spike is no part; the parts are instructions, encodings, programs\n"
    )


def after(case: instructions.Case) -> dict[str, Any]:
    """The changes of a case."""
    changes = case["after"]
    assert isinstance(changes, dict)
    return changes


def both(words: Sequence[int]) -> list[int]:
    """Encodings of each name, and then random words."""
    return [*words, *encodings.random_words(RANDOM_COUNT, 1)]


def given_other_text(assembler: encodings.Assembler) -> encodings.Assembler:
    """An assembler that gets another text."""
    return lambda texts: assembler(with_other_text(texts))


def giving_other_text(disassembler: encodings.Disassembler) -> encodings.Disassembler:
    """A disassembler that gives another text."""
    return lambda words: with_other_text(disassembler(words))


def with_other_text(texts: Sequence[str]) -> list[str]:
    """Texts with another last digit in the first unmasked vsub.vv."""
    at = next(at for at, text in enumerate(texts) if text.startswith("vsub.vv") and "v0.t" not in text)
    return [*texts[:at], other_digit(texts[at]), *texts[at + 1 :]]


def other_digit(text: str, at: int | None = None) -> str:
    """A text with another digit at a place, or at its end."""
    place = len(text) - 1 if at is None else at
    return f"{text[:place]}{int(text[place], 16) ^ 1:x}{text[place + 1 :]}"
