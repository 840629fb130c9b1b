"""Operands of pages: some by hand, and all instructions' compared with the machine's texts."""

import random
import re
from collections.abc import Iterator, Sequence

import pytest

from support.machine_cases import encodings, with_operands
from vecmon_lab.machine.session import Session
from vecmon_lab.page.operands import ShownOperand, shown_operands


def shown(register: int, bits: bool = False, written: bool = False, masked: bool = False) -> ShownOperand:
    """An operand of these facts."""
    return {"register": register, "bits": bits, "written": written, "masked": masked}


V0 = shown(0, bits=True)


@pytest.mark.parametrize(
    "text, operands",
    [
        ("vadd.vv v2, v4, v6", [shown(2, written=True), shown(4), shown(6)]),
        ("vadd.vi v2, v4, 1, v0.t", [shown(2, written=True, masked=True), shown(4), V0]),
        ("vmseq.vi v0, v4, 1, v0.t", [shown(0, bits=True, written=True), shown(4), V0]),
        ("vmerge.vim v2, v4, 1, v0", [shown(2, written=True), shown(4), V0]),
        ("vredsum.vs v2, v4, v6, v0.t", [shown(2, written=True), shown(4, masked=True), shown(6), V0]),
        ("vcpop.m x5, v4, v0.t", [shown(4, bits=True, masked=True), V0]),
        ("vwmulu.vx v2, v4, x5", [shown(2, written=True), shown(4)]),
        ("vmv4r.v v4, v8", [shown(4, written=True), shown(8)]),
        ("vsm.v v2, (x10)", [shown(2, bits=True)]),
        ("vlseg3e16.v v2, (x10)", [shown(2, written=True)]),
        ("vsuxei8.v v0, (x10), v4, v0.t", [shown(0, masked=True), shown(4), V0]),
        ("addi x5, x5, 1", []),
        (".word 0x00000000", []),
    ],
)
def test_operands_of_word_are_listed(session: Session, text: str, operands: list[ShownOperand]) -> None:
    session.do_all(["1 enter", "1 map 0 1 r"])
    word = int(session.do(f"1 asm 0 {text}")[0].split()[2], 16)
    assert list(shown_operands(word)) == operands


def test_operands_are_registers_of_texts(session: Session) -> None:
    """The registers that the machine's texts of all vector instructions name."""
    draws = random.Random(1)
    names = [name for name, bits in encodings() if name.startswith("v") and not name.startswith("vset")]
    words = [with_operands(dict(encodings())[name], draws.getrandbits(32)) for name in names for _ in range(12)]
    for word, text in zip(words, texts_of(session, words), strict=True):
        named = [int(number) for number in re.findall(r"[ ,]v(\d+)", text)]
        assert (text, sorted(operand["register"] for operand in shown_operands(word))) == (text, sorted(named))


def texts_of(session: Session, words: Sequence[int]) -> Iterator[str]:
    """The canonical texts of words."""
    session.do("1 enter")
    session.do("1 map 0 1 r")
    for place in range(0, len(words), 16):
        some = words[place : place + 16]
        session.do("1 poke 0 " + b"".join(word.to_bytes(4, "little") for word in some).hex())
        yield from (line[28:] for line in session.look(f"1 dis 0 {len(some)}"))
