"""Limits of the assembler's work: a source beyond one of them has a mistake."""

import difflib
import signal
from collections.abc import Iterator
from types import FrameType

import pytest

from vecmon_lab.assembler import symbols
from vecmon_lab.assembler.inputs import with_inputs
from vecmon_lab.assembler.source import read_source

PROCESSOR_SECONDS = 30  # a thousand times as long as the test takes


@pytest.fixture
def limited_processor() -> Iterator[None]:
    """Fail a test that uses so much time of the processor; how busy the host is doesn't count."""

    def stop(sign: int, frame: FrameType | None) -> None:
        raise AssertionError(f"{PROCESSOR_SECONDS} s of the processor")

    before = signal.signal(signal.SIGVTALRM, stop)
    signal.setitimer(signal.ITIMER_VIRTUAL, PROCESSOR_SECONDS)
    yield
    signal.setitimer(signal.ITIMER_VIRTUAL, 0)
    signal.signal(signal.SIGVTALRM, before)


def constants(count: int) -> list[str]:
    """Constants, each twice the next one: to evaluate the first one takes 2^count evaluations of the last."""
    return [f".equ a{number}, a{number + 1} + a{number + 1}" for number in range(count)] + [f".equ a{count}, 1"]


def test_constants_of_later_constants(limited_processor: None) -> None:
    """Each is evaluated once: a0 is 2^40, also where its value is needed before sections have their bases."""
    program = read_source("\n".join([*constants(40), ".zero a0 >> 30", "nop", ".equ a41, 2", "li x5, a0"]))
    assert not program.mistakes and program.statements[0].address == 0x10000 + (1 << 10)
    assert read_source("\n".join([*constants(3), "one:", ".zero a0", "two: nop"])).labels["two"] == 0x10000 + 8


def test_long_constants_of_later_constants() -> None:
    lines = [f".equ a{number}, {'+'.join([f'a{number + 1}'] * 250)}" for number in range(20)]
    lines += [".equ a20, 1", *(f"b{number}: .zero a0 & 0" for number in range(20))]
    assert [each.message for each in read_source("\n".join(lines)).mistakes][-1:] == [
        "a0 takes too long to evaluate: define its constants before those that use them"
    ]


def test_missing_names_are_compared_with_few(monkeypatch: pytest.MonkeyPatch) -> None:
    compared = list[int]()

    def get_close_matches(word: str, names: list[str]) -> list[str]:
        compared.append(len(names))
        return difflib.get_close_matches(word, names)

    monkeypatch.setattr(symbols, "get_close_matches", get_close_matches)
    others = [f"q{number:03}:" for number in range(symbols.MAX_COMPARED)]
    lines = ["known_7:", *others, "j known_8", *(f"j u{number}" for number in range(150))]
    mistakes = read_source("\n".join(lines)).mistakes
    assert len(mistakes) == 100 and mistakes[0].fix == ["known_7"]
    assert len(compared) == 100 and max(compared) == symbols.MAX_COMPARED


def test_name_defined_later_is_a_fix() -> None:
    (mistake,) = read_source(".zero kount\n.equ count, 4").mistakes
    assert mistake.fix == ["count"]


@pytest.mark.parametrize("count, is_too_much", [(40, False), (41, True)])
def test_characters_of_repetitions(count: int, is_too_much: bool) -> None:
    text = f'.data\n.rept {count}\n.ascii "{"a" * (10_000 - len(".ascii") - 3)}"\n.endr'
    messages = [each.message for each in read_source(text).mistakes]
    assert messages == ["calls and repetitions make more than 400,000 characters"] * is_too_much


def test_arrays_of_inputs_have_room_together() -> None:
    text = "nop\n#> a0 = u8[1000000]\n#> a1 = u8[48576]\n#> a2 = u8[1]"
    (mistake,) = with_inputs(read_source(text), text).mistakes
    assert (mistake.line, mistake.message) == (4, "with this one, arrays are larger than the 256 pages that a user has")


def test_spaces_in_an_array(limited_processor: None) -> None:
    """The time that an array takes grows with its length, not with the square of it."""
    text = f"nop\n#> a0 = i32 1 ,{' ' * 60_000}2  ,, {' ' * 60_000}x"
    (mistake,) = with_inputs(read_source(text), text).mistakes
    assert (mistake.line, mistake.column, mistake.message) == (2, text.index("x", 4) - 3, "x is no number")
