"""exercise.toml of an author who means harm: it takes little time and memory, and is refused in one line."""

import pathlib

import pytest

from support.commands import Lab
from vecmon_lab import LabError
from vecmon_lab.exercises.exercise import read_exercise

CASES = "[[cases]]\nexpected.registers = { a0 = 1 }\n"
HEX = "0x" + "f" * 5_000  # Python refuses to print a number with this many digits
LONG = "a number of more than 4,300 digits"
FOUND = {
    "[" * 3_000 + "]" * 3_000: "lists or tables are nested too deeply",
    "{a=" * 3_000 + "1" + "}" * 3_000: "lists or tables are nested too deeply",
    "9" * 5_000: "a number has more than 4,300 digits",
}
IN_CASE = {
    f"expected.registers = {{ a0 = {HEX} }}": f"a0 is {LONG}, which is no whole number of 64 bits",
    f"expected.memory = [{{ at = {HEX}, u8 = [1] }}]": f"{LONG} is no address of a place in memory, which is below 2^48",
    f"expected.memory = [{{ at = 1, u8 = [{HEX}] }}]": f"the place at 0x1: {LONG} is no u8",
    r'policy = "ones\nvecmon-lab: fine"': "policy is keep or ones, and not ones?vecmon-lab: fine",
    r'expected.registers = { "a\nb" = 1 }': "a?b is no register that can be set, which are ra to t6 or x1 to x31",
    r'expected.memory = [{ at = "a\nb" }]': "a?b is no address of a place in memory, which is below 2^48",
    f"{'k' * 1_000} = 1": f"there is nothing that is called {'k' * 200}...",
}


def refusal(folder: pathlib.Path, text: str) -> str:
    """Why an exercise with this text is refused, without the path of its file."""
    (folder / "exercise.toml").write_text(text, "utf-8")
    with pytest.raises(LabError) as raised:
        read_exercise(folder)
    return str(raised.value).removeprefix(f"{folder / 'exercise.toml'}:").strip()


@pytest.mark.parametrize("value", FOUND, ids=[*map(str, range(len(FOUND)))])
def test_value_that_the_parser_cannot_take(tmp_path: pathlib.Path, value: str) -> None:
    assert refusal(tmp_path, f"title = {value}\n{CASES}") == FOUND[value]


@pytest.mark.parametrize("line", IN_CASE, ids=[*map(str, range(len(IN_CASE)))])
def test_value_is_shown_in_one_short_line(tmp_path: pathlib.Path, line: str) -> None:
    assert refusal(tmp_path, f"[[cases]]\n{line}\n").replace("case 1: ", "") == IN_CASE[line]


@pytest.mark.parametrize("part", ["a", "'a'", '"a b" '])
def test_long_key_is_refused(tmp_path: pathlib.Path, part: str) -> None:
    """The parser of a key of 20,000 parts takes gigabytes. Dots in texts are no key's."""
    assert refusal(tmp_path, ".".join([part] * 20_000) + " = 1\n") == "1: a key has more than 32 parts"
    text = f"text = 'Contents {'.' * 50} 5. a. b'\n{CASES}"
    (tmp_path / "exercise.toml").write_text(text)
    assert read_exercise(tmp_path).text.endswith(". 5. a. b")


def test_many_cases_and_places_are_refused(tmp_path: pathlib.Path) -> None:
    assert refusal(tmp_path, CASES * 1_001) == "there are 1,001 cases, and 1,000 is the maximum"
    place = "{ at = 0x10000, u8 = 1_048_576 }"
    first = f"reference = 'r.s'\n[[cases]]\nexpected.memory = [{place}, {place}]\n"
    assert refusal(tmp_path, first) == "case 1: its places have more than 1,048,576 bytes together"
    many = "reference = 'r.s'\n" + f"[[cases]]\nexpected.memory = [{place}]\n" * 17
    assert refusal(tmp_path, many) == "case 17: places of the cases have more than 16,777,216 bytes together"


@pytest.mark.parametrize("key", ["ticks", "instructions"])
def test_endless_case_is_refused(tmp_path: pathlib.Path, key: str) -> None:
    """A reference that never ends would run for centuries."""
    reason = f"limits: {key} are 100,000,000 at most"
    for number in (100_000_001, 2**63 - 1, HEX):
        assert refusal(tmp_path, f"limits.{key} = {number}\n{CASES}") == reason
    (tmp_path / "exercise.toml").write_text(f"limits.{key} = 100_000_000\n{CASES}")
    assert getattr(read_exercise(tmp_path).limits, key) == 100_000_000


def test_byte_order_mark_is_ignored(tmp_path: pathlib.Path) -> None:
    (tmp_path / "exercise.toml").write_bytes(b"\xef\xbb\xbf" + f"title = 'One'\n{CASES}".encode())
    assert read_exercise(tmp_path).title == "One"


def test_refusal_is_one_line_of_the_command(lab: Lab, tmp_path: pathlib.Path) -> None:
    (tmp_path / "exercise.toml").write_text('"a\\nvecmon-lab: all answers pass" = 1\n' + CASES)
    expected = f"vecmon-lab: {tmp_path}/exercise.toml: there is nothing that is called a?vecmon-lab: all answers pass\n"
    assert lab("exercise", "try", tmp_path) == (2, b"", expected)
