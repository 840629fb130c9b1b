"""Exercises of other authors: files outside their folder, special and large files, and characters that control a terminal."""

import os
import pathlib
from collections.abc import Callable

import pytest

from support.commands import Lab
from vecmon_lab import LabError
from vecmon_lab.exercises.check import script_before
from vecmon_lab.exercises.exercise import read_exercise

CASES = "[[cases]]\nname = 'one'\nexpected.registers = { a0 = 1 }\n"
BY_REFERENCE = "[[cases]]\nname = 'one'\nexpected.registers = ['a0']\n"
SECRET = "the teacher's file"


@pytest.fixture
def folder(tmp_path: pathlib.Path) -> pathlib.Path:
    """A folder for an exercise, next to a file that isn't the author's."""
    (tmp_path / "secret.s").write_text(SECRET)
    (tmp_path / "exercise").mkdir()
    return tmp_path / "exercise"


def refusal(folder: pathlib.Path, text: str) -> str:
    """Why an exercise with this text is refused, without the path of its folder."""
    (folder / "exercise.toml").write_text(text, "utf-8")
    with pytest.raises(LabError) as raised:
        read_exercise(folder)
    return str(raised.value).replace(str(folder), "HERE")


@pytest.mark.parametrize("key", ["reference", "good", "start", "start_c", "lesson"])
@pytest.mark.parametrize(
    "name", ["/etc/passwd", "../secret.s", "sub/../../secret.s", "link.s", "sub/link.s", "folder/secret.s"]
)
def test_file_elsewhere_is_refused(folder: pathlib.Path, key: str, name: str) -> None:
    """By its path, by a link, by a link to a link, and by a link to a folder."""
    (folder / "sub").mkdir()
    (folder / "sub" / "link.s").symlink_to("../link.s")
    (folder / "link.s").symlink_to(folder.parent / "secret.s")
    (folder / "folder").symlink_to("..")
    text = f"title = 'One'\n{key} = '{name}'\n" + (BY_REFERENCE if key == "reference" else CASES)
    outside = f"{name} is outside the exercise's folder: copy the file into HERE"
    assert refusal(folder, text) == f"HERE/exercise.toml:2: {key}: {outside}"


def test_file_of_a_link_inside_is_taken(folder: pathlib.Path) -> None:
    """The folder itself may be named by a link, too."""
    (folder / "sources").mkdir()
    (folder / "sources" / "first.s").write_text("ret\n")
    (folder / "start.s").symlink_to("sources/first.s")
    (folder / "exercise.toml").write_text(f"start = 'start.s'\nlesson = '{folder}/sources/first.s'\n{CASES}")
    (folder.parent / "other").symlink_to(folder)
    for place in (folder, folder.parent / "other"):
        files = read_exercise(place).files
        assert files == dict.fromkeys(("start", "lesson"), place / "sources" / "first.s")


@pytest.mark.parametrize(
    "key, name, reason",
    [
        ("start", "none.s", "there is no file HERE/none.s"),
        ("start", "loop.s", "there is no file HERE/loop.s"),
        ("start", "sub", "HERE/sub is no regular file"),
        ("start", "pipe.s", "HERE/pipe.s is no regular file"),
        ("start", "large.s", "HERE/large.s has 65,537 bytes, and 65,536 is the maximum"),
        ("lesson", "large.s", "HERE/large.s has 65,537 bytes, and 65,536 is the maximum"),
        ("good", "huge.s", "HERE/huge.s has 4,194,305 bytes, and 4,194,304 is the maximum"),
        ("start", "latin.s", "HERE/latin.s is no text in UTF-8: byte 3 is 0xe9"),
        ("start", "turned.s", "it has the character U+202E, which controls how text is shown: remove the character"),
    ],
)
def test_unfit_file_is_refused(folder: pathlib.Path, key: str, name: str, reason: str) -> None:
    (folder / "sub").mkdir()
    os.mkfifo(folder / "pipe.s")
    (folder / "loop.s").symlink_to("loop.s")
    (folder / "large.s").write_bytes(b"#" * 65_537)
    os.truncate(os.open(folder / "huge.s", os.O_CREAT | os.O_RDWR), 4_194_305)
    (folder / "latin.s").write_bytes(b"# \xe9t\xe9\n")
    (folder / "turned.s").write_text("# \u202e ret\n", "utf-8")
    assert refusal(folder, f"{key} = '{name}'\n{CASES}") == f"HERE/exercise.toml:1: {key}: {reason}"


@pytest.mark.parametrize(
    "letter, number", [(r"\u001b[31m", "U+001B"), (r"\u202e", "U+202E"), (r"\u2066", "U+2066"), (r"\u009b", "U+009B")]
)
def test_controlling_characters_are_refused(folder: pathlib.Path, letter: str, number: str) -> None:
    """In a title, a text, a hint and a case's name; a line of a text that looks like the key isn't taken for it."""
    reason = f"it has the character {number}, which controls how text is shown: remove the character"
    assert refusal(folder, f'title = "a{letter}b"\n{CASES}') == f"HERE/exercise.toml:1: title: {reason}"
    hints = f'text = """\nhints = 5\n"""\n\nhints = ["One.", "Two{letter}."]\n{CASES}'
    assert refusal(folder, hints) == f"HERE/exercise.toml:5: hints: {reason}"
    assert refusal(folder, f'"text" = """\nOne.\n\tTwo{letter}."""\n{CASES}') == f"HERE/exercise.toml:1: text: {reason}"
    name = CASES.replace("'one'", f'"one{letter}"')
    assert refusal(folder, name) == f"HERE/exercise.toml: case 1: name: {reason}"


def test_large_exercise_is_refused(folder: pathlib.Path) -> None:
    assert refusal(folder, "#" * 1_048_577) == "HERE/exercise.toml has 1,048,577 bytes, and 1,048,576 is the maximum"


@pytest.mark.by_command("exercise", "grade", "class")
def test_commands_refuse_in_one_line(lab: Lab, folder: pathlib.Path) -> None:
    """No file of others is printed, no traceback, and no character that a terminal obeys."""
    start = f"title = 'One'\nstart = '../secret.s'\n{CASES}"
    title = f'title = "\\u001b]0;owned\\u0007\\u202e"\n{CASES}'
    for text, reason in ((start, "start: ../secret.s is outside"), (title, "title: it has the character U+001B")):
        (folder / "exercise.toml").write_text(text)
        (folder / "answer.s").write_text("ret\n")
        classes = ("class", folder.parent / "monday", "--port", "0", "--exercise", folder)
        for words in (("exercise", "try", folder), ("grade", folder, folder / "answer.s"), classes):
            status, output, errors = lab(*words)
            assert (status, output, errors.count("\n")) == (2, b"", 1) and reason in errors
            assert SECRET not in errors and "\x1b" not in errors and "\u202e" not in errors


def test_wrong_answers_elsewhere_are_refused(lab: Lab, folder: pathlib.Path) -> None:
    """A link to a folder of the teacher's: its files aren't read, and their names aren't printed."""
    (folder / "exercise.toml").write_text(CASES)
    (folder / "wrong").symlink_to(folder.parent)
    refused = f"vecmon-lab: {folder}/wrong is outside the exercise's folder: copy its files\n"
    assert lab("exercise", "try", folder) == (2, b"", refused)


def test_changed_lesson_is_not_read(folder: pathlib.Path) -> None:
    """The page of a lesson is made when it is opened: students see neither another file nor a path."""
    lesson = folder / "lesson.s"
    lesson.write_text("ret\n")
    (folder / "exercise.toml").write_text(f"lesson = 'lesson.s'\n{CASES}")
    exercise = read_exercise(folder)
    assert script_before(exercise).source == "lesson.s"
    changes: list[Callable[[], None]] = [
        lesson.unlink,
        lambda: lesson.symlink_to(folder.parent / "secret.s"),
        lambda: os.mkfifo(lesson),
    ]
    for change in changes:
        change()
        with pytest.raises(LabError) as raised:
            script_before(exercise)
        assert str(raised.value) == "the file of this lesson was changed or removed since the exercise was read"
        lesson.unlink(missing_ok=True)
