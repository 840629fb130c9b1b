"""The exercises of the course: their answers, right and wrong, and their lessons."""

import pathlib
import re
from random import Random

import pytest

from support.commands import Lab
from support.drawn_inputs import DRAWS, Drawn
from support.made_html import links_in, strips_in
from support.places import DOCS
from vecmon_lab.compilers.compiling import compile_c
from vecmon_lab.compilers.compiler import Compiler
from vecmon_lab.exercises.answer import ExerciseAnswer, Attempt, read_answer, ready, settled
from vecmon_lab.exercises.exercise import OURS, Results, read_exercise
from vecmon_lab.exercises.grade import grade
from vecmon_lab.exercises.named_files import FILES
from vecmon_lab.exercises.outcome import difference
from vecmon_lab.guest.guest import Guest, pokes
from vecmon_lab.machine.answers import ScalarRegisters
from vecmon_lab.tables.table import read_table

COURSE = [name for name, _ in read_table("course")]
IN_C = [path for name in COURSE for path in (OURS / name / "reference.c", OURS / name / "good.c") if path.exists()]
DRAWN = 250  # inputs of each exercise


def test_course_lists_all_exercises() -> None:
    assert sorted(COURSE) == sorted(path.parent.name for path in OURS.glob("*/exercise.toml"))
    assert COURSE == list(DRAWS)


def test_manual_lists_course() -> None:
    rows = re.findall(r"^\| `(\w+)` \| .* \| (.*) \| (\d+) \|$", (DOCS / "COURSE.md").read_text("utf-8"), re.MULTILINE)
    assert [[name, minutes] for name, _, minutes in rows] == read_table("course")
    titles = [(OURS / name / "lesson.s").read_text("utf-8").split("\n")[0].lower() for name in COURSE]
    assert [f"## {title}" for _, title, _ in rows] == titles


@pytest.mark.parametrize("name", COURSE)
def test_exercise_is_complete(program: pathlib.Path, name: str) -> None:
    """It has a text, hints, a lesson, cases, some of them hidden; a start and three or more wrong answers fail."""
    exercise = settled(program, read_exercise(pathlib.Path(name)))
    assert exercise.text and len(exercise.hints) >= 3 and set(exercise.files) == set(FILES)
    hidden = [case.is_hidden for case in exercise.cases]
    assert len(hidden) >= 4 and 1 < sum(hidden) < len(hidden) - 1
    assert not any(grade(program, exercise, exercise.files["good"]))
    too_long = list(zip(hidden, grade(program, exercise, exercise.files["reference"])))
    assert all("it takes more than" in reason for _, reason in too_long if reason)
    assert any(reason for is_hidden, reason in too_long if not is_hidden)  # an answer without vectors gets a reason
    wrong = sorted((exercise.folder / "wrong").glob("*.s"))
    assert len(wrong) >= 3
    for path in [exercise.files["start"], *wrong]:
        outcomes = grade(program, exercise, path)
        assert any(outcomes), path
        assert not any(reason.startswith(path.name) for reason in outcomes), outcomes  # it assembles


@pytest.mark.parametrize("name", COURSE)
def test_exercise_is_solvable_in_c(program: pathlib.Path, clang: Compiler, name: str) -> None:
    """The start has no mistake, and nothing to be warned of; it fails, the good answer passes, and wrong ones fail."""
    exercise = settled(program, read_exercise(pathlib.Path(name)))
    start = exercise.files["start_c"]
    compiled = compile_c(start.read_text("utf-8"), clang, 0, exercise.folder, is_answer=True)
    assert (compiled.mistakes, compiled.warnings) == ([], [])
    assert not any(grade(program, exercise, exercise.folder / "good.c", is_own=True))
    for path in (start, *exercise.folder.glob("wrong/*.c")):
        outcomes = grade(program, exercise, path, is_own=True)
        assert any(outcomes) and not any(reason.startswith(path.name) for reason in outcomes), outcomes


def leave(guest: Guest, drawn: Drawn, start: int) -> Results:
    """The values that the loaded answer, called at an address, leaves for an input."""
    written = [command for place in drawn.memory for command in pokes(place.address, place.data)]
    registers = [f"set {name} {value:x}" for name, value in drawn.registers.items()]
    guest.ask(*written, *registers, f"setpc {start:x}")
    stop = guest.go(100_000)
    assert stop and stop.kind == "ebreak", drawn
    x = guest.query("regs", ScalarRegisters).x
    found = {name: x[int(name[1:])] for name in drawn.expected.registers}
    places = [place.holding(guest.peek(place.address, len(place.data))) for place in drawn.expected.memory]
    return Results(found, places, None)


@pytest.mark.parametrize("answer", ["reference", "good"])
@pytest.mark.parametrize("name", COURSE)
def test_answers_match_exercise_text(program: pathlib.Path, name: str, answer: str) -> None:
    """For inputs made by chance, with and without vectors: as Python says."""
    check_by_chance(program, name, read_answer(read_exercise(pathlib.Path(name)).files[answer]))


@pytest.mark.parametrize("path", IN_C, ids=lambda path: f"{path.parent.name}/{path.name}")
def test_answers_in_c_match_exercise_text(program: pathlib.Path, clang: Compiler, path: pathlib.Path) -> None:
    """For the same inputs; two exercises have a reference in C as well."""
    assert sum(each.name == "reference.c" for each in IN_C) == 2
    check_by_chance(program, path.parent.name, read_answer(path, is_own=True))


def check_by_chance(program: pathlib.Path, name: str, answer: ExerciseAnswer) -> None:
    """An answer to an exercise leaves what Python says, for inputs that are always the same."""
    exercise, random = read_exercise(pathlib.Path(name)), Random(name)
    assert answer.source and answer.source.program
    with ready(program, answer, exercise, exercise.cases[0]) as guest:
        for _ in range(DRAWN):
            drawn = DRAWS[name](random)
            found = leave(guest, drawn, answer.source.program.entry)
            assert not difference(drawn.expected, Attempt(drawn.expected, found, False), drawn.registers), drawn


@pytest.mark.by_command("course")
def test_course_is_written(lab: Lab, tmp_path: pathlib.Path) -> None:
    status, output, _ = lab("course", tmp_path / "course")
    names = [*COURSE, "index"]
    assert status == 0 and [line.split(":")[0] for line in output.decode().splitlines()] == [
        f"{tmp_path}/course/{name}.html" for name in names
    ]
    for name in COURSE:
        page = (tmp_path / "course" / f"{name}.html").read_text("utf-8")
        frames = page.count('"line":"1 step')
        assert 5 < frames < 100 and '"stop":"Stopped at the ebreak at' in page, name
        assert not ('"faulted"' in page and name != "strlen")
    index = (tmp_path / "course" / "index.html").read_text("utf-8")
    assert [name for name, _ in links_in(index)] == COURSE
    strip = strips_in(index)[COURSE.index("filter")]  # of 4 7 1 8 9 2 5 6
    assert strip == [(bit, "active") for bit in "01101010"] + 8 * [("0", "tail")]


@pytest.mark.by_command("exercise")
def test_new_exercise_passes_try(lab: Lab, tmp_path: pathlib.Path) -> None:
    folder = tmp_path / "own"
    assert lab("exercise", "new", folder)[0] == 0
    status, output, _ = lab("exercise", "try", folder)
    lines = output.decode().splitlines()
    assert (status, lines[0]) == (0, "Doubles")
    assert "good.s: passes 5 cases" in lines and lines[-3].startswith("wrong/always_eight.s: passes 2 of 5 cases; ")
    assert [line for line in lines if "warning" in line] == ["warning: an answer that only returns passes: none"]
    (folder / "wrong" / "good.s").write_text((folder / "good.s").read_text())
    (folder / "good.s").write_text("ret\n")
    status, output, _ = lab("exercise", "try", folder)
    assert status == 1 and b"good.s: passes 1 of 5 cases; " in output
    assert b"wrong/good.s: passes 5 cases, and it shall fail\n" in output
    status, _, errors = lab("exercise", "new", folder)
    assert status == 2 and errors == f"vecmon-lab: {folder}: File exists; name a new folder\n"
