"""Write the exercises of the course for a page: `python3 -m vecmon_lab.playground.exercises VECMON PICKLE FOLDER`.

The program VECMON calculates the expected results of answers. The file PICKLE gets the exercises and the sources with which one can start
them, by name. The folder FOLDER gets a file for each lesson, which the page has in /lessons.
"""

import pathlib
import pickle
import sys
from dataclasses import replace

from ..classes.core.progress import starts_of
from ..exercises.answer import settled
from ..exercises.exercise import Exercise, read_exercise, with_course

LESSONS = pathlib.Path("/lessons")


def write_exercises(program: pathlib.Path, out: pathlib.Path, folder: pathlib.Path) -> None:
    """Write the pickle `out`, and the lessons' files into `folder`. program: vecmon. Raises LabError."""
    folder.mkdir(parents=True, exist_ok=True)
    exercises, starts = dict[str, Exercise](), {}
    for home in with_course([]):
        exercise = settled(program, read_exercise(home))
        lesson = exercise.files["lesson"]
        (folder / f"{home.name}{lesson.suffix}").write_bytes(lesson.read_bytes())
        files = {"lesson": LESSONS / f"{home.name}{lesson.suffix}"}
        exercises[home.name] = replace(exercise, files=files, folder=LESSONS)
        starts[home.name] = starts_of(exercise)
    out.write_bytes(pickle.dumps({"exercises": exercises, "starts": starts}, 4))


if __name__ == "__main__":
    write_exercises(*map(pathlib.Path, sys.argv[1:4]))
