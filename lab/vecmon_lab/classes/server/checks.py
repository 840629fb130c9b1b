"""The exercises of a class. Answers are checked in separate processes, and saved in these files:

exercises.json: the folder of each exercise that students have, by its name
offered.json: the folders of all exercises that the teacher may turn on, in their order; version 1.0 wrote none of the course
answers/A3.doubles.2.json: the second answer of seat A3 to `doubles`: its time, its text and the suffix of its language, and
the result of its check
checking/A3.json: the answer of seat A3 that is being checked. If the server ends meanwhile, the next one checks it again.
"""

import asyncio
import json
import pathlib
import pickle
import re
import sys
import time
from collections.abc import Callable, Iterable, Iterator, Mapping, Sequence
from operator import itemgetter
from typing import TypedDict

from ... import LabError
from ...assembler.source import SourceError
from ...compilers.compiled import CompiledProgram
from ...compilers.failures import ToolError
from ...exercises.answer import settled
from ...exercises.check import CheckResult, failed_check, passes_all
from ...exercises.exercise import OURS, Exercise, read_exercise, with_course
from ...exercises.answer_cost import AnswerCost
from .worker_pool import WorkerPool
from .builds import Builds
from .stored_files import attempt, pending_check, texts
from ..core.languages import SourceText
from ..core.names import local_time
from ..core.bad_request import BadRequest
from .folder_lock import BadFolder
from .store import Store
from ..core.progress import MAX_TRIES, Exercises, PendingCheck, SeatResult, Try, source_of, starts_of
from ...tables.table import read_table

EXERCISES, OFFERED, ANSWERS, CHECKING = "exercises.json", "offered.json", "answers", "checking"
LOST = "this answer is lost, and counts as a try in which nothing passes"
WITHOUT = "the class has no exercises but those that --exercise and --course name"
_COURSE = dict(read_table("course"))
PLACES, SECONDS = 16, 60.0  # checks at once; the time limit of a check once it has started, enough on a busy host
RUNS = 2  # the number of runs of a check that fails on the server's side

ExerciseTable = TypedDict("ExerciseTable", {"title": str, "of": int, "seats": dict[str, SeatResult]})


class OfferedExercise(TypedDict):
    """An exercise that the teacher may turn on.

    minutes: the approximate time that it takes; 0 if that is unknown
    on: whether students have it
    """

    name: str
    title: str
    minutes: int
    on: bool


class Checks:
    """The checks of a class. `exercises` has its exercises, and each seat's progress."""

    def __init__(
        self, store: Store, folders: Iterable[pathlib.Path], notify: Callable[[Iterable[str]], object], builds: Builds
    ) -> None:
        """folders: folders of exercises, or names of exercises of the course; without any, the class has the exercises that it had before

        notify: is called with the names of seats that have news. Raises LabError and OSError for a bad exercise.
        """
        self._store, self._notify, self._workers, self._builds = store, notify, WorkerPool(PLACES, SECONDS), builds
        stored, chosen = [pathlib.Path(path) for path in store.texts.read(EXERCISES, texts, WITHOUT).values()], list(
            folders
        )
        self._offered: dict[str, Exercise] = {}
        self._settled: dict[str, Exercise] = {}  # with expected results: the exercises that students have or had
        for folder in chosen or stored:
            exercise = read_exercise(folder)
            name = exercise.folder.name
            if not re.fullmatch(r"[\w-]{1,40}", name, re.ASCII) or name in self._offered:
                raise BadFolder(f"{folder}: an exercise has a name of its own: 1 to 40 letters, digits, _ and -")
            self._offered[name] = exercise
        before = [path.name for path in stored]
        if chosen and stored and {*self._offered} != {*before}:
            names = ", ".join(before)
            store.damage.report(f"the choice of exercises ({names}) is lost, since --exercise and --course replace it")
        found = self._settle([*self._offered])  # so that a mistake is reported now
        self._offer_others(keeps_order=not chosen)
        self.exercises = Exercises(found, {name: starts_of(exercise) for name, exercise in found.items()})
        self.exercises.titles |= {name: each.title for name, each in self._offered.items()}
        self.exercises.known.update(before)  # pages that stayed open may still send a draft of one of them
        if found:
            self._save_choice()
        self._tasks: set[asyncio.Task[None]] = set()
        self._unsaved: dict[str, Try] = {}
        self._lessons: dict[str, bytes] = {}  # the lessons before exercises, by the exercise's name
        self._good: dict[str, AnswerCost] = {}  # the instructions and work of good answers, if known
        self._making, self._choosing = asyncio.Lock(), asyncio.Lock()
        for seat, name, number, done in sorted(found_answers(store), key=itemgetter(0, 1, 2)):
            progress = self.exercises.progress(seat, name)
            while len(progress.tries) < number - 1:
                progress.add(attempt())  # in place of a lost try, so that later tries keep their numbers
            self.exercises.restore(seat, name, done)

    def begin(self, seat: str, name: str, source: SourceText) -> None:
        """Start to check an answer.

        Raises BadRequest if students don't have the exercise, if a check of the seat is under way, if the seat has no more tries, or if
        the source is in C and there is no compiler.
        """
        self.exercises.exercise(name)
        if source.choice is not None and self._builds.no_c:
            raise BadRequest(f"this class takes no C: {self._builds.no_c}")
        self.exercises.check_may_start(seat, name)
        number = len(self.exercises.progress(seat, name).tries) + 1
        pending = PendingCheck(exercise=name, number=number, text=source.text, language=source.language)
        self._store.texts.write(_pending_file(seat), pending)
        self.exercises.busy[seat] = name
        task = asyncio.get_running_loop().create_task(self._check(seat, name, source))
        self._tasks.add(task)
        task.add_done_callback(self._tasks.discard)
        self._notify([seat])

    def resume(self) -> None:
        """Start the checks again that were under way when the last server ended. Called in a running event loop.

        A check is dropped if its try is saved already, if its exercise is turned off, or if it needs a compiler that is missing.
        """
        for file, _ in list(self._store.texts.files(f"{CHECKING}/*.json")):
            seat, pending = pathlib.PurePath(file).stem, self._store.texts.read(
                file, pending_check, "this check is lost"
            )
            name, source = pending["exercise"], SourceText(pending["text"], pending["language"])
            is_seat = re.fullmatch("[A-L][1-8]", seat) and seat[0] in self._store.machines
            try:
                if not is_seat or len(self.exercises.progress(seat, name).tries) >= pending["number"]:
                    raise BadRequest("nothing is left to check")
                self.begin(seat, name, source)
            except BadRequest:
                self._store.texts.remove(file)

    async def choose(self, names: Sequence[str]) -> None:
        """Set the exercises that students have, in this order. Raises BadRequest if an exercise is bad or isn't offered."""
        if unknown := [name for name in names if name not in self._offered]:
            raise BadRequest(f"this class offers no exercise '{unknown[0]}'")
        async with self._choosing:
            try:
                missing = [name for name in names if name not in self._settled]
                self._settled |= zip(missing, await asyncio.gather(*map(self._settle_apart, missing)))
                found = self._settle(names)
                self.exercises.choose(found, {name: starts_of(exercise) for name, exercise in found.items()})
            except (LabError, OSError) as error:
                raise BadRequest(f"{error}") from error
        self._save_choice()

    def offered(self) -> list[OfferedExercise]:
        """Return the exercises that the teacher may turn on, first those with which the class was started.

        Their order doesn't change while the class runs.
        """
        on = self.exercises.by_name
        return [
            {"name": name, "title": exercise.title, "minutes": self._minutes(name), "on": name in on}
            for name, exercise in self._offered.items()
        ]

    async def lesson(self, ticket: str) -> bytes:
        """Return a lesson as a page in HTML. Raises LabError if there is no such lesson, or if it can't be made now.

        ticket: the ticket of a lesson on an answer; or the name of an exercise, for the lesson before it
        """
        exercise, busy = self.exercises.by_name.get(ticket), self.exercises.busy
        if exercise and "lesson" in exercise.files:
            async with self._making:
                if ticket not in self._lessons:
                    self._lessons[ticket] = await self._run(ticket, "before")
            return self._lessons[ticket]
        if (answered := self.exercises.answered(ticket)) is None:
            raise LabError("there is no such lesson, or not any more: check once more")
        seat, name, progress = answered
        if seat in busy:
            raise LabError("a check of this seat is under way")
        busy[seat] = ""
        try:
            compiled = await self._compiled(seat, progress.source)
            return await self._run(name, str(progress.last_result["number"]), progress.source.text, compiled)
        finally:
            del busy[seat]

    def try_of(self, seat: str, name: str, number: int) -> Try:
        """Return a try of a seat at an exercise; the first has number 1. Raises BadRequest."""
        if not 1 <= number <= len(self.exercises.progress(seat, name).tries):
            raise BadRequest("there is no such answer")
        file = _file(seat, name, number)
        done = self._unsaved.get(file) or self._store.texts.read(file, attempt, LOST)
        return self.exercises.with_case_names(name, done)

    def save(self) -> None:
        """Save tries that couldn't be saved before."""
        for file in [file for file, done in self._unsaved.items() if self._store.texts.write(file, done)]:
            del self._unsaved[file]

    def table(self) -> dict[str, ExerciseTable]:
        """Return the results for the teacher: for each exercise, by name, the seats that have tried it.

        An exercise that is off is in the table only if a seat has tried it.
        """
        tables = {}
        for name in dict.fromkeys([*self.exercises.by_name, *self._offered]):
            exercise = self._offered[name]
            results = {seat: progress.result() for seat, progress in self.exercises.of(name).items()}
            if results or name in self.exercises.by_name:
                tables[name] = ExerciseTable(title=exercise.title, of=len(exercise.cases), seats=results)
        return tables

    def rows(self, names: Mapping[str, str]) -> Iterator[Sequence[object]]:
        """Return the rows of the table of results, the headings first. names: the names of students, by seat"""
        yield "seat", "name", "exercise", "tries", "passed at try", "cases passed", "of", "time"
        for name, exercise in self.table().items():
            for seat, it in sorted(exercise["seats"].items()):
                passed, when = it["passed"] or "", local_time(it["time"])
                yield seat, names.get(seat, ""), name, it["tries"], passed, it["best"], exercise["of"], when

    def _settle(self, names: Sequence[str]) -> dict[str, Exercise]:
        """Return the exercises of these names with their expected results. Raises LabError."""
        for name in names:
            if name not in self._settled:
                self._settled[name] = settled(self._store.program, self._offered[name])
        return {name: self._settled[name] for name in names}

    async def _settle_apart(self, name: str) -> Exercise:
        """Return an exercise with its expected results, which a separate process determines. Raises LabError."""
        given = pickle.dumps((self._offered[name], "", None, None))
        found = await self._workers.run("exercises.check", str(self._store.program), "settle", script=given)
        exercise: Exercise = pickle.loads(found)
        return exercise

    def _minutes(self, name: str) -> int:
        """Return the minutes that an exercise of the course takes; 0 for other exercises."""
        return int(_COURSE.get(name, 0)) if self._offered[name].folder.parent == OURS else 0

    def _offer_others(self, keeps_order: bool) -> None:
        """Also offer the exercises that were offered before, and those of the course. Unreadable ones are reported as lost.

        keeps_order: whether to sort all exercises in the saved order
        """
        stored = self._store.texts.read(OFFERED, texts, "exercises that were off aren't offered any more")
        for folder in [*map(pathlib.Path, stored.values()), *with_course([])]:
            if folder.name in self._offered:
                continue
            try:
                self._offered[folder.name] = read_exercise(folder)
            except (LabError, OSError) as error:
                self._store.damage.report(f"the exercise {folder.name} isn't offered any more: {error}")
        if keeps_order:
            names = dict.fromkeys([*stored, *self._offered])
            self._offered = {name: self._offered[name] for name in names if name in self._offered}

    def _save_choice(self) -> None:
        """Save which exercises students have, and which others are offered."""
        self._store.texts.write(EXERCISES, {name: str(each.folder) for name, each in self.exercises.by_name.items()})
        self._store.texts.write(OFFERED, {name: str(each.folder) for name, each in self._offered.items()})

    async def _check(self, seat: str, name: str, source: SourceText) -> None:
        """Check an answer, save it if it counts as a try, and wake the tabs."""
        try:
            result = await self._check_result(seat, name, source)
        finally:
            del self.exercises.busy[seat]
        if "failure" in result:
            print(f"vecmon-lab: a check of {name} of seat {seat} failed: {result['failure']}", file=sys.stderr)
        if "good" in result:
            self._good[name] = result["good"]
        done = Try(time=int(time.time()), text=source.text, suffix=source.suffix, told=result)
        if self.exercises.take(seat, name, done):
            self._unsaved[_file(seat, name, len(self.exercises.progress(seat, name).tries))] = done
            self.save()
        self._store.texts.remove(_pending_file(seat))
        self._notify([seat])

    async def _check_result(self, seat: str, name: str, source: SourceText) -> CheckResult:
        """Return the result of a check. If it fails on the server's side, it runs once more; a second failure is the result."""
        cause = ""
        for _ in range(RUNS):
            try:
                compiled = await self._compiled(seat, source)
                result: CheckResult = json.loads(await self._run(name, "check", source.text, compiled))
                return result
            except (LabError, OSError, ValueError) as error:
                cause = f"{error}" or type(error).__name__
        return failed_check(cause)

    async def _compiled(self, seat: str, source: SourceText) -> CompiledProgram | None:
        """Compile a seat's source in C; return its program, or None for a source in assembler. Raises ToolError if a tool fails.

        If the compiler refuses the source, the program has a mistake that says so.
        """
        if source.choice is None:
            return None
        try:
            return await self._builds.compile(seat, source.text, source.choice, is_answer=True)
        except ToolError:
            raise
        except LabError as error:
            return CompiledProgram([], {}, [], 0, [SourceError(0, 0, f"{error}")])

    async def _run(self, name: str, what: str, text: str = "", compiled: CompiledProgram | None = None) -> bytes:
        """Return the output of a process that checks a text, or makes a lesson. what: the request in `exercises/check.py`. Raises LabError."""
        given = pickle.dumps((self._settled[name], text, compiled, self._good.get(name)))
        return await self._workers.run("exercises.check", str(self._store.program), what, script=given)


def kept_answers(store: Store, seat: str) -> dict[str, SourceText]:
    """Return a seat's saved answers by exercise: for each exercise the last answer that passed, or if none passed, the last one."""
    answers, passed = dict[str, SourceText](), set[str]()
    for of, name, _, done in sorted(found_answers(store), key=itemgetter(0, 1, 2)):
        cases, is_passed = done["told"].get("cases", []), passes_all(done["told"])
        if cases and of == seat and (is_passed or name not in passed):
            answers[name] = source_of(done)
            passed |= {name} if is_passed else set()
    return answers


def found_answers(store: Store) -> Iterator[tuple[str, str, int, Try]]:
    """Return the saved tries, each with its seat, its exercise and its number."""
    for path in (store.folder / ANSWERS).glob("*.json"):
        parts = re.fullmatch(r"([A-L][1-8])\.([\w-]+)\.([1-9]\d{0,3})\.json", path.name, re.ASCII)
        if parts and int(parts[3]) <= MAX_TRIES:
            yield parts[1], parts[2], int(parts[3]), store.texts.read(f"{ANSWERS}/{path.name}", attempt, LOST)


def _file(seat: str, name: str, number: int) -> str:
    return f"{ANSWERS}/{seat}.{name}.{number}.json"


def _pending_file(seat: str) -> str:
    return f"{CHECKING}/{seat}.json"
