"""The outcome of an answer in a case: it passes, or fails for a reason. If a tool fails, there is no outcome."""

from collections.abc import Iterator, Mapping
from dataclasses import dataclass

from .. import LabError
from ..compilers.failures import ToolError
from ..instructions.table import ABI_NAMES
from ..lessons.script import RefusedStatement
from ..machine.process import Vecmon
from ..machine.program import NoProgram
from ..machine.session import OutOfStep, ProgramGone, ReplayDiffers
from .answer import ExerciseAnswer, Attempt, attempt
from .exercise import ADDRESSES, Case, Exercise, Results
from .open_case import open_reliance


@dataclass(frozen=True)
class CaseOutcome:
    """The outcome of an answer in a case.

    reason: why the answer fails, or ""; done: its results, or None if it didn't end by itself
    is_refused: whether the machine refuses an instruction of its source
    """

    reason: str
    done: Attempt | None = None
    is_refused: bool = False


def outcome(program: Vecmon, answer: ExerciseAnswer, exercise: Exercise, case: Case) -> CaseOutcome:
    """Run an answer in a case, and return the outcome.

    Raises ToolError if the machine failed, which doesn't depend on the answer.
    """
    try:
        done = attempt(program, answer, exercise, case)
    except (NoProgram, OutOfStep, ProgramGone, ReplayDiffers, ToolError) as error:
        raise ToolError(f"{error}") from error
    except LabError as error:
        return CaseOutcome(str(error), is_refused=isinstance(error, RefusedStatement))
    reason = difference(case.expected, done, case.registers)
    if done.is_long and not reason:
        limit = exercise.limits.instructions
        reason = f"the results are right, but it takes more than {limit:,} instructions: with vectors fewer will do"
    if not reason and case.policy == "ones":
        reason = open_reliance(program, answer, exercise, case)
    return CaseOutcome(reason, done)


@dataclass(frozen=True)
class WrongNumber:
    """A wrong number in the results of an answer.

    expected, before, found: the expected number, the number before the run, and the result
    where: a description of the place; register: its name, such as `x10`, or "" for memory; memory: the addresses of the number's bytes
    """

    where: str
    register: str
    memory: range
    expected: int
    before: int
    found: int


def difference(expected: Results, done: Attempt, given: Mapping[str, int]) -> str:
    """Return a text about the first place where the results differ from the expected ones; "" if there is none.

    given: the registers before the run; the text says if a wrong number is near an address in one of them
    """
    for wrong in wrong_numbers(expected, done):
        left = wrong.found
        addresses = {name: it for name, it in given.items() if min(it, left) >= ADDRESSES}
        near = next((ABI_NAMES[name] for name, it in addresses.items() if abs(left - it) < 4096), "")
        found = f"found {left}" + (f" ({left:#x}, near {near}'s address)" if near else "")
        return f"{wrong.where}: expected {wrong.expected}, {'and it was left as it was' if left == wrong.before else found}"
    if done.found.output != expected.output:
        return "output: expected {}, found {}".format(*map(_shown, (expected.output, done.found.output)))
    return ""


def wrong_numbers(expected: Results, done: Attempt) -> Iterator[WrongNumber]:
    """Yield the numbers in the results that differ from the expected ones, registers first."""
    for name in expected.registers:
        values = (each.registers[name] for each in (expected, done.before, done.found))
        value, old, left = (each - (each >> 63 << 64) for each in values)
        if left != value:
            yield WrongNumber(ABI_NAMES[name], name, range(0), value, old, left)
    for place, *others in zip(expected.memory, done.before.memory, done.found.memory):
        size = len(place.data) // len(place.numbers)
        for number, (value, old, left) in enumerate(zip(place.numbers, *(each.numbers for each in others))):
            address = place.address + number * size
            if left != value:
                where = f"element {number}, {place.type} at {address:#x}"
                yield WrongNumber(where, "", range(address, address + size), value, old, left)


def _shown(output: bytes | None) -> str:
    """Return the beginning of an output, in quotes."""
    return repr((output or b"").decode("utf-8", "replace"))[:60]
