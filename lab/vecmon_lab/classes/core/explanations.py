"""Explanations of a seat's last instruction: why a register has its value, and which registers and memory the instruction used."""

from functools import partial

from ... import LabError
from ...guest.changes import Retired
from ...guest.guest import Guest
from ...machine.answers import Stop, read
from ...meanings.calculation import Notation
from ...meanings.stepped import explanation_of
from ...meanings.why import NO_STEP, read_name
from ...page.state import State, registers_of
from .bad_request import BadRequest
from .last_run import Run, state_before
from .seats import Seat
from .shared_machine import SharedMachine
from .steps import Steps, TakeSeat, Turn, WorkApart

NO_RUN = "the state before the last instruction can't be found: step the program, or run it again"


def why(machine: SharedMachine, seat: Seat, name: str, notation: Notation) -> Steps[str]:
    """Return an explanation of why a register or an element has its value after a seat's last single step.

    name: the register or element, such as `x5` or `v8[5]`; notation: the notation of numbers and registers in the explanation
    Raises BadRequest if the last line wasn't a single step, or if there is no such register or element.
    """
    if seat.before_step is None:
        raise BadRequest(NO_STEP)
    found = list[str]()
    yield Turn(lambda turn: found.append(_why(machine, seat, seat.before_step or seat.state, name, notation)))
    return found[0]


def _why(machine: SharedMachine, seat: Seat, before: State, name: str, notation: Notation) -> str:
    """Return the explanation that `why` returns. Called in a turn at the machine. before: the state before the step"""
    line = before["code"].get(before["pc"], "00000000 ")
    stop = read([f"{seat.digit} {seat.execution.stop}"]) if seat.execution.stop else None
    own = stop if isinstance(stop, Stop) and f"{stop.pc:x}" == before["pc"] else None
    retired = Retired(int(before["pc"], 16), int(line[:8], 16), line[9:], [], own)
    try:
        guest = Guest(machine.session, int(seat.digit))
        explanation = explanation_of(guest, registers_of(before), registers_of(seat.state).control, retired)
        return explanation.why(*read_name(name)).of.text(notation)
    except LabError as error:
        raise BadRequest(str(error)) from error


def complete_last_instruction(machine: SharedMachine, seat: Seat) -> Steps[None]:
    """Add to a seat's state what its last instruction read and accessed, after a run or several steps.

    Raises BadRequest if the state before that instruction can't be found.
    """
    yield TakeSeat()
    state, runs, before = seat.state, list[Run | None](), list[State | None]()
    if seat.before_step is not None:
        return
    if "instruction" not in state or not machine.last_runs.has(seat.digit):
        raise BadRequest(NO_RUN)
    yield Turn(lambda turn: runs.append(machine.last_runs.run(seat.digit, machine.session)))
    if (run := runs[0]) is None:
        raise BadRequest(NO_RUN)
    find = partial(state_before, run, seat.digit, int(state["instruction"], 16))
    yield WorkApart(lambda: before.append(find()))
    if before[0] is None or seat.state is not state:
        raise BadRequest(NO_RUN)
    seat.complete_last_instruction(before[0])
