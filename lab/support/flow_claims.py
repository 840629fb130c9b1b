"""Compare what the flow analysis says of vtype, vl and illegal instructions with the machine, instruction by instruction."""

import pathlib
from collections.abc import Iterator, Sequence
from dataclasses import dataclass, field

from vecmon_lab.assembler.trial import Trial
from vecmon_lab.guest.vector_flow import VectorState
from vecmon_lab.language.analysis import Analysis
from vecmon_lab.machine.answers import ControlRegisters, Position, Stop, read
from vecmon_lab.machine.session import TOGETHER, Session

STEPS = 2_000  # of a program that are compared, at most
_ILLEGAL = 2  # the cause of a fault


@dataclass
class Tally:
    """The sums of a comparison.

    executed: instructions; types, lengths: claims about vtype and vl that were compared; single: those with one type
    illegal: instructions that were claimed to be illegal, and are; missed: illegal ones without a claim, though the type is known
    wrong: the claims that don't hold
    """

    programs: int = 0
    executed: int = 0
    types: int = 0
    single: int = 0
    lengths: int = 0
    illegal: int = 0
    missed: list[str] = field(default_factory=list)
    wrong: list[str] = field(default_factory=list)

    def __str__(self) -> str:
        return (
            f"{self.programs:,} programs, {self.executed:,} instructions: {self.types:,} claims about vtype,"
            f" {self.single:,} of them of one type, {self.lengths:,} about vl, {self.illegal:,} illegal instructions;"
            f" {len(self.missed):,} missed, {len(self.wrong):,} wrong"
        )

    def add(self, other: "Tally") -> None:
        """Take in the sums of another comparison."""
        for name, value in vars(other).items():
            setattr(self, name, getattr(self, name) + value)


def executed(session: Session, start: int, steps: int) -> Iterator[tuple[int, ControlRegisters, Stop | None]]:
    """Each instruction's address, the vector state before it, and the stop that it ended with.

    An illegal instruction is skipped, as a handler of traps may do. session: with a program of user 1 that is stopped at its start
    """
    pc, control = start, read(session.do("1 vcsr"))
    while steps > 0:
        answers = session.do_all(["1 step 1", "1 vcsr"] * (TOGETHER // 2))
        for step, look in zip(map(read, answers[::2]), map(read, answers[1::2])):
            assert isinstance(step, Position | Stop) and isinstance(control, ControlRegisters)
            stop, steps = step if isinstance(step, Stop) else None, steps - 1
            yield pc, control, stop
            pc, control = step.pc, look
            if stop and is_illegal(stop):
                pc += 4
                session.do(f"1 setpc {pc:x}")
                break
            if stop:
                return


def is_illegal(stop: Stop | None) -> bool:
    """Whether a stop is at an illegal instruction."""
    return stop is not None and (stop.kind, stop.cause) == ("fault", _ILLEGAL)


def check_state(tally: Tally, state: VectorState, control: ControlRegisters, where: str) -> None:
    """Compare what is said of a place with the machine there."""
    if state.types is not None:
        tally.types += 1
        tally.single += state.vtype is not None
        if control.vtype not in state.types:
            tally.wrong.append(
                f"{where}: vtype is {control.vtype:x}, not {' or '.join(f'{it:x}' for it in state.types)}"
            )
    if state.vl is not None:
        tally.lengths += 1
        if control.vl != state.vl:
            tally.wrong.append(f"{where}: vl is {control.vl}, not {state.vl}")


def check_source(text: str, trial: Trial, program: pathlib.Path, name: str, steps: int = STEPS) -> Tally:
    """Compare the claims about a source, which the machine executes for some steps. One with mistakes isn't executed."""
    tally, analysis = Tally(), Analysis(text, trial)
    if analysis.program.mistakes or not analysis.program.statements:
        return tally
    tally.programs = 1
    claimed = {each.statement.address for each in analysis.illegal}
    set_up = [command for _, command in analysis.program.set_up]
    lines = [f"1 {each}" for each in ("enter", *analysis.program.load_lines(), *set_up)]
    numbers = {statement.address: statement.line for statement in analysis.program.statements}
    with Session(program) as session:
        for at in range(0, len(lines), TOGETHER):
            session.do_all(lines[at : at + TOGETHER])
        for pc, control, stop in executed(session, analysis.program.entry, steps):
            where, state = f"{name}:{numbers.get(pc, 0)}", analysis.flow.states.get(pc)
            tally.executed += 1
            if state is None and pc in numbers:
                tally.wrong.append(f"{where}: it is executed, and not reached by any way")
            if state is not None:
                check_state(tally, state, control, where)
            if pc in claimed and not is_illegal(stop):
                tally.wrong.append(f"{where}: it isn't illegal")
            if is_illegal(stop) and pc in numbers:
                tally.illegal += pc in claimed
                is_known = state is not None and state.vtype is not None
                tally.missed += [where] if pc not in claimed and is_known and not control.vstart else []
            if is_illegal(stop) and pc + 4 not in analysis.flow.states:  # as after a word that is no instruction at all
                break
    return tally


def total(tallies: Sequence[Tally]) -> Tally:
    """The sums of several comparisons."""
    result = Tally()
    for tally in tallies:
        result.add(tally)
    return result
