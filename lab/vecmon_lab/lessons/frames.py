"""The frames of a lesson: the answers to the lines of a script, and each user's state after them."""

import html
import pathlib
from collections.abc import Mapping, Sequence
from contextlib import suppress
from dataclasses import dataclass, field, replace

from .. import LabError
from ..assembler.commands import log_entries
from ..assembler.source import LineType
from ..compilers.compiled import CompiledProgram, variable_rows
from ..guest.guest import Guest
from ..guest.notebook import registers_html
from ..instructions.accesses import REGISTER_BYTES
from ..language.line_types import line_types
from ..machine.answers import Answer, Position, Refused, Word, answers_by_user, read
from ..machine.lines import DIGITS, BadLine, is_look, words_of
from ..machine.process import Vecmon
from ..machine.session import Session
from ..page.state import ABSENT, VisibleRows, WatchSet, State, add_executed, look_at, registers_of, with_rows
from .script import Script, Step, refused_statement
from .used_registers import UseCounter, UsedRegisters

MAX_NAMED = 40  # rows of memory with variables of a C source that are always shown


@dataclass(frozen=True)
class Frame:
    """The content of one view of a lesson.

    user: the digit of the user whose state is shown
    line: the command; more: the number of further lines
    note: the author's comment
    log: entries that begin with their kind: `>` a line, `<` or `*` a line of its answer (`log_entries`), `!` the reason why a line wasn't sent
    states: the state of each user after the lines, by the user's digit
    used: the registers that the whole lesson uses, by the user's digit
    types: the vector types at the lines of the lesson's assembler source
    """

    user: str
    line: str
    more: int
    note: str
    log: list[str]
    states: dict[str, State]
    used: Mapping[str, UsedRegisters] = field(default_factory=dict)
    types: Sequence[LineType] = ()

    def _repr_html_(self) -> str:
        """Return the note, the line, its answers, and the user's registers as a notebook shows them."""
        state, registers = self.states.get(self.user, ABSENT), ""
        if "x" in state:
            held = registers_of(state)
            vectors = [bytes(held.v[at : at + REGISTER_BYTES]) for at in range(0, len(held.v), REGISTER_BYTES)]
            registers = registers_html(int(state["pc"], 16), held.x, held.control, vectors)
        note, line, log = (html.escape(text) for text in (self.note, self.line, "\n".join(self.log)))
        return f"<p>{note}</p><p><b>{line}</b></p><pre>{log}</pre>{registers}"


def make_frames(
    script: Script, program: Vecmon, images: Mapping[str, pathlib.Path] = {}, quantum: int | None = None
) -> list[Frame]:
    """Return the frames of a script. Raises LabError if it has no lines, or if the program can't run or refuses a source."""
    if not script.steps:
        raise LabError("a lesson has a line at least, and this one has none")
    with Session(program, images, quantum=quantum) as whole, Session(program, images, quantum=quantum) as single:
        maker = _Maker(script, whole, single)
        for step in script.steps:
            maker.add(step)
    return maker.finish()


class _Maker:
    """Executes the script on two machines.

    The first machine executes the lines as they are, and the lesson shows its answers. If a line steps several instructions, the second
    machine steps them one at a time. The states in the frames are those of the second machine.
    """

    def __init__(self, script: Script, whole: Session, single: Session) -> None:
        self._script, self._whole, self._single = script, whole, single
        self._watch_sets: dict[str, WatchSet] = {}
        self._uses: dict[str, UseCounter] = {}
        self._states: dict[str, State] = {}
        self._frames: list[Frame] = []
        self._words: dict[int, int] = {}  # words of the source's instructions, by address

    def add(self, step: Step) -> None:
        """Execute a step, and add its frame. If the step's first line steps several instructions, add a frame for each instruction."""
        log, answers, states = list[str](), list[tuple[str, Answer]](), self._states.copy()
        for line in step.lines:
            self._execute(line, log, answers)
        number = _steps(step, answers)
        if number:
            self._step_singly(step, number, log, answers)
            return
        for line in step.lines:
            if not is_look(line):
                with suppress(BadLine):
                    self._single.do(line)
        self._look(step.lines, answers)
        self._count_run(states)
        before = self._frames[-1].user if self._frames else "1"
        user = next((entry[1] for entry in log if entry[1:2] in self._watch_sets), before)
        self._add_frame(step, user, log, step.note)

    def _execute(self, line: str, log: list[str], answers: list[tuple[str, Answer]]) -> None:
        """Execute a line on the first machine. Append the line and its answer to `log`, and each part of the answer, with its user, to `answers`."""
        log.append(f">{line}")
        try:
            parts = self._whole.do(line)
        except BadLine as error:
            log.append(f"!Not sent: {error}.")
            return
        answer = read(parts)
        if line in self._script.statements and isinstance(answer, Refused):
            raise refused_statement(self._script, line, answer)
        if line in self._script.statements and isinstance(answer, Word):
            self._words[self._script.statements[line].address] = answer.word
        if line[0] in DIGITS:
            watch_set, uses = self._watch_sets.setdefault(line[0], WatchSet()), self._uses.setdefault(
                line[0], UseCounter()
            )
            if not isinstance(answer, Refused):
                watch_set.follow(line)
                watch_set.end = self._script.program.end if self._script.program else 0
                uses.follow(line)
        log += log_entries(line, parts)
        answers += answers_by_user(parts)

    def _step_singly(self, step: Step, number: int, log: list[str], answers: Sequence[tuple[str, Answer]]) -> None:
        """Step the line's instructions on the second machine, and add a frame for each.

        The machine stops after `number` instructions, at a stop, or at a breakpoint after the first instruction. Raises LabError if the two
        machines differ then.
        """
        line, user = step.lines[0], step.lines[0][0]
        for place in range(1, number + 1):
            state, part = self._states[user], answers_by_user(self._single.do(f"{user} step 1"))
            executed = state["code"].get(state["pc"], "")
            self._uses[user].execute(executed, state)
            ends = not isinstance(part[0][1], Position) or place == number or f"{part[0][1].pc:x}" in state["breaks"]
            self._look([line], [*part, *answers] if ends else part, executed)
            own_log = ([] if place > 1 else log[:1]) + (log[1:] if ends else [])
            # The source may have a comment for this instruction.
            address = int(self._states[user].get("instruction", "0"), 16)
            note = step.note if place == 1 and step.note else self._script.notes.get(address, "")
            shown = line if number == 1 else f"{line}: instruction {place}"
            self._add_frame(Step([shown]), user, own_log, note)
            if ends:
                break
        if number > 1 and self._whole.look(f"{user} regs") != self._single.look(f"{user} regs"):
            raise LabError(f"{line!r} leaves something else than its instructions one by one")

    def _look(self, lines: Sequence[str], answers: Sequence[tuple[str, Answer]], executed: str = "") -> None:
        """Update the states of users whom lines may have changed: the users of these lines, or all users after an operator's line.

        executed: the line of the listing with the instruction that was executed, if the lines executed only one
        """
        users = {line[:1] for line in lines if not is_look(line)}
        for user, watch_set in self._watch_sets.items():
            if user in users or "*" in users:
                own, before = [answer for whom, answer in answers if whom == user], self._states.get(user, ABSENT)
                state = look_at(Guest(self._single, int(user)), watch_set, before, own, executed)
                if state["run"] == "stopped":
                    add_executed(state, before)
                self._states[user] = state

    def _count_run(self, before: Mapping[str, State]) -> None:
        """Count the registers of the instructions that were executed since the states `before`."""
        for user, state in self._states.items():
            if state is not before.get(user) and "instruction" in state:
                self._uses[user].run(before.get(user, ABSENT), state)

    def _add_frame(self, step: Step, user: str, log: list[str], note: str) -> None:
        line, more = step.lines[0] if step.lines else "", sum(not is_look(line) for line in step.lines[1:])
        self._frames.append(Frame(user, line, more, note, log, dict(self._states)))

    def finish(self) -> list[Frame]:
        """Return the frames, with only the most relevant rows of memory, and with the registers that the lesson uses."""
        for user, watch_set in self._watch_sets.items():
            if self._script.variables:  # other data of the image isn't shown
                watch_set.named = set(variable_rows(self._script.variables)[:MAX_NAMED])
            choice = VisibleRows()
            for frame in self._frames:
                choice.add(frame.states.get(user, ABSENT))
            rows = choice.rows(watch_set, 2 if self._script.variables else 1)
            for frame in self._frames:
                if user in frame.states:
                    frame.states[user] = with_rows(frame.states[user], rows)
        used = {user: uses.registers() for user, uses in self._uses.items()}
        types = self._types()
        return [replace(frame, used=used, types=types) for frame in self._frames]

    def _types(self) -> Sequence[LineType]:
        """Return the vector types at the lines of an assembler source; none for other lessons."""
        program, text = self._script.program, self._script.text
        if program is None or isinstance(program, CompiledProgram):
            return ()
        return line_types(program, self._words, text)


def _steps(step: Step, answers: Sequence[tuple[str, Answer]]) -> int:
    """Return the largest number of instructions that a step's first line steps; 0 if it isn't a `step`, or was refused."""
    match [words_of(line) for line in step.lines[:1]]:
        case [["step", number]] if answers and not isinstance(answers[0][1], Refused):
            return int(number)
    return 0
