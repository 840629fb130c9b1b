"""One machine that eight seats and the operator share: it executes lines, sources and slices, without threads or clocks."""

from collections.abc import Iterable, Mapping, Sequence
from functools import partial
from typing import Protocol

from ...assembler.commands import explain_refusal
from ...assembler.source import Program, SourceError, in_order, refusal
from ...machine.answers import Granted, Position, Refused, read
from ...machine.lines import is_look
from ...machine.session import TOGETHER, ScriptFull, Session
from .bad_request import BadRequest
from .languages import SourceText
from .last_run import LastRuns
from .live import server_line, with_output
from .moved_breakpoints import moved_breakpoints
from .past import Past
from .requests import LinesRequest
from .seat_status import LIMIT_STATUS
from .seats import Done, Seat, Seats
from .steps import MakeProgram, Steps, TakeSeat, Turn

SEAT_BYTES = 1_500_000  # a seat's share of the script: eight shares leave 3,000,000 bytes to the operator and the clock
SOURCE_LINES = 4096
LEAVING: Mapping[str, Sequence[str]] = {"absent": [], "running": ["stop", "leave"], "stopped": ["leave"]}

Answers = list[list[str]]
"""The answers to lines, without the digits of their users."""
Mistakes = Sequence[SourceError]
"""Mistakes of a source, or a compiler's warnings."""


class Recorder(Protocol):
    """Records the lines of a script as the script grows."""

    def append(self, line: str) -> None:
        """Record a line that will be sent next."""

    def cut(self, size: int) -> None:
        """Remove the lines after the first `size` bytes, since they weren't executed."""


class SharedMachine:
    """A machine and its seats."""

    def __init__(self, letter: str, session: Session, file: Recorder) -> None:
        self.letter, self.session, self.file, self.seats = letter, session, file, Seats(letter)
        self.past, self.last_runs = Past(session.quantum, lambda: self.session.rewound(b"")), LastRuns()
        self.has_run = False  # whether programs may have run since somebody last looked at running programs

    def lines(self, seat: Seat, request: LinesRequest, done: Answers) -> Steps[Answers]:
        """Execute a request's lines and slices; return the answers to its read-only lines.

        done: a list to which the answers to the executed lines are appended, even if a later line fails

        Raises BadRequest if the seat's share of the script has no room for the lines; then nothing is executed.
        """
        yield TakeSeat()
        self.check_share(seat, own_lines(seat, request.do) + [f"* run {seat.digit}"] * request.slices)
        turn = Turn(partial(self._lines, seat, request, done), seat)
        yield turn
        return [[part[2:] for part in answer] for answer in turn.looks]

    def write(
        self, seat: Seat, source: SourceText | None, is_answer: bool = False, is_tried: bool = False
    ) -> Steps[tuple[Mistakes, Mistakes]]:
        """Start a seat's machine anew with a source; return the mistakes of the source, and a compiler's warnings.

        Breakpoints stay at their lines.
        source: None for the source in the machine; is_answer: whether a case of an exercise gives the inputs
        is_tried: whether all mistakes are found first, also those that only the machine finds; if there are any, the machine stays
            as it is
        Raises BadRequest if there is no source to restart, or if the program is too long for the machine or the seat's share.
        """
        program = (yield MakeProgram(source, is_answer, is_tried)) if source else None
        yield TakeSeat()
        if source is None:
            source, program = seat.loaded.source, seat.loaded.program
        if program is None:
            raise BadRequest("this machine has no loaded source to restart")
        warnings = program.warnings
        if program.mistakes:
            return program.mistakes, warnings
        if (number := len(program.lines)) > SOURCE_LINES:
            raise BadRequest(f"a source becomes {SOURCE_LINES} lines at most, and this one {number}")
        mistakes = yield from self.load_program(seat, program, _breakpoints_in(seat, source, program), is_answer)
        seat.loaded.take(source, program)
        return mistakes, warnings

    def load_program(
        self, seat: Seat, program: Program, breaks: Iterable[int], is_answer: bool = False
    ) -> Steps[Mistakes]:
        """Load a program, some dozens of lines in each turn; return the mistakes that the machine finds.

        breaks: addresses of breakpoints; is_answer: whether a case of an exercise gives the inputs, in place of the source
        Raises BadRequest if the seat's share of the script has no room for the program.
        """
        start = [*LEAVING[seat.state["run"]], "enter", *program.load_lines()]
        set_up, stops = dict[str, int](), {f"break {address:x}": 0 for address in breaks}
        if not is_answer:  # a case of an exercise gives its own inputs
            set_up = {f"{seat.digit} {command}": number for number, command in program.set_up if command not in stops}
        lines = own_lines(seat, [*start, *stops]) + [*set_up]
        self.check_share(seat, lines)
        statements = {f"{seat.digit} {each.command}": each for each in program.statements}
        mistakes, done = list[SourceError](), list[Done]()

        def write_part(turn: Turn) -> None:
            part = lines[len(done) : len(done) + TOGETHER]
            turn.is_last = len(done) + len(part) == len(lines)
            for line, answer in zip(part, self.do(turn, *part)):
                match read(answer):
                    case Refused() as refused if line in set_up:
                        mistakes.append(SourceError(set_up[line], 1, explain_refusal(line, refused)[-1]))
                    case Refused("E15", column):
                        mistakes.append(refusal(statements[line], int(column)))
                    case Refused(code):
                        raise BadRequest(f"the machine answers {code} to {line[2:60]}")
            if turn.is_last:
                seat.display.list_program(program)

        seat.log.add(f"+Load {program.summary()} ({len(lines)} lines)")
        try:
            while len(done) < len(lines):
                turn = Turn(write_part, seat, before=done)
                yield turn
                done = [*done, *turn.done]
        finally:
            seat.log.add("-")
        return in_order(mistakes)

    def reset(self, seat: Seat) -> Steps[None]:
        """End a seat's machine, even if its share of the script is used up."""
        yield TakeSeat()
        yield Turn(lambda turn: self.do(turn, *own_lines(seat, LEAVING[seat.state["run"]])), seat)

    def grant(self, slices: int) -> Turn:
        """Return a turn that grants slices to all running programs."""
        return Turn(lambda turn: self.do(turn, f"* slices {slices}"))

    def show(self, seat: Seat, why: str, stopped_by: str) -> Steps[None]:
        """Stop a running program to look at it, and resume it, unless there is a reason to leave it stopped.

        why: the reason, which the log shows; "" to resume the program
        stopped_by: `server` or `page`, whichever stops the program; for the log
        """
        yield Turn(partial(self._show, seat, not why))
        if why and seat.state["run"] == "stopped":
            seat.status.set(LIMIT_STATUS)
            seat.log.add(f"!The {stopped_by} stopped the program, since {why}. go lets it run on.")

    def has_run_long(self, seat: Seat, limit: int) -> str:
        """Return the reason why a running program must stop: it has run for about `limit` ticks; "" if it may go on."""
        return (
            f"it ran for {limit:,} ticks without a stop"
            if seat.execution.slices * self.session.quantum >= limit
            else ""
        )

    def execute(self, turn: Turn) -> None:
        """Execute a turn at the machine, and look at the users that it may have changed."""
        try:
            turn.execute(turn)
        except (BadRequest, ScriptFull):
            self._look(turn)
            raise
        if turn.is_last:
            self._take_output(turn)
            self._look(turn)

    def report(self, turn: Turn) -> None:
        """Pass the lines and states of a turn to the seats. The lines of the seat that asked for the turn are added to its log."""
        for line, answer in turn.done:
            self.seats.observe(line, answer, turn.asker is not None and line[0] == turn.asker.digit)
        self.seats.take(turn.states, [*turn.before, *turn.done])

    def do(self, turn: Turn, *lines: str) -> list[list[str]]:
        """Execute lines; return their answers. Lines that aren't read-only are recorded before they are sent."""
        for line in lines:
            if not is_look(line):
                self.file.append(line)
        number = self.session.lines
        try:
            answers = self.session.do_all(lines)
        except BaseException:
            self.file.cut(self.session.size)
            raise
        for line, answer in zip(lines, answers):
            number += not is_look(line)
            self.last_runs.follow(self.session, line, answer, number)
            self.past.follow(line, answer)
            self.has_run = self.has_run or line[0] == "*"
            self.seats.follow(line, answer)
            turn.done.append((line, answer))
        return answers

    def _lines(self, seat: Seat, request: LinesRequest, done: Answers, turn: Turn) -> None:
        """Execute lines, then slices of the seat's own program, then read-only lines."""
        own = own_lines(seat, request.do)
        try:
            for place in range(0, len(own), TOGETHER):
                self.do(turn, *own[place : place + TOGETHER])
        finally:
            done += [[part[2:] for part in answer] for _, answer in turn.done]
        state = read(self.session.look(f"{seat.digit} state")) if request.slices else None
        if isinstance(state, Position) and state.run == "running":
            for _ in range(request.slices):
                if read(*self.do(turn, f"* run {seat.digit}")) != Granted(1):
                    break
        turn.looks += [self.session.look(line) for line in own_lines(seat, request.look)]

    def check_share(self, seat: Seat, lines: Sequence[str]) -> None:
        """Raise BadRequest if the lines don't fit into the seat's share of the script."""
        size = sum(len(line) + 1 for line in lines if not is_look(line))
        if seat is not self.seats.operator and size and seat.used + size > SEAT_BYTES:
            left = f"this takes {size:,} bytes, and {max(0, SEAT_BYTES - seat.used):,} are left"
            raise BadRequest(f"this seat's share of the script is used up, so only lines that look go on: {left}")

    def _show(self, seat: Seat, continues: bool, turn: Turn) -> None:
        """Stop a running program, look at it, and resume it if `continues` is true. Called in a turn at the machine.

        A program at a breakpoint isn't stopped, since `go` would pass the breakpoint.
        """
        turn.is_last = False
        place = read(self.session.look(f"{seat.digit} state"))
        if not isinstance(place, Position) or place.run != "running" or place.pc in seat.display.watch_set.breaks:
            return
        stop, out, go = (server_line(seat.digit, command) for command in ("stop", "out", "go"))
        self.session.check_room([stop, out, go])  # without room for `go`, the program isn't stopped either
        self.do(turn, stop, out)
        self._look(turn)
        if continues:
            self.do(turn, go)
            for state in turn.states[seat.digit]:
                state["run"] = "running"

    def _take_output(self, turn: Turn) -> None:
        """Collect the output of programs that stopped. Resume programs that stopped since their buffers were full."""
        states = {digit: seat.state for digit, seat in self.seats.users.items()}
        for digit, continues in with_output(turn.done, states).items():
            self.do(turn, *(server_line(digit, it) for it in (["out", "go"] if continues else ["out"])))

    def _look(self, turn: Turn) -> None:
        """Look at the users that the turn may have changed."""
        done = [*turn.before, *turn.done]
        turn.states = self.seats.look(self.session, done, self.seats.touched(done))


def own_lines(seat: Seat, texts: Iterable[str]) -> list[str]:
    """Return commands as lines of a seat's user."""
    return [f"{seat.digit} {text}" for text in texts]


def _breakpoints_in(seat: Seat, source: SourceText, program: Program) -> list[int]:
    """Return the addresses of a seat's breakpoints in a program that replaces the machine's program, in rising order."""
    if seat.loaded.program is None:
        return []
    if program.lines == seat.loaded.program.lines:
        return sorted(seat.display.watch_set.breaks)
    return moved_breakpoints(
        seat.display.watch_set.breaks, seat.loaded.program, seat.loaded.source.text, program, source.text
    )
