"""The seats of a machine: the state of each user, and what the user's pages show."""

from collections.abc import Iterable, Sequence
from dataclasses import dataclass, field

from ...assembler.commands import log_entries
from ...guest.guest import Guest
from ...instructions.reasons import describe_stop
from ...machine.answers import (
    Granted,
    Output,
    Stop,
    answers_by_user,
    first_word,
    is_empty_output,
    is_refusal,
    is_stop,
    read,
)
from ...machine.lines import DIGITS, command_of, is_look, words_of
from ...machine.session import Session
from ...page.state import ABSENT, State, VisibleRows, add_last_instruction, look_at
from .display import Display
from .execution import Condition, Execution
from .live import is_servers
from .loaded import Loaded
from .seat_log import SeatLog
from .seat_status import CurrentStatus, status_of

_EXECUTING = ("step", "go", "stop", "slices", "run")  # commands after which registers are as the program left them
_BREAKPOINTS = (["break"], ["unbreak"])

Done = tuple[str, Sequence[str]]
"""An executed line, and its answer."""


@dataclass(eq=False)
class Seat:
    """A user's place at a machine, or the operator's.

    name: such as A3, or A for the operator; digit: the user's digit, or `*`
    state: all that is known of the user; display: the part that pages show
    before_step: the state before the last line, if that line stepped one instruction; None otherwise
    loaded: the source and program in the machine; execution: the run of the program
    status: the status of the program, for the teacher
    log: the log of the seat's console
    used: the number of bytes of the machine's script that the seat has used
    active: when a tab of the seat made its last request, in seconds since 1970; 0 before
    """

    name: str
    digit: str
    state: State = field(default_factory=ABSENT.copy)
    display: Display = field(default_factory=Display)
    before_step: State | None = None
    loaded: Loaded = field(default_factory=Loaded)
    execution: Execution = field(default_factory=Execution)
    status: CurrentStatus = field(default_factory=CurrentStatus)
    log: SeatLog = field(default_factory=SeatLog)
    used: int = 0
    active: float = 0.0

    @property
    def condition(self) -> Condition:
        """The condition of the machine."""
        return self.execution.condition(self.state)

    def complete_last_instruction(self, before: State) -> None:
        """Add the registers that the last instruction read, and the memory that it accessed, to the state and to the part that pages show.

        before: the state before this instruction
        """
        state, shown = self.state.copy(), self.display.shown.copy()
        add_last_instruction(state, before)
        shown["read"], shown["accessed"] = state["read"], state["accessed"]
        if "executed" in state:
            shown["executed"] = state["executed"]
        self.state, self.display.shown = state, shown

    def stop_at_breakpoint(self) -> None:
        """Show a program that hasn't executed anything as stopped by the breakpoint at its program counter."""
        self.execution.stop = f"break pc={int(self.state['pc'], 16):016x}"
        self.execution.has_started = True
        stop = read([f"{self.digit} {self.execution.stop}"])
        assert isinstance(stop, Stop)
        text = describe_stop(stop)
        state, shown = self.state.copy(), self.display.shown.copy()
        state["stop"] = shown["stop"] = text
        self.follow(state, shown)

    def follow(self, state: State, shown: State) -> None:
        """Set the state and the part of it that pages show, and update the program's status accordingly."""
        before, self.state, self.display.shown = self.state, state, shown
        if state["run"] != "absent":
            shown["began"] = self.loaded.starts
        if self.loaded.is_image:
            shown["image"] = True
        has_executed = state["run"] == "running" or "instruction" in state or "stop" in state
        self.execution.has_started = self.execution.has_started or has_executed
        status = status_of(state, self.execution.stop)
        has_moved = state["run"] == "stopped" and before.get("pc") != state["pc"]
        if has_moved or (before["run"], self.status.value) != (state["run"], status):
            self.status.set(status)

    def restart(self, is_image: bool) -> None:
        """Reset the source and the execution, since the machine has begun anew. is_image: whether the machine has an image"""
        self.loaded, self.execution = self.loaded.next_start(is_image), Execution()


class Seats:
    """The seats of a machine's users by digit, and the operator's."""

    def __init__(self, letter: str) -> None:
        self.users = {digit: Seat(letter + digit, digit) for digit in DIGITS}
        self.operator = Seat(letter, "*")

    def names(self) -> list[str]:
        """The names of all users' seats."""
        return [seat.name for seat in self.users.values()]

    def running(self) -> set[str]:
        """The digits of users whose programs run."""
        return {digit for digit, seat in self.users.items() if seat.state["run"] == "running"}

    def stops(self) -> dict[str, str]:
        """Return the last stop lines, by digit, of programs that stopped by themselves and whose users have changed nothing since."""
        return {digit: seat.execution.stop for digit, seat in self.users.items() if "stop" in seat.state}

    def _grant(self, slices: int, digits: set[str]) -> None:
        """Add granted slices to the programs of some users, which share them equally. digits: the digits of these users"""
        for digit in digits:
            self.users[digit].execution.slices += slices / len(digits)

    def follow(self, line: str, answer: Sequence[str]) -> None:
        """Watch the places of memory that a user's line names. If the line begins the machine anew, forget the visible rows."""
        if line[0] in self.users and not is_refusal(answer):
            seat = self.users[line[0]]
            seat.display.watch_set.follow(line)
            if _restarts(line, answer):
                seat.display.rows = VisibleRows()

    def touched(self, done: Sequence[Done]) -> set[str]:
        """Return the digits of the users whom executed lines may have changed.

        A user's line may change only this user. A line of the operator may change all users whose programs run.
        """
        lines = {line[0] for line, _ in done}
        return lines - {"*"} | (self.running() if "*" in lines else set())

    def look(self, session: Session, done: Sequence[Done], digits: Iterable[str]) -> dict[str, tuple[State, State]]:
        """Return the states of users after executed lines, by digit. A state is a pair: all that is known, and the part that pages show.

        done: the executed lines with their answers; digits: the digits of the users
        """
        lines, states = [line for line, _ in done], {}
        answers = [each for _, answer in done for each in answers_by_user(answer)]
        for digit in digits:
            seat = self.users[digit]
            anew = any(line[0] == digit and _restarts(line, answer) for line, answer in done)
            before = ABSENT if anew else seat.state
            own = [each for whom, each in answers if whom == digit]
            single = lines == [f"{digit} step 1"] and before["run"] == "stopped"
            executed = before["code"].get(before["pc"], "") if single else ""
            is_done = any(may_change(line, answer) for line, answer in done)
            state = look_at(Guest(session, int(digit)), seat.display.watch_set, before, own, executed, is_done)
            state.pop("output", None)  # `Execution` has the output
            if is_done and state["run"] == "stopped" and _ends_executing(done, digit):
                add_last_instruction(state, before if _is_single_step(done, digit) else None)
            elif is_done and "faulted" not in state:
                state.pop("instruction", None)
                state.pop("executed", None)  # registers have changed since, as by the lines that set up a case
            if state["run"] == "stopped" and "instruction" not in state and _sets_counter(done, digit):
                state["prepared"] = True
            states[digit] = state, seat.display.add_rows(state)
        return states

    def take(self, states: dict[str, tuple[State, State]], done: Sequence[Done] = ()) -> None:
        """Set the states that `look` returned. done: the executed lines with their answers"""
        has_changes = any(may_change(line, answer) and not is_servers(line) for line, answer in done)
        for digit, pair in states.items():
            seat = self.users[digit]
            if has_changes:
                is_step = _is_single_step(done, digit) and seat.state["run"] == "stopped"
                seat.before_step = seat.state if is_step else None
            seat.follow(*pair)

    def observe(self, line: str, answer: Sequence[str], is_reported: bool) -> None:
        """Record a line and its answer at the seats that they concern: logs, output, stops, and bytes of the script.

        is_reported: whether to add the line to the log of the seat that sent it. It is false for lines of the clock, and for lines that grant
            slices to one user.

        A log has only the number of bytes of output of lines that the server sends for a seat.
        """
        asker, words = self.users.get(line[0], self.operator), words_of(line)
        if line[0] == "*" and isinstance(granted := read(answer), Granted):
            self._grant(granted.slices, set(words[1:]) if words[0] == "run" else self.running())
        if words == ["out"] and isinstance(output := read(answer), Output):
            asker.execution.add_output(output.data.hex())
        if is_servers(line):
            if words == ["out"] and not is_empty_output(answer[0]):
                asker.log.add("=" + " ".join(answer[0].split()[:3]))
            if words == ["go"]:
                asker.execution.stop = ""
            return
        if is_reported:
            asker.log.add(f">{line}")
            asker.log.command = line[2:]
        if command_of(line) == "* run" and words[1:] and words[1] in self.users:
            self.users[words[1]].used += len(line) + 1
        elif not is_look(line):
            asker.used += len(line) + 1
        if _restarts(line, answer):
            asker.restart(is_image=words[0] == "load")
        elif words == ["go"] and not is_refusal(answer):
            asker.execution.resume()
        for part, entry in zip(answer, log_entries(line, answer)):
            seat = self.users.get(part[0], self.operator)
            if is_reported or seat is not self.operator:
                seat.log.add(entry)
                seat.log.answer = part[2:]
            if is_stop(part):
                seat.execution.stop = part[2:]
                if first_word(part) != "outfull":
                    seat.execution.slices = 0.0


def _is_single_step(done: Iterable[Done], digit: str) -> bool:
    """Return whether a single step of a user is the only line, apart from read-only lines and lines of the server."""
    return [line for line, _ in done if not is_look(line) and not is_servers(line)] == [f"{digit} step 1"]


def may_change(line: str, answer: Sequence[str]) -> bool:
    """Return whether a line may have changed registers or memory. Refused lines, read-only lines and lines on breakpoints can't."""
    return not (is_look(line) or words_of(line)[:1] in _BREAKPOINTS or is_refusal(answer))


def _ends_executing(done: Sequence[Done], digit: str) -> bool:
    """Return whether the last line that may have changed a user's registers is a line that executed the program."""
    own = [line for line, answer in done if line[0] in (digit, "*") and may_change(line, answer)]
    commands = [words_of(line)[0] for line in own if words_of(line) != ["out"]]
    return commands[-1:] != [] and commands[-1] in _EXECUTING


def _sets_counter(done: Iterable[Done], digit: str) -> bool:
    """Return whether any of a user's lines set the program counter."""
    return any(line[0] == digit and words_of(line)[:1] == ["setpc"] and not is_refusal(answer) for line, answer in done)


def _restarts(line: str, answer: Sequence[str]) -> bool:
    """Return whether a user's line began the user's machine anew, or ended it."""
    return words_of(line)[:1] in (["enter"], ["leave"], ["load"]) and line[0] != "*" and not is_refusal(answer)
