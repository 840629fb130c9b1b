"""Execute the console's lines: its own commands, and those of the monitor with names in place of numbers."""

import pathlib
import re
import signal
from collections.abc import Callable, Iterable, Sequence
from functools import partial

from .. import LabError
from ..assembler.commands import COMMANDS, explain_refusal
from ..assembler.own_files import files_beside
from ..guest.changes import Stepper, vtype_text
from ..guest.guest import Guest
from ..guest.symbols import Symbols
from ..harness.assembled import report_inputs
from ..lessons.script import read_assembled, send
from ..machine.answers import (
    Addresses,
    Answer,
    ControlRegisters,
    Listing,
    Loaded,
    Memory,
    Refused,
    ScalarRegisters,
    VectorRegister,
    read,
)
from ..machine.lines import check_text, is_look
from ..machine.program import find_program
from ..machine.session import Session
from ..meanings.stepped import why_stepped
from ..meanings.why import read_name
from .breakpoints import Breakpoints
from .conditions import REGISTERS, Conditions
from .execution import Execution
from .help import help_on_console
from .listing import OwnSource, SourceListing
from .names import DIGITS, VECTORS, Names, remedy_of, state_of
from .places import Places
from .show import Screen, control_row, memory_rows, register_rows

STEPS = [str(number) for number in range(1, 257)]  # numbers of steps that the machine accepts
HELP_ON_SOURCES = "source FILE loads an assembler source, vecmon-lab console FILE starts with an image"
HELP_ON_LOAD = f"load reloads the console's image; {HELP_ON_SOURCES}"


class Console:
    """The console: it executes lines at one user's machine, and prints the results.

    is_open: False after `quit`
    """

    def __init__(self, guest: Guest, screen: Screen, symbols: Symbols) -> None:
        self.is_open = True
        self._guest, self._screen, self._image_symbols = guest, screen, symbols
        self._stepper, self._conditions = Stepper(guest), Conditions(guest)
        self.names = Names(guest, self._stepper, symbols)
        self.execution = Execution(guest, self._stepper, screen, self.names, self._conditions)
        self._source = SourceListing(self.names)
        places = Places(self.names, self._source)
        self._breakpoints = Breakpoints(guest, screen, self.names, places, self._conditions)
        self._program: Sequence[str] = ["load", "image"]  # the command that loaded the program

    def do(self, entry: str) -> None:
        """Execute the lines that the user has entered at once. Ctrl-C stops the program, and skips the lines after the current one."""
        before = signal.signal(signal.SIGINT, lambda *_: self.execution.interrupt.set())
        self.execution.interrupt.clear()
        try:
            for line in filter(None, map(str.strip, entry.split("\n"))):
                if self.is_open and not self.execution.interrupt.is_set() and not line.startswith("#"):
                    self._execute(line)
        finally:
            signal.signal(signal.SIGINT, before)

    def source(self, path: pathlib.Path) -> None:
        """Let the user leave and enter again, and load an assembler source.

        Raises LabError if the source has mistakes, and OSError if it can't be read. After an error the machine is unchanged.
        """
        content = path.read_bytes()
        if path.suffix == ".c" or content.startswith(b"\x7fELF"):
            raise LabError(f"{path} isn't an assembler source; vecmon-lab console {path} starts with it")
        text = content.decode("utf-8", "replace")
        script = read_assembled(text, str(path), files_beside(path))
        report_inputs(path, text)
        commands = [line[2:] for line in script.steps[0].lines]
        with Session(find_program()) as trial:
            send(Guest(trial), commands, script)
        saved, is_same, self._program = self._breakpoints.all(), commands == self._program, commands
        self._guest.ask("stop", "leave", *commands)
        self.names.symbols = Symbols.of_labels(script.labels)
        self._guest.end = script.program.end if script.program else 0
        self._source.own = OwnSource(path, text, {each.address: each.line for each in script.statements.values()})
        self._conditions.by_address.clear()
        self._breakpoints.restart(saved, is_same)
        self.execution.look()

    def bar(self) -> str:
        """Return a text with the program's place, the vector type, vl and the policy."""
        run, pc = state_of(self._guest)
        if run != "stopped":
            return run
        control, policy = self._stepper.registers.control, self._guest.session.policy[self._guest.user]
        return f"pc {self.names.place(pc)}   vtype {vtype_text(control.vtype)}   vl {control.vl}   policy {policy}"

    def _execute(self, line: str) -> None:
        """Execute a line. If it can't be executed, print why."""
        try:
            self._dispatch(self.names.words(line))
        except OSError as error:
            self._screen.say(f"{error.filename}: {error.strerror}", kind="refused")
        except LabError as error:
            self._screen.say(str(error), kind="refused")

    def _dispatch(self, command: list[str]) -> None:
        """Execute a command of the console, or send another command to the machine. Raises LabError and OSError.

        command: the name of the command and its arguments, from `Names.words`
        """
        match command:
            case ["help", *name]:
                self._screen.say(*help_on_console(" ".join(name)))
            case ["quit"]:
                self.is_open = False
            case ["why", element]:
                self._screen.say(why_stepped(self._stepper, *read_name(element)).text)
            case ["run"]:
                self._run(self.execution.run)
            case ["restart"]:
                self._restart()
            case ["until", place] if place in REGISTERS or place in VECTORS:
                self._run(partial(self.execution.until_changed, place))
            case ["until", word]:
                self._until(word)
            case ["break", text]:
                self._breakpoints.set(text)
            case ["unbreak", word]:
                self._breakpoints.remove(word)
            case ["back", number] if re.fullmatch("[1-9][0-9]{0,17}", number):
                self.execution.back(int(number))
            case ["back", where] if found := re.fullmatch(r"to +write +(\S+)", where):
                self.execution.back_to_write(self.names.named(found[1], "ADDR"))
            case ["back", where] if re.fullmatch(r"to( +write)?", where):
                raise LabError("the form is back to write ADDR")
            case ["changes"]:
                self._screen.say(*self.execution.changes or ["nothing has changed"], kind="changed")
            case ["list", word]:
                self._list(word)
            case ["source", path]:
                self.source(pathlib.Path(path).expanduser())
                self.execution.show_place()
            case ["step", number] if state_of(self._guest)[0] == "stopped" and number in STEPS:
                self.execution.step(int(number))
            case [("quit" | "run" | "restart" | "source" | "until" | "changes" | "list" | "back" | "why") as name, *_]:
                raise LabError(f"the form is {COMMANDS[name].form}")
            case words:
                self._monitor(words)

    def _monitor(self, words: Sequence[str]) -> Answer:
        """Execute a line of the monitor, print the answer, and return it. The line may start with a user's digit or `*`."""
        has_user = len(words[0]) == 1 and words[0] in "12345678*"
        if not has_user:
            check_text(" ".join(words))
        line = " ".join(words if has_user else [str(self._guest.user), *words])
        is_own = line[0] == str(self._guest.user)
        own = line[2:].split() if is_own else []  # the command of the console's user
        saved = self._breakpoints.all() if own[:1] == ["load"] else {}
        lines = self._guest.session.do(line)
        answer = read(lines)
        is_loaded = own[:1] == ["load"] and isinstance(answer, Loaded)
        if is_loaded:
            self._guest.ask(*self._guest.start_commands)
        if not is_look(line):
            self.execution.look()
            self._conditions.drop_old()
        if isinstance(answer, Refused):
            self._screen.say(*_explained(line, answer), kind="refused")
        else:
            self._screen.say(*lines if has_user else self._shown(answer, lines))
        if is_loaded:
            self.names.symbols, self._source.own, self._guest.end = self._image_symbols, None, 0
            self._breakpoints.restart(saved, own == self._program)
            self._program = own
        elif own in (["enter"], ["leave"]) and not isinstance(answer, Refused):
            self._program = []
        if {*own[:1]} & {"load", "setpc"}:
            self.execution.show_place()
        return answer

    def _shown(self, answer: Answer, lines: Sequence[str]) -> Iterable[str]:
        """Return the rows in which the console shows an answer. lines: the lines of the answer, for answers without a form of their own"""
        registers = self._stepper.registers
        match answer:
            case ScalarRegisters():
                return register_rows(answer, self._screen.width)
            case VectorRegister():
                mask = int.from_bytes(registers.v[:32], "little") if self.execution.has_mask else None
                return self._screen.element_rows(answer, registers.control, mask)
            case ControlRegisters():
                return [control_row(answer, self._guest.session.policy[self._guest.user])]
            case Memory():
                return memory_rows(answer, self._screen.width)
            case Listing(words):
                return [f"{self.names.place(word.address)}  {word.text}" for word in words]
            case Addresses(name, addresses):
                own = addresses if name == "breaks" else []
                texts = {at: _behind(self.names.symbols.line(at)) + self._conditions.text(at) for at in own}
                return [f"{self.names.place(address)}{texts.get(address, '')}" for address in addresses]
        return [line[2:] for line in lines]

    def _run(self, run: Callable[[], None]) -> None:
        """Call `run`. If the user hasn't entered, send `go` instead, so that the monitor's refusal is shown."""
        if state_of(self._guest)[0] == "absent":
            self._monitor(["go"])
        else:
            run()

    def _list(self, word: str) -> None:
        """Print the source around a place. Raises LabError."""
        address = self._breakpoints.find(word).addresses[0]
        at = int(address, 16) if re.fullmatch(DIGITS, address) else -1
        self._screen.say(*self._source.rows(at, state_of(self._guest)[1]))

    def _restart(self) -> None:
        """Load the program again: an assembler source, or else the image. Raises LabError and OSError."""
        if self._source.own is None and not self._guest.session.images:
            raise LabError(f"there is no program to restart; {HELP_ON_SOURCES}")
        if self._source.own is None:
            self._monitor(self.names.words("load"))
        else:
            self.source(self._source.own.path)
            self.execution.show_place()

    def _until(self, word: str) -> None:
        """Run the program until it reaches one of a place's addresses. Raises LabError. word: the argument that names the place"""
        place = self._breakpoints.find(word)
        self._breakpoints.check_room(word, place)
        self._screen.say(*filter(None, [place.taken]))
        self.execution.until(place.addresses)


def _explained(line: str, answer: Refused) -> list[str]:
    """Return the meaning of a refusal, with a remedy for an unknown command or image."""
    (first, *more) = explain_refusal(line, answer)
    if answer.code == "E03":
        first += remedy_of(line[2:].split()[0])
    return [first, *more, *([HELP_ON_LOAD] if answer.code == "E08" else [])]


def _behind(line: str) -> str:
    """Return a source line as listings have it after a place; "" if it is unknown."""
    return f"  ({line})" if line else ""
