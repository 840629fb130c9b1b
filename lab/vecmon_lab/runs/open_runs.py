"""Runs of a program with choices: their outcomes, their logs and what they chose."""

import contextlib
import io
import os
import threading
from collections.abc import Callable, Iterator, Sequence
from concurrent.futures import ThreadPoolExecutor
from dataclasses import dataclass

from .. import LabError
from ..instructions.accesses import Span
from ..machine.answers import ProgramState, Stop
from ..machine.program import RECORDER
from .choices import NOTHING, Choices
from .counts import read_end
from .initial_state import InitialState
from .logs import Log
from .recorder import Record, in_memory, placed_files, refusal, run_recorder

MAX_TICKS = 1 << 63
MAX_BYTES = 1 << 20
"""Of output, after which a run isn't continued."""

TRIMMED = 256
"""How many times as long as the run without choices a run may be: of a fault-only-first load of so many elements, each
may load one."""

_NO_LINES = ["--from", f"{1 << 62}", "--to", f"{1 << 62}"]
"""The window of a log that has the end of a run alone."""


class _Enough(Exception):
    """The reader of a run needs no more of it."""


@dataclass(frozen=True)
class Outcome:
    """How a run ended.

    end: the stop; or where the program was when its ticks ran out, or its output was too long
    memory: the bytes of compared places at the end; registers: the values of compared scalar registers
    """

    end: ProgramState
    output: bytes
    memory: bytes
    instructions: int
    ticks: int
    registers: Sequence[int] = ()

    @property
    def has_ended(self) -> bool:
        """Whether the program ended by itself."""
        return isinstance(self.end, Stop)

    @property
    def what(self) -> str:
        """The end in words: exits by their status, and all others by their place as well."""
        if not self.has_ended:
            return "no end"
        return f"exit {self.end.number}" if self.end.kind == "exit" else f"{self.end}"

    @property
    def compared(self) -> tuple[object, ...]:
        """All that is compared of runs that have ended."""
        return self.what, self.output, self.memory, tuple(self.registers)

    def is_like(self, other: "Outcome") -> bool:
        """Whether two runs end in the same way, with the same output and memory. Runs without an end are compared as far as both go."""
        if self.has_ended or other.has_ended:
            return self.compared == other.compared
        return self.output.startswith(other.output) or other.output.startswith(self.output)


class OpenProgram:
    """A program of which runs with different choices are compared.

    runs: the number of runs up to now
    """

    def __init__(
        self, initial_state: InitialState, ticks: int, places: Sequence[Span] = (), registers: Sequence[int] = ()
    ) -> None:
        """ticks: of the run without choices, at most

        places: of memory, whose bytes at the end are compared; registers: the numbers of scalar registers that are, too
        """
        self.initial_state, self.runs = initial_state, 0
        self._ticks, self._places, self._registers = ticks, places, registers
        self._outcomes = dict[Choices, Outcome]()

    @property
    def ticks(self) -> int:
        """The ticks of a run with choices, at most."""
        return min(self._ticks, self._enough_ticks or self._ticks)

    @property
    def is_limited(self) -> bool:
        """Whether a run with choices may need more ticks than it has."""
        return self._enough_ticks is None or self._ticks < self._enough_ticks

    @property
    def _enough_ticks(self) -> int | None:
        """The ticks after which a run that hasn't ended has none; None if the run without choices hasn't ended."""
        base = self._outcomes.get(NOTHING)
        return TRIMMED * base.ticks + 1000 if base and base.has_ended else None

    def outcome(self, choices: Choices = NOTHING) -> Outcome:
        """Return the outcome of a run. Each run is made once."""
        if not choices.options():
            choices = NOTHING
        if choices not in self._outcomes:
            self._outcomes[choices] = self._run_to_end(choices)
        return self._outcomes[choices]

    @contextlib.contextmanager
    def logged(self, choices: Choices, first: int = 1, last: int | None = None) -> Iterator[Iterator[str]]:
        """The lines of a run's log from one instruction to another; without one to its end. The run ends with the context."""
        is_over = threading.Event()
        source, target = os.pipe()
        window = ["--from", f"{first}", *(["--to", f"{last}"] if last else [])]
        with ThreadPoolExecutor(1) as pool, open(source, encoding="ascii") as lines:
            log = Record([*window, "--log"], io.FileIO(target, "w"))
            run = pool.submit(self.execute, choices, _nothing, [log], _raise_once(is_over))
            try:
                yield lines
            finally:
                is_over.set()
                for _ in lines:  # so that the recorder isn't left waiting
                    pass
            with contextlib.suppress(_Enough):
                run.result()

    def execute(
        self,
        choices: Choices,
        write: Callable[[bytes], object],
        records: Sequence[Record] = (),
        check: Callable[[], object] = lambda: None,
    ) -> None:
        """Run the program to its end or until its ticks run out. `write` gets the output as it comes.

        records: whose files are closed; check: is called several times a second, and ends the run if it raises. Raises
        LabError if the recorder refuses its arguments.
        """
        self.runs += 1
        with contextlib.ExitStack() as stack:
            for each in records:
                stack.enter_context(each.file)
            given = placed_files(self.initial_state)
            files = [stack.enter_context(file) for *_, file in given]
            policy = self.initial_state.policy
            arguments = ["--ticks", f"{self.ticks}", *choices.options()]
            arguments += ["--policy", policy] if policy != "keep" else []  # never with choices
            for option, place, file in given:
                arguments += [*option, f"{place}/dev/fd/{file.fileno()}"]
            for each in records:
                arguments += [*each.words, f"/dev/fd/{each.file.fileno()}"]
            arguments += ["--", str(self.initial_state.image)] if self.initial_state.image else []
            files += [each.file for each in records]
            status, reason = run_recorder(arguments, files, len(records), write, check)
        if status != 0:
            raise LabError(refusal(reason, self.initial_state) or f"{RECORDER} ended with status {status}")

    def run(self, choices: Choices, write: Callable[[bytes], object], records: Sequence[Record] = ()) -> ProgramState:
        """Run the program, and return how it ends, without a limit for its output. Raises LabError as `execute` does."""
        with in_memory() as file:
            copy = io.FileIO(os.dup(file.fileno()), "w+")
            if records:
                self.execute(choices, write, records)
                self.execute(choices, _nothing, [Record([*_NO_LINES, "--log"], copy)])
            else:
                self.execute(choices, write, [Record([*_NO_LINES, "--log"], copy)])
            return _end_of(_text_of(file))[0]

    def _run_to_end(self, choices: Choices) -> Outcome:
        """Run the program, and return its outcome."""
        output = bytearray()

        def write(data: bytes) -> None:
            output.extend(data)
            if len(output) > MAX_BYTES:
                raise _Enough

        if self._places or self._registers:
            return self._run_watched(choices, write, output)
        with in_memory() as file:
            copy = io.FileIO(os.dup(file.fileno()), "w+")
            try:
                self.execute(choices, write, [Record([*_NO_LINES, "--log"], copy)])
            except _Enough:
                return Outcome(ProgramState("running", 0), bytes(output[:MAX_BYTES]), b"", 0, 0)
            end, instructions, ticks = _end_of(_text_of(file))
        return Outcome(end, bytes(output), b"", instructions, ticks)

    def _run_watched(self, choices: Choices, write: Callable[[bytes], object], output: bytearray) -> Outcome:
        """The same, with the compared places and registers at the end, by what the log shows to be written."""
        memory, registers, last = self._placed_bytes(), self._initial_registers(), ""
        names = [" mem 0x", *(f" x{number:<2} 0x" for number in self._registers)]
        source, target = os.pipe()
        with ThreadPoolExecutor(1) as pool, open(source, encoding="ascii") as lines:
            log = Record(["--log"], io.FileIO(target, "w"))
            run = pool.submit(self.execute, choices, write, [log])
            for last in lines:
                if any(name in last for name in names):
                    _take_written(last, memory, registers)
            try:
                run.result()
            except _Enough:
                return Outcome(ProgramState("running", 0), bytes(output[:MAX_BYTES]), b"", 0, 0)
        end, instructions, ticks = _end_of(last)
        values = [registers[number] for number in self._registers]
        content = bytes(memory[address + at] for address, length in self._places for at in range(length))
        return Outcome(end, bytes(output), content, instructions, ticks, values)

    def _initial_registers(self) -> dict[int, int]:
        """Return the values of the compared registers at the start, by their numbers."""
        given = dict(line.split() for line in self.initial_state.registers)
        return {number: int(given.get(f"x{number}", "0"), 16) for number in self._registers}

    def _placed_bytes(self) -> dict[int, int]:
        """Return the bytes of the compared places at the start, by their addresses."""
        memory = {address + at: 0 for address, length in self._places for at in range(length)}
        for address, data in initial_bytes(self.initial_state):
            for at in memory.keys() & range(address, address + len(data)):
                memory[at] = data[at - address]
        return memory

    def with_start(self, initial_state: InitialState) -> "OpenProgram":
        """Return the same program with another start."""
        return OpenProgram(initial_state, self.ticks, self._places, self._registers)


def initial_bytes(initial_state: InitialState) -> Iterator[tuple[int, bytes]]:
    """The bytes of memory at the start of a run, by their addresses: the image's, and those that are laid over them."""
    from ..machine.program import segments_of

    if initial_state.image:
        for address, _, length, data in segments_of(initial_state.image.read_bytes()):
            yield address, data.ljust(length, b"\0")
    yield from ((address, data) for address, _, data in initial_state.memory)


def _take_written(line: str, memory: dict[int, int], registers: dict[int, int]) -> None:
    """Take over what an instruction of a log wrote to the compared places and registers."""
    for commit in Log([line]).commits():
        registers.update({number: value for number, value in commit.x.items() if number in registers})
        for address, data in commit.stores:
            for at, byte in enumerate(data, address):
                if at in memory:
                    memory[at] = byte


def _end_of(text: str) -> tuple[ProgramState, int, int]:
    """Return the end that a log's last line says. Raises LabError if it says none."""
    try:
        return read_end(text.rstrip("\n").rpartition("\n")[2])
    except ValueError as error:
        raise LabError(f"{RECORDER} writes no end of the run: {text[-60:]!r}") from error


def _text_of(file: io.FileIO) -> str:
    """Return the content of a file in memory."""
    file.seek(0)
    return file.readall().decode("ascii")


def _raise_once(is_over: threading.Event) -> Callable[[], None]:
    """Return a function that raises once the event is set."""

    def check() -> None:
        if is_over.is_set():
            raise _Enough

    return check


def _nothing(data: bytes) -> None:
    """Drop output."""
