"""One machine of a class, at which requests of its seats and its clock take turns, without the transport of messages."""

import asyncio
import concurrent.futures
import contextlib
import pathlib
from collections.abc import Callable, Container, Iterable, Mapping, Sequence
from dataclasses import asdict, dataclass, replace
from functools import partial

from ... import LabError
from ...assembler.assembly import FileReader
from ...assembler.source import Program
from ...assembler.trial import read_tried_source, read_whole_source
from ...language import apart
from ...language.line_types import read_typed_source
from ...machine.lines import DIGITS, is_look
from ...machine.session import Session
from .worker_pool import WorkerEnded, WorkerPool
from .builds import Builds
from .clock import Clock
from ..core.languages import SourceText
from .machine_thread import MachineThread
from ..core.moments import Budget
from ..core.history import History
from ..core.bad_request import BadRequest
from ..core.requests import LinesRequest
from .scripts import Scripts
from ..core.seats import Seat
from ..core.shared_machine import Answers, Mistakes, SharedMachine, own_lines
from ..core.steps import MakeProgram, Replay, Returned, Steps, Turn, WorkApart
from .stored_files import Notes
from .script_file import ScriptFile

OWN_READERS: Mapping[str, Callable[[str, pathlib.Path, FileReader], Program]] = {
    "whole": read_whole_source,
    "tried": read_tried_source,
    "typed": read_typed_source,
}
WATCH_SECONDS = 0.5  # between looks at a program that runs
REPLAYS = 2  # that execute at the same time
UNSEEN_SECONDS = 60.0  # after which a running program is stopped if nobody looks at it


@dataclass(frozen=True)
class RoomCalls:
    """The functions and workers of a class that a room uses."""

    changed: Callable[[Iterable[str]], None]
    """Gets the names of seats that have news."""
    watched: Callable[[], Container[str]]
    """Returns the seats that somebody looks at."""
    save: Callable[[Notes], bool]
    """Saves notes, and returns whether that succeeded."""
    builds: Builds
    """Compiles the sources of seats."""
    makers: WorkerPool
    """Processes in which checkpoints are made."""
    assemblers: WorkerPool
    """Processes in which sources are assembled that may take long."""


class Room:
    """A machine, its seats, and its clock."""

    def __init__(self, letter: str, session: Session, file: ScriptFile, calls: RoomCalls) -> None:
        self.letter, self.machine, self.clock = letter, SharedMachine(letter, session, file), Clock(self._tick)
        self.seats, self.own_slices = self.machine.seats, True
        self.changed, self.watched, self.save = calls.changed, calls.watched, calls.save
        self.compile, self.assemblers = calls.builds.compile, calls.assemblers
        self.files: FileReader | None = None  # reads included files; None if sources may not include any
        self.thread = MachineThread(self.machine, self._change_all, lambda: self.set_clock({"on": False}))
        self.scripts = Scripts(self.thread, file, calls.makers, lambda *it: self.save(self._notes(*it)))
        self.shorten, self.begin_script = self.scripts.shorten, self.scripts.start_next
        self.make_checkpoint = self.scripts.make_checkpoint
        self._turns = {digit: asyncio.Lock() for digit in f"{DIGITS}*"}  # held by tasks, first come, first served
        self._apart = asyncio.Semaphore(1)  # held by work that needs no turn
        self.replays = asyncio.Semaphore(REPLAYS)
        self.machine.past.budgets = {digit: Budget() for digit in DIGITS}
        self._assembler = concurrent.futures.ThreadPoolExecutor(1)  # a thread that assembles small sources
        self._assembling = {digit: asyncio.Lock() for digit in DIGITS}  # one source of a seat is assembled at a time

    @property
    def session(self) -> Session:
        """The machine."""
        return self.machine.session

    @property
    def warning(self) -> str:
        """The reason why the machine doesn't execute lines, or why they aren't saved; "" without one."""
        return self.thread.stopped or self.thread.down or self.thread.rebuilding or self.scripts.file.warning

    def is_busy(self) -> bool:
        """Return whether a turn is being executed."""
        return self.thread.lock.locked()

    def restore(self, notes: Notes, progress: Callable[[str, int], object], lose: Callable[[str], object]) -> None:
        """Bring the machine to the state in which an earlier server left it. Raises BadFolder if the script can't be executed.

        progress: is called with the machine's letter and the percentage of its script that is executed
        lose: is called with sentences on lost lines
        """
        self.session.progress = partial(progress, self.letter)
        self.scripts.set_up, self.scripts.stops = notes.scripts, notes.stops
        history = History(notes.scripts[-1], notes.stops)
        for block in self.scripts.file.replay(self.session, notes, lose):
            history.add(*block)
            self.machine.past.follow_restored(notes.scripts[-1], *block)
        history.restore(self.seats, self.session)
        self.own_slices = notes.own_slices
        self.set_clock(notes.clock)

    def notes(self) -> Notes:
        """Return the present notes on the machine, for the class's folder."""
        return self._notes(self.session, self.scripts.set_up, self.scripts.stops)

    async def run(self, seat: Seat, steps: Steps[Returned]) -> Returned:
        """Execute the steps of a task, with turns of other seats between them; return its result.

        Raises LabError if the machine doesn't run.
        """
        made: Program | None = None
        seat_turn, is_held = self._turns[seat.digit], False
        try:
            while True:
                step, made = steps.send(made), None
                if isinstance(step, Turn):
                    async with self.thread.lock:
                        await self.thread.execute(step)
                elif isinstance(step, MakeProgram):
                    made = await self._make(seat, step)
                elif isinstance(step, Replay):
                    async with self.replays:
                        await asyncio.to_thread(step.call)
                elif isinstance(step, WorkApart):
                    async with self._apart:
                        await asyncio.to_thread(step.call)
                elif not is_held:
                    is_held = await seat_turn.acquire()
        except StopIteration as end:
            self.changed([seat.name])
            returned: Returned = end.value
            return returned
        finally:
            if is_held:
                seat_turn.release()

    async def lines(self, seat: Seat, request: LinesRequest, done: Answers) -> Answers:
        """Execute a request's lines and slices; return the answers to its read-only lines.

        done: a list that gets the answers to the executed lines
        Raises BadRequest if nothing may be executed, and LabError if the machine doesn't run.
        """
        slices = request.slices
        if slices and (seat is self.seats.operator or not self.own_slices):
            raise BadRequest("slices are the teacher's to grant")
        is_operators = seat is self.seats.operator and not all(map(is_look, own_lines(seat, request.do)))
        if self.scripts.is_behind() and (slices or is_operators):
            raise BadRequest("programs have run much since the last checkpoint: slices wait for the next, some seconds")
        looks = await self.run(seat, self.machine.lines(seat, request, done))
        if not slices and "go" in request.do:
            self.explain_waiting(seat)
        return looks

    def explain_waiting(self, seat: Seat) -> None:
        """Explain in a seat's log why its program waits, if it runs and the clock is off."""
        if not self.clock.settings.on and seat.state["run"] == "running":
            own_way = ", or press Go on a little" if self.own_slices else ""
            self.add_log_entry(seat, f"!The clock is off, so the program waits: the teacher can turn it on{own_way}.")

    async def source(self, seat: Seat, source: SourceText | None) -> tuple[Mistakes, Mistakes]:
        """Start a seat's machine anew with a source; return the source's mistakes, and a compiler's warnings. Raises as `run` does.

        source: None for the source in the machine
        """
        return await self.run(seat, self.machine.write(seat, source))

    def add_log_entry(self, seat: Seat, entry: str) -> None:
        """Add an entry to a seat's log, and send it to the pages."""
        seat.log.add(entry)
        self.changed([seat.name])

    def set_clock(self, settings: Mapping[str, int]) -> None:
        """Change some of the clock's settings. settings: the new values by name, as in `Settings`"""
        self.clock.set(replace(self.clock.settings, **settings))
        self.changed(self.seats.names())

    def set_rights(self, own_slices: bool) -> None:
        """Set whether students may grant slices to their own programs."""
        self.own_slices = own_slices
        self.changed(self.seats.names())

    async def watch(self) -> None:
        """Look at running programs that somebody watches, and stop unattended ones, at intervals. Never returns."""
        while True:
            await asyncio.sleep(WATCH_SECONDS)
            has_run, self.machine.has_run = self.machine.has_run, False
            for digit in sorted(self.seats.running()) if has_run else ():
                await self._stop_unattended(self.seats.users[digit])

    def end(self) -> None:
        """End the machine, even while it executes lines."""
        self.thread.end()
        self.machine.past.close()
        self._assembler.shutdown(cancel_futures=True)
        self.scripts.end()

    async def _make(self, seat: Seat, step: MakeProgram) -> Program:
        """Return the program of a source, with the mistakes that the step asks for. That needs no turn at the machine."""
        source, loop = step.source, asyncio.get_running_loop()
        if source.choice is not None:
            return await self.compile(seat.name, source.text, source.choice, is_answer=step.is_answer)
        vecmon = pathlib.Path(self.session.command[0])
        reader = "typed" if step.is_typed else "tried" if step.is_tried else "whole"
        async with self._assembling[seat.digit]:
            if self.files:  # your own source
                read_program = OWN_READERS[reader]
                return await loop.run_in_executor(self._assembler, read_program, source.text, vecmon, self.files)
            small = await loop.run_in_executor(self._assembler, apart.read_small, reader, source.text, vecmon)
            return small or await self._make_apart(reader, source.text, vecmon)

    async def _make_apart(self, reader: str, text: str, vecmon: pathlib.Path) -> Program:
        """Assemble a large source in a separate process. Raises LabError if that takes too long. reader: a key of OWN_READERS"""
        try:
            output = await self.assemblers.run(apart.MODULE, reader, str(vecmon), script=apart.encoded(text))
        except WorkerEnded as error:
            raise LabError(apart.TOO_LONG) from error
        return await asyncio.to_thread(apart.decoded, output)

    async def _stop_unattended(self, seat: Seat) -> None:
        """Look at a running program if somebody watches it. Stop it if nobody has watched it for UNSEEN_SECONDS, or it runs too long."""
        now, is_watched = asyncio.get_running_loop().time(), seat.name in self.watched()
        seat.execution.last_seen = now if is_watched or not seat.execution.last_seen else seat.execution.last_seen
        why = f"nobody looked at it for {UNSEEN_SECONDS:g} s" if now - seat.execution.last_seen > UNSEEN_SECONDS else ""
        why = self.machine.has_run_long(seat, self.clock.settings.limit) or why
        if why or is_watched:
            with contextlib.suppress(LabError):  # the next request reports it
                await self.run(seat, self.machine.show(seat, why, "server"))

    async def _tick(self) -> None:
        """Grant the clock's slices, if a program runs."""
        async with self.thread.lock:
            settings = self.clock.settings
            if settings.on and self.seats.running() and not self.scripts.is_behind():
                try:
                    await self.thread.execute(self.machine.grant(settings.slices))
                except LabError as error:
                    self.set_clock({"on": False})
                    self.seats.operator.log.add(f"!The clock was stopped: {error}.")

    def _notes(self, session: Session, scripts: Sequence[int], stops: Mapping[str, str]) -> Notes:
        """Return notes on a session.

        scripts: for each script, the number of lines that set the machine up; the session has the last script
        stops: the last stops of users when the last script started, by digit
        """
        settings, digest = asdict(self.clock.settings), session.script_digest
        return Notes(session.lines, session.digest, settings, self.own_slices, scripts, stops, digest)

    def _change_all(self) -> None:
        """Report news to all seats, and to the operator's seat."""
        self.changed([self.letter, *self.seats.names()])
