"""The scripts of a machine. Checkpoints shorten the part that a new process executes. A spare process follows the machine. After a long
script the next one starts."""

import asyncio
import concurrent.futures
import contextlib
import math
from collections.abc import Callable, Mapping, Sequence

from ... import LabError
from ...machine.session import Checkpoint, Session
from .worker_pool import WorkerPool
from .machine_thread import MachineThread
from .script_file import ScriptFile

FOLLOW_SECONDS, SHORTEN_SECONDS = (
    0.2,
    0.5,
)  # between updates of the spare process; between looks at the length of the script
NEXT_SCRIPT_BYTES, NEXT_SCRIPT_SECONDS = (
    12_000_000,
    300.0,
)  # of a script, after which the next one starts; a server executes the last one when it starts
MAX_SET_UP_BYTES = 9_000_000  # of the lines with which the next script sets the machine up
MAX_BEHIND = 3.0  # a multiple of the weight at which a checkpoint is due; above it, no slices are granted until there is a checkpoint


Saver = Callable[[Session, Sequence[int], Mapping[str, str]], bool]
"""A function that saves notes on a session, and returns whether that succeeded. Its other arguments are the number of set-up lines of each
script, and the users' last stops, by digit, when the last script started."""


class Scripts:
    """The scripts of a machine, and the file of the last one.

    set_up: for each script, the number of lines at its start that set the machine up
    stops: the last stops of users when the last script started, by digit (`Seats.stops`)
    """

    def __init__(self, thread: MachineThread, file: ScriptFile, makers: WorkerPool, save: Saver) -> None:
        """makers: processes that make checkpoints; save: saves notes"""
        self.file = file
        self.set_up: Sequence[int] = [0]
        self.stops: Mapping[str, str] = {}
        self._machine, self._thread, self._makers, self._save = thread.machine, thread, makers, save
        self._minimum = math.inf  # the weight at which a script gets a checkpoint; more after a failure
        self._follower = concurrent.futures.ThreadPoolExecutor(1)  # a thread that updates the spare process

    def is_behind(self) -> bool:
        """Return whether slices have to wait for a checkpoint, since a new process would take too long to catch up."""
        return self._machine.session.weight > MAX_BEHIND * self._minimum

    async def shorten(self) -> None:
        """Make checkpoints when they are due, so that a new process catches up fast, and start the next script. Never returns."""
        self._minimum = max(1.0, self._machine.session.weight)
        while True:
            await asyncio.sleep(SHORTEN_SECONDS)
            if self._machine.session.weight >= self._minimum:
                try:
                    await self.make_checkpoint()
                    self._minimum = 1.0
                    session = self._machine.session
                    if session.size > NEXT_SCRIPT_BYTES or session.recorded.total > NEXT_SCRIPT_SECONDS:
                        await self.start_next()
                except (LabError, OSError):
                    self._minimum = max(1.0, 1.5 * self._machine.session.weight)

    async def follow(self) -> None:
        """Execute the machine's new lines in the spare process, at intervals. Never returns."""
        while True:
            with contextlib.suppress(LabError):  # the next request reports it
                await asyncio.get_running_loop().run_in_executor(self._follower, self._machine.session.follow)
            await asyncio.sleep(FOLLOW_SECONDS)

    async def make_checkpoint(self) -> None:
        """Make a checkpoint of the present state, or of a state shortly before, in a separate process. Raises LabError if that fails."""
        async with self._thread.lock:
            session = self._machine.session
            script, spent = session.short_script, session.recorded.spent
        program, *words = session.command
        words = [program, f"{session.quantum}", *words[words.index("/dev/stdin") + 1 :]]
        number, _, lines = (await self._makers.run("checkpoints.checkpoint", *words, script=script)).partition(b"\n")
        async with self._thread.lock:
            session.recorded.shorten(Checkpoint(int(number), lines), spent)

    async def start_next(self) -> None:
        """Continue in the next script, which starts with the last checkpoint.

        Raises LabError and OSError if that fails; then the present script continues.
        """
        async with self._thread.lock:
            await self._thread.call(self._begin_next)
            for seat in (*self._machine.seats.users.values(), self._machine.seats.operator):
                seat.used = 0
        self._thread.changed()

    def _begin_next(self) -> None:
        """Start the next script. Called in the machine's thread."""
        replacement = self._machine.session.renewed()
        set_up, stops = [*self.set_up, replacement.lines], self._machine.seats.stops()
        try:
            if replacement.size > MAX_SET_UP_BYTES or not self.file.is_saved:
                raise LabError("there is no room for another script")
            file = self.file.successor(len(set_up), replacement.script)
            if not self._save(replacement, set_up, stops):
                file.discard()
                raise LabError("the notes of the script aren't saved")
        except BaseException:
            replacement.close()
            raise
        old, self._machine.session = self._machine.session, replacement
        old.end()
        old.close()
        self.file.close()
        self.file = self._machine.file = file
        self.set_up, self.stops = set_up, stops

    def end(self) -> None:
        """End the thread of the spare process, and close the file. The machine has ended before."""
        self._follower.shutdown()
        self._machine.session.close()
        self.file.close()
