"""The thread of a machine, which executes turns for an event loop, one at a time, first come, first served."""

import asyncio
import concurrent.futures
from collections.abc import Callable
from functools import partial

from ... import LabError
from ...machine.answers import OutOfStep
from ...machine.session import ProgramGone, ReplayDiffers
from ..core.shared_machine import SharedMachine
from ..core.steps import Turn


class Stopped(LabError):
    """The machine was stopped for good, since a replay gave other answers."""


def rebuilding(letter: str, percent: int) -> str:
    """Return the message on the part of a machine's script that a new process has executed."""
    return f"machine {letter} is being rebuilt: {percent} %"


class MachineThread:
    """Runs a machine, which blocks, in a separate thread. Only the event loop's thread changes seats.

    lock: held during a turn
    stopped: why the machine was stopped for good, or ""; down: why its process doesn't run, or ""
    rebuilding: a message on the progress of a new process that executes the script again; "" if there is none
    """

    def __init__(self, machine: SharedMachine, changed: Callable[[], None], replay_differs: Callable[[], None]) -> None:
        """changed: called if seats have news; replay_differs: called if the machine is stopped because a replay differs"""
        self.lock = asyncio.Lock()  # which is given first come, first served
        self.stopped = self.down = self.rebuilding = ""
        self.changed, self.machine, self._replay_differs = changed, machine, replay_differs
        self._thread = concurrent.futures.ThreadPoolExecutor(1)

    async def execute(self, turn: Turn) -> None:
        """Execute a turn in the machine's thread, and pass the results to the seats. Raises LabError if the machine doesn't run."""
        if self.stopped:
            raise Stopped(self.stopped)
        letter = self.machine.letter
        self.machine.session.progress = partial(self._follow_rebuilding, asyncio.get_running_loop())
        try:
            await self.call(partial(self.machine.execute, turn))
            self.down = ""
        except ReplayDiffers as error:
            self.stopped = f"machine {letter} was stopped, so that nothing goes on in doubt: {error}"
            self._replay_differs()
            raise Stopped(self.stopped) from error
        except (ProgramGone, OutOfStep) as error:
            self.down = f"machine {letter} is down: {error}"
            raise
        finally:
            self.rebuilding = ""
            self.machine.report(turn)
            self.changed()

    async def call(self, call: Callable[[], None]) -> None:
        """Call a function in the machine's thread, and wait for its end.

        Even a cancelled caller waits, so that no notes are made while the function runs.
        """
        started = asyncio.get_running_loop().run_in_executor(self._thread, call)
        try:
            await asyncio.shield(started)
        except asyncio.CancelledError:
            await asyncio.wait([started])
            started.exception()  # asyncio logs an exception that is never retrieved
            raise

    def end(self) -> None:
        """End the machine's process, even while it executes lines, and end the thread."""
        self.stopped = self.stopped or "the server ends"
        self.machine.session.end()
        self._thread.shutdown()

    def _follow_rebuilding(self, loop: asyncio.AbstractEventLoop, percent: int) -> None:
        """Report the part of the script that a new process has executed. Called in the machine's thread."""
        self.rebuilding = "" if percent == 100 else rebuilding(self.machine.letter, percent)
        loop.call_soon_threadsafe(self.changed)
