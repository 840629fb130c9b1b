"""How soon a machine answers again whose process was killed: `python lab/tools/replay_times.py [SECONDS]`, with VECMON.

Prints seconds by the clock, and of processor, of the lab and of the program. Without SECONDS: 3.5 MB of steps of eight
users, executed again without a checkpoint, and a server that begins with them. With SECONDS: after so long a class
whose eight seats run endless loops with the clock as it begins, and have no spare.
"""

import asyncio
import contextlib
import os
import pathlib
import resource
import signal
import statistics
import sys
import tempfile
import time
from collections import deque

from support.class_tabs import LOOP, Served, Tab, process
from vecmon_lab.machine.lines import DIGITS
from vecmon_lab.machine.program import find_program
from vecmon_lab.machine.session import Session

KILLS, BETWEEN = 9, 5.0  # how often a process is killed, and the seconds between
ROUNDS = 48_600  # of a step of each user
SCRIPT = "".join(
    [f"{digit} {line}\n" for digit in DIGITS for line in LOOP] + [f"{digit} step 1\n" for digit in DIGITS] * ROUNDS
).encode("ascii")


def processor(number: int) -> float:
    """The seconds of processor that a process of this number has taken."""
    fields = pathlib.Path(f"/proc/{number}/stat").read_text().rpartition(")")[2].split()
    return (int(fields[11]) + int(fields[12])) / os.sysconf("SC_CLK_TCK")


def print_times(name: str, taken: list[float], lab: list[float], program: list[float]) -> None:
    """Prints what was measured."""
    clock = f"median {statistics.median(taken):.2f} s, at most {max(taken):.2f} s, of {len(taken)}"
    own, others = statistics.median(lab), statistics.median(program)
    print(f"{name}: {clock}; of processor the lab's {own:.2f} s, the program's {others:.2f} s", flush=True)


def replays() -> None:
    """A session by itself, whose process is killed again and again."""
    taken, lab, program = list[float](), list[float](), list[float]()
    with Session(find_program()) as session:
        deque(session.do_script(SCRIPT), 0)
        for _ in range(KILLS):
            assert session.process
            os.kill(session.process, signal.SIGKILL)
            started, own = time.perf_counter(), time.process_time()
            session.do("1 step 1")
            taken.append(time.perf_counter() - started)
            lab.append(time.process_time() - own)
            program.append(processor(session.process))
    print_times(f"{len(SCRIPT):,} bytes in a new process, without a checkpoint", taken, lab, program)


async def initial_states(folder: pathlib.Path) -> None:
    """A server that begins a class, and one that goes on with the script."""
    for name in ("a new class", f"a class of {len(SCRIPT):,} bytes"):
        started, before = time.perf_counter(), resource.getrusage(resource.RUSAGE_CHILDREN)
        async with process(folder) as room:
            seconds = time.perf_counter() - started
            await room.end()
        after = resource.getrusage(resource.RUSAGE_CHILDREN)
        used = after.ru_utime + after.ru_stime - before.ru_utime - before.ru_stime
        print(f"until a server of {name} is ready: {seconds:.2f} s; to its end {used:.2f} s of processor", flush=True)
        (folder / "A.script").write_bytes(SCRIPT)


async def loops(folder: pathlib.Path, seconds: float) -> None:
    """Eight students run loops, and let them run on where the server stopped them; then the process is killed."""
    async with process(folder) as room:
        teacher, *tabs = [await room.sit(seat) for seat in ("teacher", *(f"A{digit}" for digit in DIGITS))]
        started = time.monotonic()
        readers = asyncio.gather(*map(run_on, tabs))
        await teacher.ask("clock", machine="A", on=True)
        await read_until(teacher, started + seconds)
        await kills(room, teacher)
        readers.cancel()
        with contextlib.suppress(asyncio.CancelledError):
            await readers


async def run_on(tab: Tab) -> None:
    """A student whose program runs, and is let go where it was stopped; goes for ever."""
    await tab.do(*LOOP, "go")
    while True:
        await tab.receive()
        if tab.view["state"]["run"] == "stopped":
            await tab.do("go")


async def read_until(tab: Tab, end: float) -> None:
    """Receive the messages of a tab until the time is over."""
    while time.monotonic() < end:
        await tab.receive()


def machine_of(room: Served) -> int:
    """The number of the machine's process, while other processes of the class come and go."""
    while True:
        with contextlib.suppress(FileNotFoundError, ValueError):
            return room.machine()


async def kills(room: Served, teacher: Tab) -> None:
    """Kills the machine's process again and again, and asks the next one."""
    assert room.server
    taken, lab, program = list[float](), list[float](), list[float]()
    for _ in range(KILLS):
        own = processor(room.server.pid)
        os.kill(machine_of(room), signal.SIGKILL)
        started = time.perf_counter()
        await teacher.do("list", machine="A")
        taken.append(time.perf_counter() - started)
        lab.append(processor(room.server.pid) - own)
        program.append(processor(machine_of(room)))
        await read_until(teacher, time.monotonic() + BETWEEN)
    view = teacher.view["machines"]["A"]
    print_times(
        f"script {view['scripts']} of {view['script']:,} bytes, {view['restarts']} replaced", taken, lab, program
    )
    print(f"the server's processor so far: {processor(room.server.pid):.1f} s")


def main(seconds: float) -> None:
    with tempfile.TemporaryDirectory() as name:
        folder = pathlib.Path(name) / "class"
        if seconds:
            asyncio.run(loops(folder, seconds))
        else:
            replays()
            asyncio.run(initial_states(folder))


if __name__ == "__main__":
    main(float(sys.argv[1]) if len(sys.argv) > 1 else 0)
