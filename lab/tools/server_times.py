"""The throughput of a class's server: `python lab/tools/server_times.py`, with VECMON as for the lab.

Prints requests a second of eight clients; how long a stop takes to a teacher's tab, in ms; the teacher's wait while eight
clients flood; the bytes of a script of two hours; how long eight checks at once take.
"""

import asyncio
import pathlib
import statistics
import tempfile
import time

from support.class_tabs import LOOP, Served, Tab, process
from vecmon_lab.exercises.exercise import OURS

REQUESTS, STOPS, FLOODED = 400, 40, 10_000
HOURS = 2 * 3600


async def requests(tabs: list[Tab], line: str) -> str:
    """How many requests of one line eight clients are answered in a second."""

    async def ask(tab: Tab) -> None:
        for _ in range(REQUESTS):
            await tab.do(line)

    started = time.perf_counter()
    await asyncio.gather(*map(ask, tabs))
    return f"{8 * REQUESTS / (time.perf_counter() - started):.0f} requests a second: {line}, each with the state that it left"


async def stops(tab: Tab, teacher: Tab) -> str:
    """From the request whose slice ends in a breakpoint to the teacher's tab."""
    taken = []
    await tab.do("break 10004")
    for _ in range(STOPS):
        await tab.do("setpc 10000", "go")
        await teacher.until(lambda view: view["machines"]["A"]["seats"]["1"]["run"] == "running")
        await asyncio.sleep(0.15)  # so that the news of the stop don't wait for those of its program's start
        started = time.perf_counter()
        task = asyncio.create_task(tab.do(slices=1))
        await teacher.until(lambda view: view["machines"]["A"]["seats"]["1"]["run"] == "stopped")
        taken.append(1000 * (time.perf_counter() - started))
        await task
        await asyncio.sleep(0.15)
    return f"a stop on the teacher's tab: median {statistics.median(taken):.0f} ms, worst {max(taken):.0f}"


async def flood(tabs: list[Tab], teacher: Tab) -> str:
    """Eight clients send lines as fast as they can; the teacher's longest wait for an answer."""

    async def send(tab: Tab) -> None:
        for _ in range(FLOODED // 250):
            await tab.do(*["step 1"] * 250)

    started, worst = time.perf_counter(), 0.0
    floods = asyncio.gather(*map(send, tabs))
    while not floods.done():
        asked = time.perf_counter()
        await teacher.ask("rights", machine="A", own_slices=True)
        worst = max(worst, time.perf_counter() - asked)
        await asyncio.sleep(0.05)
    await floods
    seconds = time.perf_counter() - started
    return f"8 x {FLOODED:,} lines in {seconds:.1f} s; the teacher waited {1000 * worst:.0f} ms at most"


async def hours(room: Served, tabs: list[Tab]) -> str:
    """A class of two hours: each student brings in a program each ten minutes and steps each two seconds."""
    before = (room.folder / "A.script").stat().st_size
    await tabs[0].ask(
        "source", text="loop: vsetvli t0, a0, e32, m1, ta, ma\n" + "vadd.vv v1, v1, v1\n" * 20 + "j loop\n"
    )
    source = (room.folder / "A.script").stat().st_size - before
    steps, clock = 8 * HOURS // 2 * len("1 step 1\n"), HOURS * 1000 // 30 * len("* slices 1000\n")
    whole = steps + 8 * 12 * source
    return f"two hours: {whole:,} bytes of script, and {clock:,} more if programs run all the time"


async def checks(folder: pathlib.Path) -> str:
    """Eight students check a correct answer at once, five times, until each has the result."""
    source, taken = (OURS / "byte_sum" / "good.s").read_text("utf-8"), []

    async def check(tab: Tab, tries: int) -> None:
        await tab.ask("check", exercise="byte_sum", text=source)
        await tab.until(lambda view: view["exercises"]["byte_sum"]["tries"] == tries)

    async with process(folder, "--exercise", "byte_sum") as room:
        tabs = [await room.sit(f"A{digit}") for digit in "12345678"]
        for tries in range(1, 6):
            started = time.perf_counter()
            await asyncio.gather(*(check(tab, tries) for tab in tabs))
            taken.append(time.perf_counter() - started)
    return f"eight checks at once: median {statistics.median(taken):.2f} s, worst {max(taken):.2f}"


async def main() -> None:
    """Measures, and prints."""
    with tempfile.TemporaryDirectory() as folder:
        async with process(pathlib.Path(folder) / "class") as room:
            tabs = [await room.sit(f"A{digit}") for digit in "12345678"]
            for tab in tabs:
                await tab.do(*LOOP, "asm 10008 vsetivli x0, 8, e32, m1, ta, ma", "asm 1000c vadd.vv v1, v1, v1")
            print(await requests(tabs, "step 1"))
            for tab in tabs:
                await tab.do("asm 10010 jal x0, -4", "setpc 10008", "step 1")
            print(await requests(tabs, "step 1"), "(two of three of vectors)")
            teacher = await room.sit("teacher")  # not before, since a tab that reads nothing for long is dropped
            print(await stops(tabs[0], teacher))
            print(await flood(tabs, teacher))
            print(await hours(room, tabs))
        print(await checks(pathlib.Path(folder) / "checks"))


if __name__ == "__main__":
    asyncio.run(main())
