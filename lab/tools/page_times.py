"""How long a class's pages take: `python lab/tools/page_times.py [CLICKS]`, with VECMON as for the lab.

Prints medians, and the ninth of ten, in ms: a click on Step until it is painted, without others, while seven others step, while they
run with the clock as it begins, with 3,900 rows in the listing, and while 29 students of four machines step; a stop until
the teacher's page shows it.
"""

import asyncio
import pathlib
import random
import statistics
import sys
import tempfile
import threading
from collections.abc import Sequence
from typing import TYPE_CHECKING

import aiohttp

from support import class_tabs
from support.browser import browser_with
from support.class_pages import Served, Tab, close_all, dialog
from vecmon_lab.machine.program import find_program

if TYPE_CHECKING:
    from selenium.webdriver import Chrome

PROGRAM = ["vsetivli x0, 8, e32, m1, ta, ma", "vid.v v1", "vadd.vx v2, v2, x10", "addi x10, x10, 1", "jal x0, -8"]
LONG = "xor a1, a1, a1\n" + "addi a0, a0, 1\n" * 3899
CROWD = [f"{letter}{digit}" for letter in "ABCD" for digit in "12345678"][:30]
CLICKS = """const [count, done] = arguments, log = document.getElementById("log"), taken = [];
const click = () => {
  const begun = performance.now();
  const seen = new MutationObserver(() => {
    seen.disconnect();
    requestAnimationFrame(() => {
      const { port1, port2 } = new MessageChannel(); // its message comes behind the frame
      port1.onmessage = () => {
        taken.push(performance.now() - begun);
        if (taken.length === count) done(taken);
        else setTimeout(click, 60);
      };
      port2.postMessage(0);
    });
  });
  seen.observe(log, { childList: true });
  document.getElementById("one").click();
};
click();"""
BUSY = """window.busy = setInterval(() => document.getElementById("one").click(), 300 + Math.random() * 60)"""
SEEN = """const row = document.querySelector("#seats [data-seat='A2']"), shown = () => row.querySelector(".condition").textContent;
let before = shown();
window.seen = [];
new MutationObserver(() => {
  if (shown() !== before) window.seen.push(performance.timeOrigin + performance.now());
  before = shown();
}).observe(row, { childList: true, characterData: true, subtree: true });"""


def print_times(name: str, taken: Sequence[float]) -> None:
    """Prints what was measured."""
    ninth = statistics.quantiles(taken, n=10)[-1]
    print(
        f"{name}: median {statistics.median(taken):.0f} ms, nine of ten within {ninth:.0f} ms, of {len(taken)}",
        flush=True,
    )


def clicks(tab: Tab, count: int) -> list[float]:
    """The time of a number of clicks on Step, one after the other."""
    taken: list[float] = tab.activate().execute_async_script(CLICKS, count)
    return taken


def press_all(tabs: Sequence[Tab], button: str) -> None:
    """Presses a button in each tab, as soon as it can be pressed."""
    for tab in tabs:
        tab.wait("!one(arguments[0]).disabled", button)
        tab.click(button)


def eight_seats(browser: "Chrome", served: Served, count: int) -> None:
    """A machine with eight students, and their teacher."""
    students = [Tab(browser, served, f"A{number}") for number in range(1, 9)]
    for tab in students:
        tab.begin(*PROGRAM)
    first, *others = students
    clicks(first, 10)
    print_times("a click until it is painted, alone", clicks(first, count))
    for tab in others:
        tab.activate().execute_script(BUSY)
    print_times("the same, seven others step 3 times a second", clicks(first, count))
    for tab in others:
        tab.run("clearInterval(window.busy)")
    teacher = Tab(browser, served, "teacher")
    turn_clock(teacher)
    press_all(others, "#go")
    print_times("the same, seven others run", clicks(first, count))
    press_all(others, "#halt")
    turn_clock(teacher)
    first.run("(code().setValue(arguments[0]), id('assemble').click())", LONG)
    first.wait("id('listing').textContent.includes('xor') && !id('one').disabled")
    print_times("the first one with 3,900 rows", clicks(first, count))
    print_times("a stop until the teacher's page shows it", stops(others[0], teacher, count // 3))


def turn_clock(teacher: Tab) -> None:
    """Turn the clock on, or off."""
    with dialog(teacher, "settings"):
        teacher.click("[name=on]")


def stops(tab: Tab, teacher: Tab, count: int) -> list[float]:
    """From a click on Stop at seat A2 to the teacher's page."""
    taken = []
    teacher.activate().execute_script(SEEN)
    for _ in range(count):
        press_all([tab], "#go")
        teacher.wait("one(\"#seats [data-seat='A2'] .condition\").textContent === '▶running'")
        before = teacher.run("window.seen.length")
        tab.wait("!id('halt').disabled")
        started = tab.run("(id('halt').click(), performance.timeOrigin + performance.now())")
        taken.append(teacher.wait("window.seen[arguments[0]]", before) - started)
    return taken


def thirty_seats(browser: "Chrome", served: Served, count: int) -> None:
    """Four machines with thirty students, 29 of them without a browser, and their teacher."""
    Tab(browser, served, "teacher")
    first, ended = Tab(browser, served, CROWD[0]), threading.Event()
    first.begin(*PROGRAM)
    others = threading.Thread(target=lambda: asyncio.run(crowd(served, ended)))
    others.start()
    try:
        clicks(first, 40)  # meanwhile all sit down
        print_times("a click, 29 others of four machines step 3 times a second", clicks(first, count))
    finally:
        ended.set()
        others.join()


async def crowd(served: Served, ended: threading.Event) -> None:
    """All but the first of thirty students sit down and step, until it has ended."""

    async def step(tab: class_tabs.Tab) -> None:
        await tab.do(*class_tabs.LOOP)
        while not ended.is_set():
            await tab.do("step 1")
            await asyncio.sleep(random.uniform(0.3, 0.36))

    async with aiohttp.ClientSession() as session:
        room = class_tabs.Served(served.folder, served.port, session)
        await asyncio.gather(*[step(await room.sit(seat)) for seat in CROWD[1:]])


def main(count: int) -> None:
    options = ("disable-background-timer-throttling", "disable-renderer-backgrounding")
    with browser_with(*options) as browser, tempfile.TemporaryDirectory() as folder:
        browser.set_script_timeout(300)
        blank = browser.current_window_handle
        for measure, machines in ((eight_seats, 1), (thirty_seats, 4)):
            place = pathlib.Path(folder) / measure.__name__
            served = Served(place, find_program(), "--machines", f"{machines}")
            try:
                measure(browser, served, count)
            finally:
                close_all(browser, [blank])
                served.end()


if __name__ == "__main__":
    main(int(sys.argv[1]) if len(sys.argv) > 1 else 60)
