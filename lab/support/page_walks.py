"""Drawn sequences of actions at a page in a browser. After each one the state in sight is that of a machine of its own.

`cd lab && python -m support.page_walks explore 3` checks the sequences of the seeds 0, 1 and 2, of 200 actions each, at an author's page;
`class` those at a seat of a class, and `SITE` those in the playground of a built site's folder.
"""

import pathlib
import random
import sys
import tempfile
import time
from collections.abc import Callable, Iterator, Mapping, Sequence
from contextlib import contextmanager
from typing import Any

from support.browser import browser_with
from support.busy_host import PATIENCE
from support.class_pages import Explored, Served, Tab
from support.past_sequences import PROGRAMS, Reference, Shown
from support.site import SiteTab, served_files
from vecmon_lab.assembler.trial import read_whole_source
from vecmon_lab.machine.process import Vecmon
from vecmon_lab.machine.program import find_program

ACTIONS = [
    "build",
    "run",
    "step",
    "step",
    "step",
    "back",
    "back",
    "forth",
    "slide",
    "type",
    "break",
    "again",
    "reset",
    "edit",
]
LENGTH = 200  # actions of a sequence
SEEN = """({
    count: id('moment-count').textContent,
    condition: one('.machine, #machine').matches('.absent') ? 'absent' : id('run').textContent,
    pc: one("[data-edit='setpc']")?.dataset.value,
    x: all('dl.registers dd').map(({ title }) => title).filter((title) => title.startsWith('x')),
    v: all('#elements .after[data-register], #elements .plain[data-register]').map((row) =>
        [Number(row.dataset.register), [...row.querySelectorAll('td')].map((cell) => cell.firstChild?.data ?? '')]),
    output: id('output').hidden ? '' : id('output').textContent,
    told: one('#listing .told')?.dataset.address ?? null,
    breaks: all('#listing .breakpoint').map((mark) => mark.closest('[data-address]').dataset.address),
})"""
HEXADECIMAL = (
    "(id('numbers').value = 'hexadecimal', id('numbers').dispatchEvent(new Event('change', { bubbles: true })))"
)
IS_FREE = "id(arguments[0]) && !id(arguments[0]).matches(':disabled')"


class PageWalk:
    """A sequence of actions at a page's controls, each followed by a comparison with a machine that is stepped singly.

    done: the actions. place: the number of instructions of the state in sight; None now
    """

    def __init__(self, tab: Tab, vecmon: Vecmon, seed: int, reload: Callable[[], object]) -> None:
        """reload: opens the page again"""
        self._tab, self._vecmon, self._random, self._open_again = tab, vecmon, random.Random(seed), reload
        self._reference: Reference | None = None
        self._built = self._text = ""
        self._breaks = set[str]()
        self._place: int | None = None
        self._has_run = False  # to a breakpoint at the first instruction, which makes the program a paused one
        self.done = list[str]()

    def run(self, actions: int) -> None:
        """Act a number of times. Raises AssertionError with what differs."""
        try:
            for _ in range(actions):
                self.act(self._random.choice(ACTIONS) if self._reference else "build")
                if self._random.random() < 0.05:
                    self.act("reload")
        finally:
            self.close()

    def act(self, action: str) -> None:
        """Act, and wait until the page shows what it should. Raises AssertionError with what differs."""
        self.do(action)
        until = time.monotonic() + PATIENCE
        while difference := self.difference():
            assert time.monotonic() < until, f"after {' '.join(self.done)}: {difference}"
            time.sleep(0.02)
        if action == "reload":  # a text that was typed just before is lost
            self._text = self._tab.run("code().getValue()")

    def do(self, action: str) -> None:
        """Act, without a look at the page."""
        self.done.append(action)
        getattr(self, f"_{action}")()

    def close(self) -> None:
        """End the machine of the comparison."""
        if self._reference:
            self._reference.close()

    @property
    def _states(self) -> Sequence[Shown]:
        return self._reference.states if self._reference else []

    @property
    def _end(self) -> int:
        return len(self._states) - 1

    def _restart(self, text: str) -> None:
        if self._reference:
            self._reference.close()
        self._reference, self._built = Reference(self._vecmon, read_whole_source(text, self._vecmon)), text
        self._place, self._has_run = None, False

    def _click(self, name: str) -> bool:
        """Click a button unless it is disabled; return whether it was clicked."""
        if not self._tab.run(IS_FREE, name):
            return False
        self._tab.run("id(arguments[0]).click()", name)
        return True

    def _edit(self) -> None:
        """Type another text, now. Breakpoints are removed before: they would move with their lines."""
        if self._place is not None:
            self._click("now")
            self._place = None
        for address in sorted(self._breaks):
            self._click_row(address)
        self._text = self._random.choice(PROGRAMS).format(n=self._random.randint(1, 20))
        self._tab.run("(id('show-source').click(), code().setValue(arguments[0]))", self._text)

    def _build(self) -> None:
        self._edit()
        self._tab.wait(IS_FREE, "assemble")
        self._click("assemble")
        self._restart(self._text)

    def _run(self) -> None:
        """*Run*: in the past to the next breakpoint or the present, and on from there unless it is a stop or a breakpoint."""
        present = self._states[-1]
        if self._place is not None:
            ends = [place for place in range(self._place + 1, self._end) if self._states[place].pc in self._breaks]
            self._click("go")
            self._go_to(ends[0] if ends else self._end)
            if not ends and present.condition not in ("Fault", "Ended") and present.pc not in self._breaks:
                self._go_on()
            return
        if present.condition == "Ended":
            self._restart(self._text)
        self._click("go")
        self._go_on()

    def _go_on(self) -> None:
        """The program runs to a breakpoint or a stop: that of another text once it is built."""
        if self._text != self._built:
            self._restart(self._text)
        self._has_run = self._end == 0 and self._states[0].pc in self._breaks
        while not self._has_run and self._reference and self._reference.step():
            if self._states[-1].pc in self._breaks:
                return

    def _step(self) -> None:
        """*Step* an instruction: of another text once it is built."""
        if self._place is not None:
            self._click("one")
            self._go_to(self._place + 1)
        elif self._text != self._built or self._states[-1].condition != "Ended":
            if self._text != self._built:
                self._restart(self._text)
            self._click("one")
            assert self._reference
            self._reference.step()

    def _back(self) -> None:
        at = self._end if self._place is None else self._place
        assert self._click("backward") == (at > 0), "whether there is a step before"
        self._go_to(max(0, at - 1)) if at else None

    def _forth(self) -> None:
        if self._place is not None:
            self._click("forth")
            self._go_to(self._place + 1)

    def _slide(self) -> None:
        """Move the slider."""
        if self._end > 0:
            at = self._random.randint(0, self._end)
            self._tab.run("(id('moment').value = arguments[0], id('moment').dispatchEvent(new Event('input')))", at)
            self._go_to(at)

    def _type(self) -> None:
        """Type how far to go back."""
        at, number = self._end if self._place is None else self._place, self._random.randint(2, 9)
        if at > 0:
            self._tab.run("(id('line').value = arguments[0], id('command').requestSubmit())", f"back {number}")
            self._go_to(max(0, at - number))

    def _break(self) -> None:
        """Set or remove a breakpoint at an instruction, now. It would move if another text is built."""
        if self._text != self._built:
            return
        if self._place is not None:
            self._click("now")
            self._place = None
        self._click_row(f"{0x10000 + 4 * self._random.randint(0, 5):x}")

    def _click_row(self, address: str) -> None:
        """Set or remove the breakpoint at an address."""
        row = f"#listing [data-address='{address}'] .text"
        self._tab.wait("one(arguments[0])", row)
        self._tab.run("one(arguments[0]).click()", row)
        self._breaks ^= {address}

    def _again(self) -> None:
        if self._place is not None:
            self._click("now")
        self._tab.wait(IS_FREE, "again")
        self._click("again")
        self._restart(self._built)

    def _reset(self) -> None:
        """Take the machine away."""
        self._tab.run("(id('line').value = 'leave', id('command').requestSubmit())")
        assert self._reference
        self._reference.close()
        self._reference = self._place = None
        self._breaks.clear()

    def _reload(self) -> None:
        """Open the page again, which shows the present."""
        self._place = None
        self._open_again()

    def _go_to(self, place: int) -> None:
        self._place = place if place < self._end else None

    def _expected(self) -> Mapping[str, Any]:
        """The values that the page should show."""
        if not self._states:
            return {"condition": "absent"}
        at = self._end if self._place is None else self._place
        state = self._states[at]
        count = f"step {at}, now" if self._place is None else f"step {at} of {self._end}"
        told = state.pc if state.condition == "Fault" else self._states[at - 1].pc if at else None
        return {
            "count": count,
            "condition": "Paused" if self._has_run and at == self._end == 0 else state.condition,
            "pc": state.pc,
            "x": dict(state.x),
            "output": bytes.fromhex(state.output).decode("latin-1"),
            "told": told,
            "breaks": sorted(self._breaks),
        }

    def difference(self) -> str:
        """Return what the page shows otherwise than it should; no text if nothing differs."""
        self._tab.run(HEXADECIMAL)  # which a page that is opened again doesn't keep
        found, expected = self._tab.run(SEEN), self._expected()
        words = [title.replace(",", "").split() for title in found["x"]]
        seen = found | {"x": {name[1:]: value[2:] for name, _, value, *_ in words}, "breaks": sorted(found["breaks"])}
        parts = [f"{name} is {seen[name]!r}, and should be {it!r}" for name, it in expected.items() if seen[name] != it]
        if "pc" in expected:
            registers = "".join(
                self._states[self._end if self._place is None else self._place].v[f"{at}"] for at in range(32)
            )
            parts += [f"v{first} is {cells}" for first, cells in found["v"] if not _is_shown(first, cells, registers)]
        return "; ".join(parts)


def _is_shown(first: int, cells: Sequence[str], registers: str) -> bool:
    """Whether elements in hexadecimal, or bits, are those of a register. registers: the bytes of all of them"""
    data = registers[64 * first :]
    if all(len(cell) == 1 for cell in cells):
        bits = int.from_bytes(bytes.fromhex(data[:64]), "little")
        return all(int(cell) == bits >> place & 1 for place, cell in enumerate(cells))
    return data.startswith("".join(bytes.fromhex(cell)[::-1].hex() for cell in cells))


@contextmanager
def opened(
    kind: str, vecmon: pathlib.Path, folder: pathlib.Path, browser: Any
) -> Iterator[tuple[Tab, Callable[[], object]]]:
    """A tab of a kind of page, and what opens it again. kind: `explore`, `class`, or the folder of a site"""
    if kind in ("explore", "class"):
        served = (
            Explored(folder / "class", vecmon, None)
            if kind == "explore"
            else Served(folder / "class", vecmon, clock=True)
        )
        try:
            tab = Tab(browser, served, "A1")
            tab.run("id('start-page') && !id('start-page').hidden && id('new-program')?.click()")
            yield tab, browser.refresh
        finally:
            served.end()
        return
    with served_files(pathlib.Path(kind)) as (address, _):
        site = SiteTab(browser, f"{address}/playground.html")
        yield site, lambda: site.open(f"{address}/playground.html")


def main(kind: str, number: int) -> None:
    """Check the sequences of all seeds below a number."""
    vecmon = find_program()
    with browser_with(command="chromium-headless-shell") as browser:
        for seed in range(number):
            with tempfile.TemporaryDirectory() as folder, opened(kind, vecmon, pathlib.Path(folder), browser) as (
                tab,
                reload,
            ):
                PageWalk(tab, vecmon, seed, reload).run(LENGTH)
                print(f"seed {seed}: {LENGTH} actions are right", flush=True)


if __name__ == "__main__":
    main(sys.argv[1], int(sys.argv[2]))
