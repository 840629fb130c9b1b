"""Drawn sequences of actions at a seat. A reference machine executes each instruction singly, and knows each state."""

import asyncio
import json
import pathlib
import random
import sys
import tempfile
from collections.abc import Iterator, Mapping, Sequence
from contextlib import ExitStack, contextmanager, nullcontext
from dataclasses import dataclass, replace
from typing import Any, Protocol
from unittest.mock import patch

from support.class_tabs import patched
from support.desk import Desk
from vecmon_lab.assembler.source import Program
from vecmon_lab.assembler.trial import read_whole_source
from vecmon_lab.classes.core.progress import starts_of
from vecmon_lab.classes.server.store import Store
from vecmon_lab.classes.server.tab_requests import TabRequests
from vecmon_lab.classes.server.served_class import Class
from vecmon_lab.classes.server.tab import Tab
from vecmon_lab.exercises.answer import settled
from vecmon_lab.exercises.exercise import Exercise, read_exercise
from vecmon_lab.guest.guest import VECTOR_LOOKS
from vecmon_lab.machine.answers import ControlRegisters, Output, ScalarRegisters, Stop, VectorRegister, read
from vecmon_lab.machine.process import Vecmon
from vecmon_lab.machine.program import find_program
from vecmon_lab.machine.session import Session
from vecmon_lab.playground.kept_texts import KeptTexts
from vecmon_lab.playground.page_desk import PageDesk
from vecmon_lab.replay import own_lines, private_machine, saved_states

PROGRAMS = [
    "li t0, {n}\nli t1, 0\nloop: add t1, t1, t0\naddi t0, t0, -1\nbnez t0, loop\nebreak\n",
    "li t0, {n}\nli t1, 0x50000\nloop: addi t0, t0, -1\nbnez t0, loop\nsw t0, 0(t1)\nebreak\n",
    "la a1, x\nli t0, {n}\nloop: vsetivli zero, 8, e32, m1, ta, ma\nvle32.v v1, (a1)\nvadd.vi v1, v1, 3\n"
    "vse32.v v1, (a1)\naddi t0, t0, -1\nbnez t0, loop\nebreak\n.data\nx: .word 1, 2, 3, 4, 5, 6, 7, 8\n",
    "li t0, {n}\nloop: li a7, 64\nli a0, 1\nla a1, x\nli a2, 5\necall\naddi t0, t0, -1\nbnez t0, loop\nebreak\n"
    '.data\nx: .ascii "hallo"\n',
    "la t0, x\nli t2, 4064\nadd t0, t0, t2\nli t1, {n}\nloop: addi t1, t1, -1\nbnez t1, loop\n"
    "vsetivli zero, 16, e32, m4, ta, ma\nvid.v v4\nvse32.v v4, (t0)\nebreak\n.data\nx: .zero 4096\n",
]  # the last one's store faults at its element 8: the registers show it
ACTIONS = [
    "build",
    "run",
    "step",
    "step",
    "back",
    "back",
    "forth",
    "run",
    "break",
    "set",
    "again",
    "reset",
    "open",
    "edit",
]
EXERCISE = "doubles"
SEAT, OTHER_SEAT, PATIENCE = "A1", "A2", 30.0  # of a class; and seconds that its machine has for an answer
ENDLESS = "loop: addi t0, t0, 1\nj loop\n"
Answer = Mapping[str, Any]


class Page(Protocol):
    """A page's requests, to a desk or to a class."""

    view: dict[str, Any]

    def ask(self, **request: object) -> Answer:
        """The answer to a request, once nothing goes on; the view is the one after that."""

    def reload(self) -> None:
        """The page is opened again."""

    def close(self) -> None:
        """End its machines."""


@dataclass(frozen=True)
class Shown:
    """What a page shows of a state."""

    pc: str
    x: Mapping[str, str]
    v: Mapping[str, str]
    control: Sequence[int]
    output: str
    condition: str


def shown(state: Mapping[str, Any], condition: str) -> Shown:
    """A state of a page."""
    control = [state["vl"], int(state["vtype"], 16), state["vstart"], state["vxrm"], state["vxsat"]]
    return Shown(state["pc"], state["x"], state["v"], control, "".join(state.get("outputs", {}).values()), condition)


class Reference:
    """A machine with a program, which is stepped by single instructions. states: after each number of them; the last one is present"""

    def __init__(self, vecmon: Vecmon, program: Program) -> None:
        self._session, self._output, self._stop = Session(vecmon), b"", ""
        self.states = list[Shown]()
        for line in ["enter", *program.load_lines()]:
            assert " E" not in self._session.do(f"1 {line}")[0]
        self.states.append(self._look(0))

    @property
    def present(self) -> Shown:
        """The state after all that was executed."""
        return self.states[-1]

    def step(self) -> bool:
        """Execute an instruction; return whether the program goes on."""
        answer = self._session.do("1 step 1")
        self._stop = answer[0][2:] if isinstance(read(answer), Stop) else ""
        count = len(self.states) - bool(self._stop)
        self.states[count:] = [self._look(count)]
        return not self._stop

    def set(self, line: str) -> None:
        """Change a register."""
        assert self._session.do(f"1 {line}") == ["1 ok"]
        self._stop = ""
        self.states[-1] = self._look(len(self.states) - 1)

    def close(self) -> None:
        """End the machine."""
        self._session.close()

    def _look(self, count: int) -> Shown:
        looks = [f"1 {look}" for look in ("out", "regs", "vcsr", *VECTOR_LOOKS)]
        output, scalar, control, *vectors = map(read, self._session.do_all(looks))
        assert isinstance(output, Output) and isinstance(scalar, ScalarRegisters)
        assert isinstance(control, ControlRegisters)
        self._output += output.data
        kind = self._stop.partition(" ")[0]
        return Shown(
            f"{scalar.pc:x}",
            {f"{number}": f"{value:x}" for number, value in enumerate(scalar.x)},
            {f"{number}": it.data.hex() for number, it in enumerate(vectors) if isinstance(it, VectorRegister)},
            [control.vl, control.vtype, control.vstart, control.vxrm, control.vxsat],
            self._output.hex(),
            {"fault": "Fault", "ebreak": "Ended", "exit": "Ended"}.get(kind, "Paused" if count else "Ready"),
        )


class Walk:
    """A sequence of actions at a page, each followed by a comparison with the reference.

    place: the number of instructions of the moment that is shown; None now
    """

    def __init__(self, page: Page, vecmon: Vecmon, seed: int) -> None:
        self._page, self._vecmon, self._random = page, vecmon, random.Random(seed)
        self._reference: Reference | None = None
        self._built = ""
        self._place: int | None = None
        self._moment: Answer = {}
        self._is_started = False
        self.done = list[str]()

    def run(self, actions: int) -> None:
        """Act a number of times."""
        try:
            for _ in range(actions):
                action = self._random.choice(ACTIONS) if self._reference else "build"
                self.done.append(action)
                getattr(self, f"_{action}")()
                self._compare()
                if self._random.random() < 0.1:
                    self.done.append("reload")
                    self._place = None
                    self._page.reload()
                    self._compare()
        finally:
            if self._reference:
                self._reference.close()

    @property
    def _breaks(self) -> Sequence[str]:
        breaks: Sequence[str] = self._page.view["state"].get("breaks", [])
        return breaks

    def _restart(self, text: str) -> None:
        if self._reference:
            self._reference.close()
        self._reference, self._built = Reference(self._vecmon, read_whole_source(text, self._vecmon)), text
        self._place, self._is_started = None, False

    def _drawn(self) -> str:
        return self._random.choice(PROGRAMS).format(n=self._random.randint(1, 20))

    def _build(self) -> None:
        text = self._drawn()
        assert self._page.ask(ask="source", text=text)["mistakes"] == []
        self._restart(text)

    def _edit(self) -> None:
        number = self._page.view["source"]["number"]
        self._page.ask(ask="draft", text=self._drawn(), number=number, exercise="")
        self._take_text()

    def _open(self) -> None:
        self._page.ask(ask="open", exercise=EXERCISE)
        self._take_text()

    def _take_text(self) -> None:
        """A page that shows its text with the past returns to the present if the text becomes another one."""
        if "text" not in self._moment and self._page.view["source"]["text"] != self._built:
            self._place = None

    def _reset(self) -> None:
        self._page.ask(ask="lines", do=["leave"])
        assert self._reference
        self._reference.close()
        self._reference = self._place = None

    def _again(self) -> None:
        self._page.ask(ask="again")
        self._restart(self._built)

    def _break(self) -> None:
        self._page.ask(ask="breakpoint", line=self._random.randint(2, 5))

    def _set(self) -> None:
        if self._place is None and self._reference:
            text = f"{self._random.randint(1, 99)}"
            self._page.ask(ask="edit", edit="set x9", text=text, decimal=True)
            self._reference.set(f"set x9 {int(text):x}")

    def _step(self) -> None:
        count = self._random.choice([1, 1, 1, 2, 7, 40])
        if self._place is not None:
            self._seek(self._place + count)
        elif self._page.view["condition"] != "Ended" and self._reference:
            self._page.ask(ask="step", count=count)
            self._execute(count)

    def _run(self) -> None:
        if self._place is not None:
            self._seek(self._place, to_break=True)
            return
        if self._page.view["condition"] == "Ended":
            self._restart(self._built)
        self._page.ask(ask="run")
        assert self._reference
        if self._reference.present.condition == "Ready" and self._reference.present.pc in self._breaks:
            self._is_started = True
        else:
            self._execute(1 << 20)

    def _execute(self, count: int) -> None:
        """Step the reference up to a stop or a breakpoint."""
        reference, self._is_started = self._reference, True
        assert reference
        for _ in range(count):
            if not reference.step() or reference.present.pc in self._breaks:
                return

    def _back(self) -> None:
        number = self._random.choice([1, 1, 2, 30])
        self._seek(-number if self._place is None else max(0, self._place - number))

    def _forth(self) -> None:
        if self._place is not None:
            self._seek(self._place + self._random.choice([1, 3]))

    def _seek(self, at: int, to_break: bool = False) -> None:
        """Show a moment as a page does."""
        assert self._reference
        states, breaks = self._reference.states, self._breaks
        expected = min(len(states) - 1, max(0, len(states) - 1 + at) if at < 0 else at)
        if to_break:
            places = range(at + 1, len(states))
            expected = next((place for place in places if states[place].pc in breaks), len(states) - 1)
        self._moment = answer = found(self._page, at, to_break)
        self._place = answer["moment"]["at"] if "moment" in answer else None
        _check_equal("the place", len(states) - 1 if self._place is None else self._place, expected)

    def _compare(self) -> None:
        """Compare the state in sight with the reference's."""
        view, reference = self._page.view, self._reference
        _check_equal("whether there is a machine", view["state"]["run"], "stopped" if reference else "absent")
        if reference is None:
            return
        present = reference.present
        if present.condition == "Ready" and self._is_started:
            present = replace(present, condition="Paused")
        seen = shown(view["state"], view["condition"])
        _check_equal("the present", seen, present)
        if self._place is None:
            return
        moment = self._moment["moment"]
        _check_equal("the number of instructions", moment["end"], len(reference.states) - 1)
        seen = shown(moment["state"], moment["condition"])
        _check_equal(f"the state after {self._place} instructions", seen, reference.states[self._place])
        _check_equal("the source of the past", self._moment.get("text", view["source"]["text"]), self._built)


def _check_equal(what: str, seen: object, expected: object) -> None:
    """Raises AssertionError with what differs."""
    parts = [f"{what} is {seen}, and should be {expected}"]
    if isinstance(seen, Shown) and isinstance(expected, Shown):
        pairs = zip(vars(seen).items(), vars(expected).values())
        parts = [f"{what}: {name} is {one}, and should be {other}" for (name, one), other in pairs if one != other]
    if seen != expected:
        raise AssertionError("; ".join(parts))


def found(page: Page, at: int, to_break: bool = False) -> Answer:
    """The answer with an earlier state, or with none if that is the present."""
    answer = page.ask(ask="past", at=at, to_break=to_break)
    while "percent" in answer:
        answer = page.ask(ask="past", at=at, to_break=to_break)
    return answer


def check(page: Page, vecmon: Vecmon, seed: int, actions: int) -> None:
    """Check a sequence of actions. Raises AssertionError with its seed and its actions."""
    walk = Walk(page, vecmon, seed)
    try:
        walk.run(actions)
    except AssertionError as error:
        raise AssertionError(f"seed {seed}, after {' '.join(walk.done)}: {error}") from error


class DeskPage:
    """A page of a desk, which does what a class's seat does."""

    def __init__(self, vecmon: Vecmon, exercises: Mapping[str, Exercise]) -> None:
        self.desk, self._number = Desk(vecmon, exercises, 1_000_000), 0
        self.view: dict[str, Any] = {}
        self.reload()

    def ask(self, **fields: object) -> Answer:
        """The answer to a request."""
        self._number += 1
        answer: dict[str, Any] = {**self.desk.respond(json.dumps({"id": self._number, **fields}))}
        if "error" in answer:
            raise AssertionError(f"{fields} is refused: {answer['error']}")
        self.view = patched(patched(self.view, answer.get("patch", {})), self.desk.settle().get("patch", {}))
        return answer

    def reload(self) -> None:
        """The page is opened again."""
        self.view = patched({}, self.desk.hello().get("patch", {}))

    def close(self) -> None:
        """End the machines."""
        self.desk.close()


class PlaygroundPage:
    """A playground's page, whose desk is made anew from its texts when it is opened again."""

    def __init__(self, vecmon: Vecmon, exercises: Mapping[str, Exercise], folder: pathlib.Path) -> None:
        self._vecmon, self._exercises, self._folder = vecmon, exercises, folder
        self._texts: dict[str, Any] = {}
        self.view: dict[str, Any] = {}
        self._open()

    def _open(self) -> None:
        starts = {name: starts_of(each) for name, each in self._exercises.items()}
        kept = KeptTexts(self._texts, self._keep)
        self._desk = PageDesk(self._vecmon, kept, self._exercises, starts, lambda path, content: None)
        self.view, self._number = patched({}, self._desk.hello().get("patch", {})), 0

    def _keep(self, name: str, text: str | None, when: float) -> None:
        self._texts[name] = [text, when]

    def ask(self, **fields: object) -> Answer:
        """The answer to a request."""
        self._number += 1
        answer: dict[str, Any] = {**self._desk.respond(json.dumps({"id": self._number, **fields}))}
        if "error" in answer:
            raise AssertionError(f"{fields} is refused: {answer['error']}")
        self.view = patched(self.view, answer.get("patch", {}))
        while self._desk.is_busy:
            news = self._desk.turn()
            self.view = patched(self.view, news.get("patch", {}) if news else {})
        return answer

    def reload(self) -> None:
        """The page is closed, and opened again."""
        self._desk.keep()
        self.close()
        self._open()

    def close(self) -> None:
        """End the machines."""
        self._desk.machine.past.close()
        self._desk.machine.session.close()


class ClassPage:
    """A page of a seat, by the objects of a class's server, while a program of another seat runs on the same machine."""

    def __init__(self, vecmon: pathlib.Path, folder: pathlib.Path) -> None:
        """folder: the class's, which is new"""
        self._loop = asyncio.new_event_loop()
        self._members = Class(Store(folder, vecmon), PATIENCE, exercises=[pathlib.Path(EXERCISE)])
        self._tabs, self._tab, self._number = TabRequests(self._members), Tab(SEAT), 0
        self.view: dict[str, Any] = {}
        room = self._members.rooms[SEAT[0]]
        room.set_clock({"on": True, "ms": 1, "limit": 1_000_000_000})
        self._clock = self._loop.create_task(room.clock.run())
        other = Tab(OTHER_SEAT)
        self._tabs.hello(other)
        request = {"id": 1, "ask": "run", "text": ENDLESS, "language": 0, "number": 0}
        self._loop.run_until_complete(self._tabs.respond(other, json.dumps(request)))
        assert self._members.seat(OTHER_SEAT).state["run"] == "running"
        self.reload()

    def ask(self, **fields: object) -> Answer:
        """The answer to a request."""
        return self._loop.run_until_complete(self._ask(fields))

    async def _ask(self, fields: Mapping[str, object]) -> Answer:
        self._number += 1
        answer: dict[str, Any] = {**await self._tabs.respond(self._tab, json.dumps({"id": self._number, **fields}))}
        if "error" in answer:
            raise AssertionError(f"{fields} is refused: {answer['error']}")
        self.view = patched(self.view, answer.get("patch", {}))
        while self._members.seat(SEAT).state["run"] == "running":
            await asyncio.sleep(0.001)
        self.view = patched(self.view, self._tabs.news(self._tab).get("patch", {}))
        return answer

    def reload(self) -> None:
        """The page is opened again."""
        self._tabs.leave(self._tab)
        self._tab = Tab(SEAT)
        self.view = patched({}, self._tabs.hello(self._tab).get("patch", {}))

    def close(self) -> None:
        """End the class."""
        self._clock.cancel()
        self._loop.run_until_complete(asyncio.gather(self._clock, return_exceptions=True))
        self._members.end()
        self._loop.close()


@contextmanager
def dense_states() -> Iterator[None]:
    """Let replays save states after a few instructions, so that short programs have them, too."""
    names = ((saved_states, "SPACING", 40), (saved_states, "PAGE_SPACING", 0), (saved_states, "MAX_STATES", 6))
    values = (*names, (own_lines, "WORTH", 15), (saved_states, "NEAR", 4), (private_machine, "CHUNK", 32))
    with ExitStack() as stack:
        for module, name, value in values:
            stack.enter_context(patch.object(module, name, value))
        yield


def opened(vecmon: pathlib.Path, exercises: Mapping[str, Exercise], folder: pathlib.Path, seed: int) -> Page:
    """A page of the kind that belongs to a seed: of a desk, a playground or a class. folder: an empty one"""
    if seed % 3 == 0:
        return DeskPage(vecmon, exercises)
    if seed % 3 == 1:
        return PlaygroundPage(vecmon, exercises, folder)
    return ClassPage(vecmon, folder / "class")


def main() -> None:
    """Check sequences of all seeds below a number: `python -m support.past_sequences 2000`. Half of them save many states."""
    vecmon = find_program()
    exercises = {EXERCISE: settled(vecmon, read_exercise(pathlib.Path(EXERCISE)))}
    for seed in range(int(sys.argv[1])):
        with tempfile.TemporaryDirectory() as folder, dense_states() if seed % 2 else nullcontext():
            page = opened(vecmon, exercises, pathlib.Path(folder), seed)
            check(page, vecmon, seed, 30)
            page.close()
    print(f"{sys.argv[1]} sequences are right")


if __name__ == "__main__":
    main()
