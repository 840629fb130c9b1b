"""A frame on a lesson's page, compared with the state of a private machine."""

import re
from dataclasses import dataclass, replace
from fractions import Fraction
from typing import Any

from vecmon_lab.machine.lines import is_look
from vecmon_lab.machine.session import Session

PICTURE = """
const [done] = arguments;
const picture = () => {
  const groups = {};
  const rows = [...document.querySelectorAll("#elements tr:is(.after, .plain)[data-register]")];
  const folded = /(\\d+) to (\\d+)/.exec(document.querySelector("#elements .folded")?.textContent ?? "");
  for (const row of rows) {
    const rest = folded ? folded[2] - folded[1] + 1 : 0;
    const group = (groups[row.dataset.register] ??= {cells: rest, tail: rest, masked: 0, prestart: 0, active: 0});
    group.isResult = row.matches(".after");
    for (const cell of row.querySelectorAll("td[data-element]")) {
      group.cells += 1;
      group.active += cell.matches(".active, .kept, .fault, .pending");
      for (const kind of ["tail", "masked", "prestart"]) group[kind] += cell.classList.contains(kind);
    }
  }
  const ofElements = rows.filter((row) => !row.querySelector(".set, .clear"));
  const shown = {};
  const add = (name, isChanged) => (shown[name] ||= isChanged);
  for (const row of ofElements) add(row.querySelector("b").textContent, row.querySelector(".changed") !== null);
  for (const cell of document.querySelectorAll("#registers dd")) add(cell.title.split(",")[0] || "pc", cell.matches(".changed"));
  const texts = ["#count", "main"].map((name) => document.querySelector(name).textContent);
  return [...texts, groups, shown];
};
requestAnimationFrame(() => setTimeout(() => done(picture()))); // after a frame, since widths of rows follow the layout
"""
"""For a browser, asynchronous: the count and the texts, the elements of results and of registers in use by kind, and whether
registers, or groups as `v4–v5`, changed."""


@dataclass(frozen=True)
class FrameState:
    """The machine's state of a frame's user; masked-off elements by register, and registers that changed.

    vstart: the element that the last instruction began with, or faulted at
    is_partial: whether the last instruction writes only element 0, packed elements or whole registers
    """

    vl: int
    vstart: int
    vlmax: int
    masked: dict[int, int]
    changed: set[str]
    is_partial: bool

    def has_changed(self, name: str) -> bool:
        """Whether a register changed, or any of a group as `v4–v5`."""
        first, _, last = name.replace("v", "").partition("–")
        return bool(self.changed & ({f"v{number}" for number in range(int(first), int(last) + 1)} if last else {name}))


class Follower:
    """Does what the frames of a lesson did on a machine of its own, and counts by the machine's answers."""

    def __init__(self, session: Session) -> None:
        self._session = session
        self._values: dict[str, dict[str, str]] = {}  # of each user's registers by their names
        self._starts: dict[str, int] = {}  # vstart of each user
        self._traces: dict[str, list[str]] = {}  # of each user
        self._last: dict[str, FrameState | None] = {}  # of each user

    def state_after(self, frame: dict[str, Any]) -> FrameState | None:
        """After a frame; None while the user isn't there or runs, or without a vector type."""
        answers = []
        if re.search(r" step \d+", frame["line"]):
            answers = self._session.do(frame["line"][0] + " step 1")
        else:
            for entry in frame["log"]:
                if entry[0] == ">" and not is_look(entry[1:]):
                    answers = self._session.do(entry[1:])
        user, before = frame["user"], self._values
        if not answers and self._last.get(user):  # it only looks: vector registers are shown as they were
            last = self._last[user]
            return last and replace(last, changed={name for name in last.changed if name[0] == "v"})
        self._last[user] = state = self._state_after(user, before, answers)
        return state

    def _state_after(self, user: str, before: dict[str, dict[str, str]], answers: list[str]) -> FrameState | None:
        self._values = {each: self._registers(each) or before.get(each, {}) for each in "123"}
        answer = self._session.look(f"{user} vcsr")[0]
        if "vtype=" not in answer or "vtype=8" in answer:
            return None
        control = dict(word.split("=") for word in answer[2:].split())
        vtype, vl, vstart = int(control["vtype"], 16), int(control["vl"]), int(control["vstart"])
        lmul = Fraction(2) ** ((vtype & 7) - 8 * (vtype >> 2 & 1))
        vlmax = int(256 // (8 << (vtype >> 3 & 7)) * lmul)
        old, new = before[user], self._values[user]
        changed = {name for name in old if old[name] != new[name]}
        has_stepped = any(" stepped " in answer for answer in answers)
        start = self._starts.get(user, 0) if has_stepped else vstart
        self._starts[user] = vstart
        trace = self._session.look(f"{user} trace")[0].split()[2:]
        has_executed = has_stepped or trace != self._traces.get(user, [])
        self._traces[user] = trace
        text = self._session.look(f"{user} dis {trace[-1]} 1")[0][28:] if trace and has_executed else ""
        is_partial = re.match(r"v(w?red|compress|mv\.s\.x|mv\dr|l\dr|lm)", text) is not None
        return FrameState(vl, start, vlmax, self._masked(user, text, vl, start), changed, is_partial)

    def _registers(self, user: str) -> dict[str, str]:
        """The scalar and vector registers of a user who is stopped."""
        regs = " ".join(line[2:] for line in self._session.look(f"{user} regs")).split()
        if len(regs) == 1:
            return {}
        vectors = {f"v{number}": self._session.look(f"{user} vreg v{number} 8")[0] for number in range(32)}
        return dict(zip(regs[2::2], regs[3::2])) | vectors

    def _masked(self, user: str, text: str, vl: int, vstart: int) -> dict[int, int]:
        """The masked-off elements of the result of an instruction, if it is masked."""
        result = re.search(r" v(\d+), .*, v0\.t$", text)
        if not result:
            return {}
        mask = int.from_bytes(bytes.fromhex("".join(self._session.look(f"{user} vreg v0 8")[0].split()[2:])), "little")
        return {int(result[1]): sum(not mask >> element & 1 for element in range(vstart, vl))}
