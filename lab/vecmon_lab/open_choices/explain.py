"""Reports of the choices that a search found: the instruction, what was chosen, what reads it, and what it changes."""

import shlex
from collections import deque
from collections.abc import Iterable, Mapping, Sequence
from typing import NamedTuple

from ..guest.symbols import Symbols
from ..instructions.scalar_registers import scalar_written
from ..machine.session import ScriptFull
from ..runs.choices import NOTHING, Choices
from ..runs.counts import texts_of
from ..runs.divergence import alike_until, explain
from ..runs.initial_state import InitialState
from ..runs.logs import Commit, Log
from ..runs.open_runs import OpenProgram, Outcome
from .effects import Effect, LoggedInstruction, NamedPair, Pair, Place, commit_of, destination_of, element_bytes
from .effects import first_effect, logged_instruction, named_pairs, values_of
from .report import FirstByte, Instruction, Read, RelianceForm, RunEnd, Value
from .requests import is_vset, length_before
from .rules import RULES
from .search import Reliance
from .start import StartReliance

LOOKS_BACK = 20_000
"""Instructions before a choice, among which the one is looked for that set the vector type."""

SHOWN_SETTINGS = 4
"""The most initial values that a command line has."""

LOOKS_AHEAD = 1000
"""Instructions after a choice, among which one is looked for that shows the chosen length."""

_LENGTHS = ("trim", "length")
"""Kinds whose choice is a length; chosen elements are all ones."""


class Site(NamedTuple):
    """An instruction with a choice: its line of the log, and the last vset instruction before it.

    differing: the places that differ after the choice, as far as they are known
    """

    commit: Commit
    vset: LoggedInstruction | None
    differing: Mapping[Place, Pair]


class Explainer:
    """Reports of what makes a difference in the runs of a program."""

    def __init__(self, program: OpenProgram, symbols: Symbols, command: Sequence[str]) -> None:
        """command: the words of a command line that runs the program, after `vecmon-lab run`"""
        self._program, self._symbols, self._command = program, symbols, command

    def choice(self, found: Reliance) -> RelianceForm:
        """Report a choice of an instruction."""
        number = max(1, found.instruction)
        site = self._site(found, number)
        effect = self._effect(self._program, found.without, found.with_choice, number + 1, site.differing)
        here = LoggedInstruction(number, site.commit.pc, site.commit.word or 0)
        report = self._report(
            found.kind, self._program.outcome(found.without), self._program.outcome(found.with_choice)
        )
        report["instruction"] = self.instruction(here)
        report["name"] = self._name(found.kind, here)
        report["values"] = [*map(_value, _chosen_pairs(site))]
        if site.vset and found.kind not in _LENGTHS:
            report["vset"] = self.instruction(site.vset)
        if found.elements:
            report["elements"] = [*found.elements]
        if found.together_from is not None:
            report["together_from"] = found.together_from
        if effect:
            report["read"] = self._read(effect)
        report["options"] = [found.without.options(), found.with_choice.options()]
        report["commands"] = [self._command_line(options) for options in report["options"]]
        return report

    def start(self, found: StartReliance) -> RelianceForm:
        """Report an initial value."""
        report = self._report(found.kind, self._program.outcome(), found.program.outcome())
        with self._program.logged(NOTHING) as one, found.program.logged(NOTHING) as other:
            effect = first_effect(one, other, 1, found.differing)
        without, with_choice = ({place: pair[at] or 0 for place, pair in found.differing.items()} for at in (0, 1))
        report["values"] = [*map(_value, named_pairs(found.differing, without, with_choice, None))][:1]
        report["name"] = f"{found.kind} {found.name}"
        if effect:
            report["read"] = self._read(effect)
        if len(found.settings) <= SHOWN_SETTINGS:
            options = [word for setting in found.settings for word in ("--set", setting)]
            report["commands"] = [self._command_line([]), self._command_line(options)]
        return report

    def ones(self, program: OpenProgram) -> RelianceForm:
        """Report a program that ends differently under the policy `ones`. program: under this policy"""
        keep, ones = self._program.outcome(), program.outcome()
        report = self._report("ones", keep, ones)
        if (keep.what, keep.output) != (ones.what, ones.output):
            report["explanation"] = self._origin((self._program.initial_state, program.initial_state))
        report["options"] = [[], ["--policy", "ones"]]
        report["commands"] = [self._command_line(options) for options in report["options"]]
        return report

    def _origin(self, pair: tuple[InitialState, InitialState]) -> list[str]:
        """Return lines about where two runs diverge, and the origin of the value that makes them diverge."""
        number = alike_until(pair, self._program.ticks)
        try:
            return [*explain(pair, number, ("under keep", "under ones"), self._symbols)]
        except ScriptFull:
            return [f"the runs diverge after {number:,} instructions, too many to search for the origin"]

    def slices(self, outcome: Outcome) -> RelianceForm:
        """Report a run in short slices that ends differently."""
        return self._report("slices", self._program.outcome(), outcome)

    def instruction(self, found: LoggedInstruction) -> Instruction:
        """Return an instruction with its place in the program."""
        place, line = self._symbols.place(found.pc), self._symbols.line(found.pc)
        text = texts_of([found.word])[found.word]
        return {"number": found.number, "address": f"{found.pc:x}", "place": place, "line": line, "text": text}

    def _site(self, found: Reliance, number: int) -> Site:
        """Return an instruction with a choice, by its number in the run without it."""
        vset: LoggedInstruction | None = None
        last: Commit | None = None
        first = max(1, number - LOOKS_BACK)
        with self._program.logged(found.without, first, number) as lines:
            for at, line in enumerate(deque(lines, LOOKS_BACK + 2), first):
                instruction = logged_instruction(line, at)
                if at == number:
                    last = commit_of(line)
                elif instruction and is_vset(instruction.word):
                    vset = instruction
        assert last is not None
        if found.kind in _LENGTHS:
            return Site(last, vset, _differing_length(last, self._length_after(found.with_choice, number)))
        return Site(last, vset, _differing_elements(last, found.elements or ()))

    def _length_after(self, choices: Choices, number: int) -> int | None:
        """Return the vl that the next instruction finds; None if the log doesn't show it."""
        with self._program.logged(choices, number + 1, number + LOOKS_AHEAD) as lines:
            for commit in Log(lines).commits():
                length = length_before(commit)
                if length is not None or is_vset(commit.word or 0):
                    return length
        return None

    def _effect(
        self, program: OpenProgram, one: Choices, other: Choices, first: int, differing: Mapping[Place, Pair]
    ) -> Effect | None:
        """Return the first effect of a choice on the instructions from one on."""
        with program.logged(one, first) as left, program.logged(other, first) as right:
            return first_effect(left, right, first, differing)

    def _read(self, effect: Effect) -> Read:
        """Return the first instruction that reads a choice."""
        return {"instruction": self.instruction(effect.instruction), "values": [*map(_value, effect.values)]}

    def _report(self, kind: str, without: Outcome, with_choice: Outcome) -> RelianceForm:
        """Return what all reports of a kind have."""
        rule = RULES[kind]
        report: RelianceForm = {
            "name": kind,
            "kind": kind,
            "title": rule.title,
            "section": rule.section,
            "rule": rule.rule,
            "fix": rule.fix,
            "known": False,
            "values": [],
            "ends": [run_end(without), run_end(with_choice)],
            "options": [],
            "commands": [],
        }
        if difference := _first_byte(without.output, with_choice.output):
            report["output"] = difference
        if difference := _first_byte(without.memory, with_choice.memory):
            report["memory"] = difference
        return report

    def _name(self, kind: str, found: LoggedInstruction) -> str:
        """Return the name of a reliance: the kind, the mnemonic, and the function or the line."""
        text = texts_of([found.word])[found.word]
        place = self._symbols.place(found.pc).partition("+")[0] or self._symbols.line(found.pc) or f"{found.pc:x}"
        return f"{kind}@{text.partition(' ')[0]} {place}"

    def _command_line(self, options: Sequence[str]) -> str:
        """Return the command line that makes a run. options: of `run`"""
        return shlex.join(["vecmon-lab", "run", *options, *self._command])


def run_end(outcome: Outcome) -> RunEnd:
    """Return the end of a run as a report has it."""
    return {"end": outcome.what, "output": len(outcome.output), "instructions": outcome.instructions}


def _value(pair: NamedPair) -> Value:
    """Return what differs as a report has it."""
    return {"name": pair.name, "without": pair.without, "with_choice": pair.with_choice}


def _differing_elements(commit: Commit, elements: Iterable[int]) -> dict[Place, Pair]:
    """Return the bytes of elements of a destination that differ if these elements are all ones."""
    differing, written, destination = dict[Place, Pair](), values_of(commit), destination_of(commit)
    if destination:
        for element in elements:
            places = [("v", at) for at in element_bytes(destination, element)]
            differing.update({place: (written.get(place), 0xFF) for place in places if written.get(place) != 0xFF})
    return differing


def _differing_length(commit: Commit, chosen: int | None) -> dict[Place, Pair]:
    """Return the places that differ if an instruction leaves a chosen length: vl, and the register that a vset instruction writes.

    chosen: None if it is unknown
    """
    differing: dict[Place, Pair] = {("vl", 0): (commit.vector_type[2] if commit.vector_type else None, chosen)}
    word = commit.word or 0
    register = scalar_written(word) if is_vset(word) else 0
    if register:
        differing["x", register] = commit.x.get(register), chosen
    return differing


def _chosen_pairs(site: Site) -> list[NamedPair]:
    """Return what differs after the choices of an instruction, by name: elements before lengths."""
    written, chosen = values_of(site.commit), {place: pair[1] for place, pair in site.differing.items()}
    without = {**written, **{place: pair[0] for place, pair in site.differing.items() if pair[0] is not None}}
    known = {place: value for place, value in chosen.items() if value is not None}
    with_choice = {place: value for place, value in {**written, **known}.items() if chosen.get(place, 0) is not None}
    return [*named_pairs(site.differing, without, with_choice, destination_of(site.commit))]


def _first_byte(one: bytes, other: bytes) -> FirstByte | None:
    """Return the first byte that differs; None if there is none."""
    if one == other:
        return None
    pairs = zip(one, other)
    at = next((at for at, pair in enumerate(pairs) if pair[0] != pair[1]), min(len(one), len(other)))
    return {"at": at, "without": one[at : at + 1].hex(), "with_choice": other[at : at + 1].hex()}
