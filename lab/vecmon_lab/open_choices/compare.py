"""The comparison of a program's runs: with choices by seeds, with other initial values, and in short slices."""

import pathlib
from collections.abc import Callable, Iterator, Sequence
from dataclasses import dataclass, field, replace
from typing import Any

from .. import LabError, __version__
from ..guest.guest import started
from ..guest.runner import Report as CallReport, Reporter, unreported
from ..guest.symbols import Symbols
from ..instructions.accesses import Span
from ..machine.answers import ProgramState
from ..runs.choices import KINDS, NOTHING
from ..runs.initial_state import InitialState, initial_state_of
from ..runs.open_runs import MAX_BYTES, OpenProgram, Outcome
from .explain import Explainer, run_end
from .known import Known
from .oracle import ProgramOracle
from .report import RelianceForm, Report
from .search import search
from .start import search_start

LENGTHS = ("trim", "length")
"""Kinds of choices that the policy `ones` doesn't make. A program that relies on another kind isn't reported again as `ones`."""

QUANTUMS = (7, 1)
"""Ticks of the short slices."""

SEEDS = 8
TICKS = 70_000_000


@dataclass(frozen=True)
class Question:
    """What a comparison asks.

    seeds: their number; kinds: of choices; only: the function whose choices count, or ""
    symbols: of memory whose bytes at the end are compared as well
    starts: whether initial values and slices are varied, too
    """

    seeds: int = SEEDS
    ticks: int = TICKS
    kinds: tuple[str, ...] = KINDS
    only: str = ""
    symbols: Sequence[str] = ()
    starts: bool = True
    known: Known = field(default_factory=Known)


class Comparison:
    """A program whose runs are compared.

    named: what messages call it; image: its ELF file; words: its arguments, after its name; file: its input
    """

    def __init__(
        self,
        question: Question,
        named: pathlib.Path,
        image: pathlib.Path,
        words: Sequence[str] = (),
        file: pathlib.Path | None = None,
        options: Sequence[str] = (),
    ) -> None:
        """options: of the command that compiles a source. Raises LabError and OSError where the program can't run."""
        self.question, self.named, self.image, self.file = question, named, image, file
        self.words = [image.name, *words]
        self.starts = dict[str, InitialState]()
        """The initial states with which the program ends differently, by the names of the reliances on initial values."""
        self.symbols = Symbols.read(image)
        start = initial_state_of(image, self.words, file, "keep", named)
        self.program = OpenProgram(start, question.ticks, [*self._places()])
        self.oracle = ProgramOracle(self.program)
        command = [*options, *(["--in", f"{file}"] if file else []), f"{named}", *words]
        self.explainer = Explainer(self.program, self.symbols, command)

    @property
    def initial_state(self) -> InitialState:
        """The start of the runs."""
        return self.program.initial_state

    def report(self, show: Callable[[RelianceForm], object] = lambda form: None) -> Report:
        """Compare the runs. `show` gets each reliance as it is found."""
        seeds = range(1, self.question.seeds + 1)
        reliances = list[RelianceForm]()
        for form in self._reliances(seeds):
            reliances.append(form)
            show(form)
        is_undecided = self.oracle.is_undecided
        relies = any(not form["known"] for form in reliances)
        report: Report = {
            "version": __version__,
            "program": f"{self.named}",
            "verdict": "relies" if relies else "undecided" if is_undecided else "same",
            "seeds": self.question.seeds,
            "runs": self.program.runs,
            "end": run_end(self.program.outcome()),
            "reliances": reliances,
        }
        return report

    def _reliances(self, seeds: Sequence[int]) -> Iterator[RelianceForm]:
        """Find the reliances of the program: first on choices, then on all ones, then on its start, then on slices."""
        has_elements = False
        for found in search(self.oracle, seeds, self.question.kinds):
            has_elements |= found.kind not in LENGTHS
            form = self.explainer.choice(found)
            if self._is_asked(form):
                yield self.question.known.marked(form)
        if not has_elements and not self.question.only:
            ones = self.program.with_start(replace(self.initial_state, policy="ones"))
            self.program.runs += 1
            if not ones.outcome().is_like(self.program.outcome()):
                yield self.question.known.marked(self.explainer.ones(ones))
        if self.question.starts:
            for start in search_start(self.program):
                form = self.explainer.start(start)
                self.starts[form["name"]] = start.program.initial_state
                yield self.question.known.marked(form)
            for quantum in QUANTUMS:
                outcome = self._sliced(quantum)
                if not outcome.is_like(self.program.outcome(NOTHING)):
                    yield self.question.known.marked(self.explainer.slices(outcome))
                    break

    def _is_asked(self, form: RelianceForm) -> bool:
        """Return whether a choice is in the function that the question is about."""
        place = form["instruction"]["place"] if "instruction" in form else ""
        return not self.question.only or place.partition("+")[0] == self.question.only

    def _places(self) -> Iterator[Span]:
        """The places of memory that are compared. Raises LabError for a symbol that the program hasn't."""
        for name in self.question.symbols:
            if name not in self.symbols.addresses:
                raise LabError(f"{self.named} has no symbol {name}")
            yield self.symbols.addresses[name], self.symbols.room(name)

    def _sliced(self, quantum: int) -> Outcome:
        """Return the outcome of a run in slices of a number of ticks. Calls that aren't supported are reported once."""
        output = bytearray()
        report: CallReport = unreported
        if quantum == QUANTUMS[0]:
            report = Reporter(self.symbols.place)
        given: dict[str, Any] = {"quantum": quantum, "arguments": self.words, "name": self.named, "file": self.file}
        ticks = -(-self.question.ticks // quantum) * quantum
        with started(self.image, **given, write=output.extend, report=report) as guest:
            stop = guest.go(ticks, lambda: len(output) > MAX_BYTES)
            memory = b"".join(guest.peek(address, length) for address, length in self._places())
            end = stop or ProgramState("running", guest.pc)
        return Outcome(end, bytes(output), memory if stop else b"", 0, 0)
