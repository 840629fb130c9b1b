"""Where two runs of an image diverge, and the origin of the value that makes them diverge."""

import bisect
import itertools
from collections.abc import Callable, Iterator, Sequence
from concurrent.futures import ThreadPoolExecutor
from contextlib import ExitStack, contextmanager
from dataclasses import dataclass, replace
from typing import TypeVar

from ..guest.changes import NAMES, Registers, Stepper
from ..guest.guest import PACES, Guest, pokes, started
from ..guest.runner import unreported
from ..guest.symbols import Symbols
from ..instructions.accesses import REGISTER_BITS
from ..instructions.calls import ECALL
from ..instructions.words import VECTOR_ACCESSES, listed
from ..machine.answers import CONTROL
from .initial_state import InitialState
from .counts import CountedWord, Counts
from .dataflow import Cell, Executed, conditions, parts
from .recorder import record

STEPPED = 1000  # the most instructions that are stepped at once, up to a change of the value
EXACT_LEAPS = 2  # searches for the last change of a value; later ones look for the first change that made it differ
MAX_WRITTEN, SHOWN = 256, 4
_AGNOSTIC = {"tail": "the tail of", "masked off": "elements masked off by"}
_CONTROLS = {(name, 0) for name in CONTROL}

Pair = Sequence[InitialState]
"""The initial states of two runs."""

Given = TypeVar("Given")
Made = TypeVar("Made")


@dataclass(frozen=True)
class CommonStep:
    """An instruction that two runs execute.

    number: its number in both runs, from 1; runs: the instruction in each run, with the registers before it
    """

    number: int
    runs: Sequence[Executed]

    def differs(self, place: Cell) -> bool:
        """Return whether a place differs between the runs before the instruction. Memory always counts as different."""
        return place[0] == "memory" or len({_value_at(place, run.before) for run in self.runs}) > 1

    def describe(self, symbols: Symbols) -> str:
        """Return its address, the place relative to a symbol, the source line, and its text."""
        retired = self.runs[0].retired
        places = [symbols.place(retired.pc), symbols.line(retired.pc)]
        return f"{' '.join([f'{retired.pc:x}', *filter(None, places)])}: {retired.text}"


def recorded(initial_state: InitialState, ticks: int | None) -> tuple[Counts, bytes]:
    """Return the counts of a run, with elements only for instructions that access memory, and the run's output."""
    output = list[bytes]()
    counts = record(initial_state, ticks, output.append)
    return replace(counts, places=[_accessed(place) for place in counts.places]), b"".join(output)


def _accessed(place: CountedWord) -> CountedWord:
    """Return the executions at an address, with elements only for a load or store.

    A mask with agnostic bits may activate other elements of an operation, whose results may never be used.
    """
    return place if place.word & 0x7F in VECTOR_ACCESSES else replace(place, elements=(0, 0, 0))


def alike_until(pair: Pair, ticks: int) -> int:
    """Return the number of instructions that two runs execute before they diverge, if they diverge within these ticks.

    They diverge if the next address, a stop, the output, vl, or the number of active elements of a load or store differs.
    """

    def are_unlike(count: int) -> bool:
        one, other = _side_by_side(lambda initial_state: recorded(initial_state, count), pair)
        return one != other

    low, high = 0, 1024
    while high < ticks and not are_unlike(high):
        low, high = high, high * 4
    alike = low + bisect.bisect_left(range(low + 1, high), True, key=are_unlike)
    return recorded(pair[0], alike)[0].instructions if alike else 0


def explain(pair: Pair, number: int, names: Sequence[str], symbols: Symbols) -> Iterator[str]:
    """Yield lines about the instruction at which two runs diverge, the values that it reads, and their origin.

    number: the number of instructions before the divergence; names: the names of the two runs, as the lines have them
    """
    first = max(0, number - STEPPED)
    with _guests_at(pair, first) as guests:
        *steps, last = _stepped(guests, first, number + 1)
        places = {place for place in conditions(last.runs[0]) if last.differs(place)}
        if not places and last.runs[0].retired.word == ECALL:
            places = set(_put_out_otherwise(guests, last.runs[0].before))
        values = [_values(places, guest, run.before) for guest, run in zip(guests, last.runs)]
    yield f"the runs diverge at {last.describe(symbols)}"
    for name in list(values[0])[:SHOWN]:
        yield f"  {name}: {', '.join(f'{value[name]:x} {run}' for value, run in zip(values, names))}"
    chain = list[CommonStep]()
    source = _source(pair, first, steps, places, chain, symbols)
    if chain:
        yield f"  first read at {chain[-1].describe(symbols)}"
    if source:
        yield f"  {source}"


def _source(
    pair: Pair, first: int, steps: Sequence[CommonStep], places: set[Cell], chain: list[CommonStep], symbols: Symbols
) -> str:
    """Return a text about the origin of a value that differs after some instructions; "" if it isn't found.

    first: the number of instructions before `steps`; places: the places that differ
    chain: the instructions that passed the value on are appended, the last one first
    """
    leaps = 0
    while places:
        found, places = _followed(steps, places, chain)
        if found:
            return f"which comes from {found[1]} {found[0].describe(symbols)}"
        unwritten = places and _never_written(pair, first, places)
        if unwritten:
            return f"which comes from {_listed(unwritten)}, where nothing has been written"
        last = _last_change(pair, first, places, leaps < EXACT_LEAPS) if places else 0
        if places and not last:
            return f"which comes, perhaps, from {_listed(places)}, where nothing has been written"
        first, leaps = max(0, last - STEPPED), leaps + 1
        with _guests_at(pair, first) as guests:
            steps = _stepped(guests, first, last)
    return ""


def _followed(
    steps: Sequence[CommonStep], places: set[Cell], chain: list[CommonStep]
) -> tuple[tuple[CommonStep, str] | None, set[Cell]]:
    """Search backwards for the instruction that leaves the differing places agnostic.

    Return this instruction with the kind of its agnostic elements, or None if it isn't found. Also return the places that differ before the
    steps, with which the search goes on.
    """
    for step in reversed(steps):
        matching = [part for part in parts(step.runs[0]) if not places.isdisjoint(part[0])]
        made = [part for part in matching if not places.isdisjoint(part[0] - part[1].intersection(_CONTROLS))]
        agnostic = {_AGNOSTIC[kind] for *_, kind in made if kind in _AGNOSTIC}
        if agnostic:
            return (step, " and ".join(sorted(agnostic))), set()
        if made:
            read = conditions(step.runs[0]).union(*(part[1] for part in made))
            differing = {place for place in read if step.differs(place)}
            registers = {place for place in differing if place[0] != "memory"}  # where an address differs, too
            places = places.difference(*(part[0] for part in made)) | (registers or differing)
            chain.append(step)
    return None, places


def _last_change(pair: Pair, number: int, places: set[Cell], is_exact: bool) -> int:
    """Return the number of the last instruction that changed places before a number of instructions; 0 if there is none.

    The search goes back in leaps, and assumes that the values are unchanged between two of them.

    is_exact: whether to find when the places got their values; otherwise, when they began to differ between the runs
    """
    now = _contents(pair, number, places)

    def holds(count: int) -> bool:
        one, other = found = _contents(pair, count, places)
        return found == now if is_exact else one != other

    if holds(0):
        return 0
    high, leap = number, 64
    while high > leap and holds(high - leap):
        high, leap = high - leap, leap * 4
    low = max(0, high - leap) + 1
    return low + bisect.bisect_left(range(low, high), True, key=holds)


def _never_written(pair: Pair, number: int, places: set[Cell]) -> set[Cell]:
    """Return the places that differ, and still have their initial values after a number of instructions."""
    start, now = (_contents(pair, count, places) for count in (0, number))
    names = {name for name, value in start[0].items() if value != start[1][name]}
    names = {name for name in names if all(run[name] == later[name] for run, later in zip(start, now))}
    return {place for place in places if _name(place) in names}


def _contents(pair: Pair, number: int, places: set[Cell]) -> Sequence[dict[str, int]]:
    """Return the values of places in both runs after `number` instructions, by the name of the place."""
    with _guests_at(pair, number) as guests:
        return _side_by_side(lambda guest: _values(places, guest, Stepper(guest).registers), guests)


def _value_at(place: Cell, registers: Registers) -> int:
    """Return a bit of a register, or the value of a control register."""
    kind, at = place
    if kind in "xv":
        return (registers.x[at // 64] >> at % 64 if kind == "x" else registers.v[at // 8] >> at % 8) & 1
    return registers.values()[NAMES.index(kind)]


def _name(place: Cell) -> str:
    """Return the name of a place: that of a scalar or control register, or of a byte in a vector register or in memory."""
    kind, at = place
    if kind == "v":
        return f"v{at // REGISTER_BITS}.e8[{at % REGISTER_BITS // 8}]"
    return f"[{at:x}]" if kind == "memory" else f"x{at // 64}" if kind == "x" else kind


def _values(places: set[Cell], guest: Guest, registers: Registers) -> dict[str, int]:
    """Return the values of places, by name. Pages that aren't mapped have zeros."""
    values = dict[str, int]()
    for kind, at in sorted(places):
        name = _name((kind, at))
        if kind == "v":
            values[name] = registers.v[at // 8]
        elif kind == "memory":
            values[name] = int.from_bytes(guest.peek(at, 1), "little")
        else:
            values[name] = registers.values()[NAMES.index(name)]
    return values


def _listed(places: set[Cell]) -> str:
    """Return a text with the registers of places, and with the first address of their memory."""
    registers = dict.fromkeys(_name(place).partition(".")[0] for place in sorted(places) if place[0] != "memory")
    memory = [f"memory from {at:x} on" for kind, at in sorted(places) if kind == "memory"]
    return listed([*registers, *memory[:1]])


def _put_out_otherwise(guests: Sequence[Guest], before: Registers) -> Iterator[Cell]:
    """Yield the bytes of a system call's output that differ between the two runs. before: the registers before the call"""
    address, length = before.x[11], min(before.x[12], MAX_WRITTEN)
    for at, pair in enumerate(zip(*(guest.peek(address, length) for guest in guests))):
        if pair[0] != pair[1]:
            yield "memory", address + at


@contextmanager
def _guests_at(pair: Pair, number: int) -> Iterator[Sequence[Guest]]:
    """Yield the guests of both runs, each on its own machine, after a number of instructions."""
    with ExitStack() as stack:
        yield _side_by_side(lambda initial_state: _continued(initial_state, number, stack), pair)


def _continued(initial_state: InitialState, number: int, stack: ExitStack) -> Guest:
    """Return a guest of a run after a number of instructions. stack: closes the guest"""
    assert initial_state.image
    for pace in PACES:
        guest = stack.enter_context(started(initial_state.image, policy=initial_state.policy, report=unreported))
        guest.ask(*(poke for at, _, data in initial_state.memory for poke in pokes(at, data)))
        guest.ask(*itertools.chain(*(_writes(line, guest) for line in initial_state.registers)))
        if guest.pass_over(number, *pace):
            break
    return guest


def _writes(line: str, guest: Guest) -> Iterator[str]:
    """Yield the commands that give a register its initial value.

    A control register is set by an instruction, which is temporarily written over the first one.
    """
    (name, value), pc = line.split(), guest.pc
    if name in CONTROL:
        word = guest.word_at(pc)[0].to_bytes(4, "little").hex()
        yield from (f"asm {pc:x} csrrwi x0, {name}, {value}", "step 1", f"poke {pc:x} {word}", f"setpc {pc:x}")
    else:
        yield f"{'vset' if name[0] == 'v' else 'set'} {line}"


def _stepped(guests: Sequence[Guest], first: int, last: int) -> list[CommonStep]:
    """Step both guests from after instruction `first` to instruction `last`, and return these instructions."""
    steppers, steps = [Stepper(guest) for guest in guests], list[CommonStep]()
    for number in range(first + 1, last + 1):
        before = [stepper.registers.copy() for stepper in steppers]
        steps.append(CommonStep(number, [Executed(stepper.step(), each) for stepper, each in zip(steppers, before)]))
    return steps


def _side_by_side(work: Callable[[Given], Made], pair: Sequence[Given]) -> Sequence[Made]:
    """Return the results of a function for each of two values. Both are computed at the same time."""
    with ThreadPoolExecutor(2) as pool:
        return list(pool.map(work, pair))
