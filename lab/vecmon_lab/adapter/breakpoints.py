"""Breakpoints of the client: at lines, functions and addresses, and at data.

The machine can have breakpoints at 16 addresses. A breakpoint that needs more than are left isn't verified until others are removed.
"""

import itertools
import pathlib
import re
from collections.abc import Callable, Iterable, Iterator, Mapping, Sequence
from dataclasses import dataclass, replace

from .. import LabError
from ..console.breakpoints import MAX_BREAKPOINTS
from ..instructions.accesses import LINE_BYTES
from ..machine.answers import Addresses
from ..machine.session import TOGETHER
from ..replay.watches import Watch
from .program import Program
from .requests import BadArguments, DataBreakpoint, FunctionBreakpoint, InstructionBreakpoint, SourceBreakpoint

FUNCTIONS, INSTRUCTIONS = "functions", "instructions"
NO_HIT_CONDITIONS = "hit counts aren't supported: give it a condition instead, such as i == 5"
_DATA_ID = re.compile("([0-9a-f]{1,16}):([1-9][0-9]{0,19})")  # the first address, and the number of bytes
_ACCESSES = {"write": "watch", "read": "rwatch", "readWrite": "awatch"}

Wanted = SourceBreakpoint | FunctionBreakpoint | InstructionBreakpoint


@dataclass(frozen=True)
class Breakpoint:
    """A breakpoint of the client's.

    number: its identifier; kind: FUNCTIONS, INSTRUCTIONS, or the path of a source
    wanted: the client's request; addresses: the addresses of the instructions that have the breakpoint, in rising order
    file, line: the name of the source file without its folder, and the number of the line, from 1; "" and 0 if they are unknown
    problem: a sentence that says why the breakpoint isn't verified; "" if it is verified
    """

    number: int
    kind: str
    wanted: Wanted
    addresses: Sequence[int] = ()
    file: str = ""
    line: int = 0
    problem: str = ""

    @property
    def condition(self) -> str:
        """An expression that has to be true for a stop; "" if there is no condition."""
        return self.wanted.condition

    @property
    def log_message(self) -> str:
        """A text that is printed instead of a stop; "" if the program should stop."""
        return self.wanted.log_message if isinstance(self.wanted, SourceBreakpoint) else ""


@dataclass(frozen=True)
class DataStop:
    """A data breakpoint of the client's.

    number: its identifier; watch: the watched memory; condition: an expression that has to be true for a stop, or ""
    problem: a sentence that says why the breakpoint isn't verified; "" if it is verified
    """

    number: int
    watch: Watch
    condition: str
    problem: str = ""


class Breakpoints:
    """All breakpoints of a program. Iteration yields the breakpoints at lines, functions and addresses; `data` has the data breakpoints."""

    def __init__(
        self,
        check: Callable[[str], object],
        address_of: Callable[[str, int], int],
        changed: Callable[[Breakpoint], object],
    ) -> None:
        """check: raises LabError if a text isn't an expression
        address_of: returns the address that a text names, plus an offset in bytes; raises LabError if that isn't an address
        changed: called with a breakpoint whose place or problem has changed
        """
        self.data: Sequence[DataStop] = ()
        self._check, self._address_of, self._changed = check, address_of, changed
        self._program: Program | None = None
        self._found_ones = dict[str, Sequence[Breakpoint]]()  # by kind, whether or not the machine has room for them
        # By kind. A breakpoint for which the machine has no room has a problem.
        self._all = dict[str, Sequence[Breakpoint]]()
        self._numbers = itertools.count(1)
        self._set = frozenset[int]()  # the addresses that the machine has

    def __iter__(self) -> Iterator[Breakpoint]:
        return itertools.chain(*self._all.values())

    def attach(self, program: Program) -> None:
        """Set all breakpoints in a program that was just loaded. From now on, this is the program of these breakpoints."""
        self._program, self._set = program, frozenset()
        before = {each.number: each for each in self}
        for kind, saved in self._found_ones.items():
            self._found_ones[kind] = [self._found(each) for each in saved]
        self._place(before, "")
        self._watch()

    def replace(self, kind: str, wanted: Sequence[Wanted]) -> Sequence[Breakpoint]:
        """Replace the breakpoints of a kind. Return the new ones in the same order as `wanted`.

        kind: as in `Breakpoint`; wanted: the client's requests. A breakpoint whose request is unchanged keeps its number.
        """
        before, old = {each.number: each for each in self}, [*self._all.get(kind, ())]
        new = list[Breakpoint]()
        for each in wanted:
            same = next((it for it in old if it.wanted == each), None)
            if same:
                old.remove(same)
            new.append(self._found(Breakpoint(same.number if same else next(self._numbers), kind, each)))
        self._found_ones[kind] = new
        self._place(before, kind)
        return self._all[kind]

    def replace_data(self, wanted: Sequence[DataBreakpoint]) -> Sequence[DataStop]:
        """Replace the data breakpoints. Return the new ones in the same order as `wanted`.

        Raises BadArguments if the identifier of the data isn't one that `dataBreakpointInfo` returns.
        """
        found, room = list[DataStop](), TOGETHER
        for each in wanted:
            parts = _DATA_ID.fullmatch(each.data_id)
            if parts is None:
                raise BadArguments("dataId isn't one of dataBreakpointInfo")
            digits, length = parts.groups()
            watch = Watch(_ACCESSES[each.access_type], int(digits, 16), int(length))
            lines = -(-watch.length // LINE_BYTES)
            problem = self._problem_of(each)
            if not problem and lines > room:
                problem = f"data breakpoints watch {TOGETHER * LINE_BYTES:,} bytes at most, in blocks of {LINE_BYTES}"
            room -= 0 if problem else lines
            found.append(DataStop(next(self._numbers), watch, each.condition, problem))
        self.data = found
        self._watch()
        return found

    @property
    def addresses(self) -> frozenset[int]:
        """The addresses of the verified breakpoints, which the machine has."""
        return self._set

    @property
    def stopping_addresses(self) -> frozenset[int]:
        """The addresses of the verified breakpoints that may stop the program, which those with a log message don't."""
        stopping = [each.addresses for each in self if not each.problem and not each.log_message]
        return self._set & {address for addresses in stopping for address in addresses}

    @property
    def has_room(self) -> bool:
        """Whether the machine has room for a breakpoint at another address."""
        return len(self._set) < MAX_BREAKPOINTS

    def at(self, address: int) -> list[Breakpoint]:
        """Return the verified breakpoints at an address."""
        return [each for each in self if address in each.addresses and not each.problem]

    def lines(self, path: pathlib.Path) -> Mapping[int, Sequence[int]]:
        """Return the addresses of a breakpoint at each line that may have one, by the line's number. path: the path of the source"""
        return self._program.stops.get(path.name, {}) if self._program else {}

    def _watch(self) -> None:
        if self._program:
            self._program.timeline.watches = [each.watch for each in self.data if not each.problem]

    def _problem_of(self, wanted: Wanted | DataBreakpoint) -> str:
        """Return the reason why a breakpoint's condition isn't supported, or isn't an expression; "" if the condition is valid."""
        if wanted.hit_condition:
            return NO_HIT_CONDITIONS
        try:
            if wanted.condition:
                self._check(wanted.condition)
        except LabError as error:
            return str(error)
        return ""

    def _found(self, each: Breakpoint) -> Breakpoint:
        """Return a breakpoint with its addresses in the program, or with the problem that it has none."""
        blank = replace(each, addresses=(), file="", line=0, problem="")
        if self._program is None:
            return replace(blank, problem="there is no program yet")
        if problem := self._problem_of(each.wanted):
            return replace(blank, problem=problem)
        match each.wanted:
            case SourceBreakpoint(line):
                return self._found_line(blank, line)
            case FunctionBreakpoint(name):
                return self._found_function(blank, self._program, name)
            case InstructionBreakpoint(reference, offset):
                return self._found_address(blank, self._program, reference, offset)

    def _found_line(self, blank: Breakpoint, line: int) -> Breakpoint:
        """Return a breakpoint at a line, as `_found` does. If the line has no instructions, use the next line that has some."""
        path = pathlib.Path(blank.kind)
        stops = self.lines(path)
        if not stops:
            return replace(blank, problem=f"the program has no instruction of a line of {path.name}")
        later = min((each for each in stops if each >= line), default=None)
        if later is None:
            problem = f"no instruction is of line {line} of {path.name} or a later one; line {max(stops)} has the last"
            return replace(blank, problem=problem)
        return replace(blank, addresses=stops[later], file=path.name, line=later)

    def _found_function(self, blank: Breakpoint, program: Program, name: str) -> Breakpoint:
        """Return a breakpoint at a function and its inlined copies, or at a label, as `_found` does."""
        entries = program.symbols.source.functions.get(name, {})
        addresses = sorted({address for each in entries.values() for address in each})
        if not addresses and name in program.symbols.addresses:
            addresses = [program.symbols.addresses[name]]
        if not addresses:
            return replace(blank, problem=f"there is no function or label {name}")
        return self._with_line(replace(blank, addresses=addresses), program)

    def _found_address(self, blank: Breakpoint, program: Program, reference: str, offset: int) -> Breakpoint:
        """Return a breakpoint at an address plus an offset in bytes, as `_found` does. reference: the address, as text"""
        try:
            address = self._address_of(reference, offset)
        except LabError as error:
            return replace(blank, problem=str(error))
        if address % 4 or not 0 <= address < 1 << 48:
            return replace(blank, problem=f"no instruction can be at {address:#x}: addresses are divisible by 4")
        return self._with_line(replace(blank, addresses=[address]), program)

    def _with_line(self, each: Breakpoint, program: Program) -> Breakpoint:
        """Return a breakpoint with the source line of its first address, if the line is known."""
        line = program.line(each.addresses[0])
        return replace(each, file=line.file, line=line.number) if line else each

    def _place(self, before: Mapping[int, Breakpoint], kind: str) -> None:
        """Set the breakpoints in the machine, the oldest first, as long as it has room; report the breakpoints that have changed.

        before: the earlier breakpoints, by number
        kind: the kind of breakpoints that aren't reported, since the response to the client has them; "" for none
        """
        placed, used = dict[int, Breakpoint](), set[int]()
        for each in sorted(itertools.chain(*self._found_ones.values()), key=lambda it: it.number):
            new = {*each.addresses} - used
            left = MAX_BREAKPOINTS - len(used)
            if len(new) > left:
                problem = (
                    f"the machine has {MAX_BREAKPOINTS} breakpoints: this one needs {len(new)}, and {left} are left"
                )
                placed[each.number] = replace(each, problem=problem)
            else:
                placed[each.number] = each
                used |= new
        self._send(used)
        for name, saved in self._found_ones.items():
            self._all[name] = [placed[each.number] for each in saved]
        for each in placed.values():
            if each.kind != kind and each != before.get(each.number):
                self._changed(each)

    def _send(self, addresses: Iterable[int]) -> None:
        """Set the machine's breakpoints at these addresses, and remove those at other addresses."""
        now = frozenset(addresses)
        if self._program:
            guest = self._program.guest
            there = frozenset(guest.query("breaks", Addresses).addresses)
            guest.ask(*(f"unbreak {at:x}" for at in there - now), *(f"break {at:x}" for at in now - there))
            self._set = now
