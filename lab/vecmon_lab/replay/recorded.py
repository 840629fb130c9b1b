"""Find where a run changes or accesses watched memory, or reaches a breakpoint, in the recorder's output."""

import itertools
import os
from collections import deque
from collections.abc import Callable, Iterable, Iterator, Sequence
from concurrent.futures import ThreadPoolExecutor
from typing import BinaryIO, NamedTuple

from ..instructions.accesses import LINE_BYTES
from ..machine.answers import Stop
from ..runs.counts import Counts
from ..runs.initial_state import InitialState
from ..runs.recorder import Record, record
from .control import Control
from .watches import Watch, logged_access

# Instructions of the last window of a log, and the factor from each window to the one before it.
FIRST_WINDOW, GROWTH = 4096, 16
PC = slice(14, 30)  # columns of the program counter in a line of a log
BLOCK_BYTES = 1 << 18  # bytes of a record read at once, more than the lines of one instruction's changes


class Halt(NamedTuple):
    """An instruction at which a run halts.

    number: the instruction's number, from 1
    watch: the watched memory that it changes or accesses; None if it has a breakpoint
    ticks: the ticks that had passed after it, or 0 if they are unknown
    """

    number: int
    watch: Watch | None
    ticks: int = 0


class Search:
    """Searches a run for its halts: accesses to watched memory, and instructions that have breakpoints.

    initial_state: the state in which the run starts, with all of its memory
    watches: watched memory
    breaks: the addresses of breakpoints
    control: ends the search if it is interrupted
    """

    def __init__(
        self, initial_state: InitialState, watches: Sequence[Watch], breaks: Iterable[int], control: Control
    ) -> None:
        self._initial_state, self._breaks = initial_state, {b"%016x" % address for address in breaks}
        self._changed = [watch for watch in watches if watch.kind == "watch"]
        self._accessed = [watch for watch in watches if watch.kind != "watch"]
        self._check = control.check

    def first(self, ticks: int) -> tuple[Counts, list[Halt], int]:
        """Run a number of ticks, and find halts.

        Returns the run's counts, a list that has the run's first halt and perhaps others (empty if there is no halt), and the number of bytes
        that the program wrote.
        """
        done, halts, written = self.first_change(ticks)
        if self._needs_log(done):
            last = min([done.instructions, *(halt.number for halt in halts)])
            halts += self._log(ticks, 1, last)
        return done, halts, written

    def first_change(self, ticks: int) -> tuple[Counts, list[Halt], int]:
        """Run a number of ticks, and find the first instruction that changes watched memory.

        Returns the run's counts, a list with this halt (empty if there is none), and the number of bytes that the program wrote.
        """
        return self._changes(ticks, self._first_of_changes)

    def length(self, ticks: int, last: int) -> int:
        """Return the number of instructions of a run, up to a stop or to a breakpoint after its start.

        ticks: the length of the run in ticks
        last: the number of ticks at the end of the run in which the breakpoint that ended the run is searched. If the run passes a breakpoint
            before these ticks, the whole run is searched.
        """
        done = self._run(ticks, [], _nothing)[0]
        is_over = done.ticks > ticks or isinstance(done.end, Stop) and done.end.kind == "exit"
        if not self._needs_log(done):
            return done.instructions - is_over
        before = self._run(max(1, ticks - last), [], _nothing)[0]
        first = 2 if self._needs_log(before) else before.instructions + 1
        halts = self._log(ticks, first, done.instructions)
        return min([halt.number - 1 for halt in halts] or [done.instructions - is_over])

    def back(self, ticks: int, count: int) -> Iterator[list[Halt]]:
        """Yield lists of halts among the first `count` instructions, from the end of the run to its start.

        Each list is for one window of instructions. It has the window's last halt and perhaps others, or is empty if there is no halt.

        ticks: at most the number of ticks that these instructions take; a run that doesn't reach all of them is repeated with more ticks
        """
        ticks, done, changes = self._covering(ticks, count)
        minimum = changes[-1].number if changes else 1
        size, last = FIRST_WINDOW, count if self._needs_log(done) else 0
        while last >= minimum:
            first = max(minimum, last - size + 1)
            yield [*(halt for halt in changes if halt.number >= first), *self._log(ticks, first, last)]
            size, last = GROWTH * size, first - 1
        yield changes

    def _covering(self, ticks: int, count: int) -> tuple[int, Counts, list[Halt]]:
        """Run until at least `count` instructions have executed, or the program stops.

        ticks: the ticks of the first attempt; they are doubled until they suffice

        Returns the ticks of the last attempt, its counts, and the last changes of watched memory by the first `count` instructions.
        """
        done, changes, _ = self._changes(ticks, lambda file: self._last_of_changes(file, count))
        covers = done.instructions >= count or isinstance(done.end, Stop)
        return (ticks, done, changes) if covers else self._covering(2 * ticks, count)

    def _needs_log(self, done: Counts) -> bool:
        """Return whether a log of the instructions may show more halts of a run: accesses, or breakpoints that the run has reached.

        done: the run's counts
        """
        return bool(self._accessed) or any(b"%016x" % place.address in self._breaks for place in done.places)

    def _changes(self, ticks: int, read: Callable[[BinaryIO], list[Halt]]) -> tuple[Counts, list[Halt], int]:
        """Run a number of ticks while changes of watched memory are recorded.

        read: reads the record, and returns halts in it

        Returns the run's counts, the result of `read`, and the number of bytes that the program wrote.
        """
        words = [word for watch in self._changed for place in self._places(watch) for word in ("--watch", place)]
        return self._run(ticks, [*words, "--changes"] if words else [], read if words else _nothing)

    def _log(self, ticks: int, first: int, last: int) -> list[Halt]:
        """Return halts at breakpoints or accesses from instruction `first` to `last`: the first one and the last two.

        Returns an empty list if `first` is above `last`.
        """
        if first > last:  # the recorder refuses such a window
            return []
        words = ["--from", f"{first}", "--to", f"{last}", "--log"]
        return self._run(ticks, words, lambda file: _ends(self._halts_of_log(file, first)))[1]

    def _run(
        self, ticks: int, words: Sequence[str], read: Callable[[BinaryIO], list[Halt]]
    ) -> tuple[Counts, list[Halt], int]:
        """Run a number of ticks, with a record unless `words` is empty.

        words: the recorder's arguments for the record
        read: reads the record, and returns halts in it

        Returns the run's counts, the result of `read`, and the number of bytes that the program wrote.
        """
        sizes = list[int]()
        end, other = os.pipe()
        with ThreadPoolExecutor(1) as pool, open(end, "rb") as file:
            halts = pool.submit(lambda: read(file))
            with open(other, "wb", 0) as pipe:
                more = [Record(words, pipe)] if words else []
                done = record(self._initial_state, ticks, lambda data: sizes.append(len(data)), more, self._check)
            return done, halts.result(), sum(sizes)

    def _places(self, watch: Watch) -> Iterator[str]:
        """Yield the recorder's arguments for watched memory, as far as the program has this memory."""
        for address, _, data in self._initial_state.memory:
            first, end = max(address, watch.address), min(address + len(data), watch.address + watch.length)
            for at in range(first, end, LINE_BYTES):
                yield f"{at:x}:{min(LINE_BYTES, end - at)}"

    def _first_of_changes(self, file: BinaryIO) -> list[Halt]:
        """Return a list with the first change in a file of changes (empty if it has none), and read this file to its end."""
        halts = [*itertools.islice(self._halts_of_changes(file), 1)]
        while file.read(BLOCK_BYTES):
            pass
        return halts

    def _last_of_changes(self, file: BinaryIO, last: int) -> list[Halt]:
        """Return the last halts in a file of changes up to instruction `last`. Only lines near this instruction are parsed."""
        kept, is_over = deque[bytes]([b""], 3), False
        while block := file.read(BLOCK_BYTES):
            if not is_over:
                kept.append(block)
                words = block.rpartition(b"\n")[0].rpartition(b"\n")[2].split()
                is_over = bool(words) and words[0].isdigit() and int(words[0]) > last
        lines = b"".join(kept).splitlines()
        whole = lines[1:] if len(kept) == 3 and kept[0] else lines  # the first line may be incomplete
        return _ends(halt for halt in self._halts_of_changes(whole) if halt.number <= last)

    def _halts_of_changes(self, lines: Iterable[bytes]) -> Iterator[Halt]:
        """Yield a halt for each instruction in lines of changes, with the watched memory that the instruction changes first."""
        changes = itertools.takewhile(lambda line: line[:1].isdigit(), lines)
        for number, (line, *_) in itertools.groupby(changes, lambda line: int(line.partition(b" ")[0])):
            _, ticks, _, place, *_ = line.split()
            address = int(place, 16)
            watch = next(it for it in self._changed if 0 <= address - it.address < it.length)
            yield Halt(number, watch, int(ticks))

    def _halts_of_log(self, file: BinaryIO, first: int) -> Iterator[Halt]:
        """Yield the halts in a log that starts with instruction `first`."""
        for number, line in enumerate(file, first):
            if self._accessed and (watch := logged_access(self._accessed, line)):
                yield Halt(number, watch)
            elif line[PC] in self._breaks:
                yield Halt(number, None)


def _nothing(file: BinaryIO) -> list[Halt]:
    """Return no halts, for a run without a record."""
    return []


def _ends(halts: Iterator[Halt]) -> list[Halt]:
    """Return the first halt and the last two halts, since two successive halts may be of the same instruction."""
    return [*itertools.islice(halts, 1), *deque(halts, 2)]
