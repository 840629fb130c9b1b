"""The number of executions of instructions, and of active, masked-off and tail elements of vector instructions."""

import functools
from collections import Counter
from collections.abc import Iterable, Mapping, Sequence
from dataclasses import dataclass

from .. import LabError
from ..guest.changes import vtype_text
from ..guest.guest import Guest, pokes
from ..instructions.accesses import PAGE_BYTES
from ..machine import answers
from ..machine.program import RECORDER, find_program
from ..machine.session import Session
from ..tables.table import html_table


@dataclass(frozen=True)
class CountedWord:
    """The executions of a word at an address.

    times: the number of executions; ticks: the ticks of all executions
    elements: the numbers of active, masked-off and tail elements
    """

    address: int
    word: int
    times: int = 0
    ticks: int = 0
    elements: Sequence[int] = (0, 0, 0)


@dataclass(frozen=True)
class Counts:
    """The executed instructions of a run. An exit's call is counted; any other instruction that stops the program isn't.

    places: one for each address and each word that was executed there, by rising address
    lengths: the number of vector instructions by vector type and vl
    calls: the number of jumps that link or return, by the address of the jump and its target
    end: the stop, or the program's position when its ticks ran out
    short_writes: the number of calls that wrote some bytes, but fewer than requested
    """

    places: Sequence[CountedWord]
    lengths: Counter[tuple[str, int]]
    calls: Mapping[tuple[int, int], int]
    end: answers.ProgramState
    instructions: int
    ticks: int
    short_writes: int = 0

    @property
    def stop(self) -> answers.Stop | None:
        """The stop; None if the ticks ran out."""
        return self.end if isinstance(self.end, answers.Stop) else None

    @property
    def elements(self) -> Sequence[int]:
        """The numbers of active, masked-off and tail elements of register groups, in all vector instructions."""
        return [sum(numbers) for numbers in zip((0, 0, 0), *(place.elements for place in self.places))]

    def _repr_html_(self) -> str:
        """Return HTML with the instructions by address and their totals, for a notebook."""
        rows = [(f"{it.address:x}", self.texts[it.word], it.times, it.ticks, *it.elements) for it in self.places]
        head = ("address", "instruction", "times", "ticks", "active", "masked off", "tail")
        last = ("", "all", self.instructions, self.ticks, *self.elements)
        return html_table([head, *rows, last], 2)

    @functools.cached_property
    def texts(self) -> Mapping[int, str]:
        """The text of each word, as the machine shows it."""
        return texts_of(place.word for place in self.places)


def texts_of(words: Iterable[int]) -> Mapping[int, str]:
    """Return the text of each of these words, as the machine shows it."""
    listed, texts = sorted({*words}), dict[int, str]()
    with Session(find_program()) as session:
        guest = Guest(session)
        guest.ask("enter", "map 0 1 rw")
        for at in range(0, len(listed), PAGE_BYTES // 4):
            page = listed[at : at + PAGE_BYTES // 4]
            guest.ask(*pokes(0, b"".join(word.to_bytes(4, "little") for word in page)))
            texts |= {it.word: it.text for it in guest.words(range(0, 4 * len(page), 4))}
    return texts


def read_counts(text: str) -> Counts:
    """Return the content of a file of counts. Raises LabError if the text isn't one."""
    places, lengths, calls = list[CountedWord](), Counter[tuple[str, int]](), dict[tuple[int, int], int]()
    try:
        *rows, last = text.splitlines()
        for row in rows:
            match row.split(" "):
                case ["at", pc, word, times, taken, active, masked, tail]:
                    elements = (int(active), int(masked), int(tail))
                    places.append(CountedWord(int(pc, 16), int(word, 16), int(times), int(taken), elements))
                case ["vl", vtype, vl, times]:
                    lengths[vtype_text(int(vtype, 16)), int(vl)] = int(times)
                case ["call", pc, target, times]:
                    calls[int(pc, 16), int(target, 16)] = int(times)
                case _:
                    raise ValueError(row)
        end, instructions, ticks = read_end(last)
    except ValueError as error:
        raise LabError(f"{RECORDER} prints no counts: {str(error)[:60]!r}") from error
    done = sorted(
        (it for it in places if it.times), key=lambda it: (it.address, it.word)
    )  # a word that only faulted was executed 0 times
    return Counts(done, lengths, calls, end, instructions, ticks)


def read_end(line: str) -> tuple[answers.ProgramState, int, int]:
    """Return what the last line of each of the recorder's files says: the end, the instructions and the ticks of a run.

    Raises ValueError for another line.
    """
    stop, instructions, ticks = line.rsplit(" ", 2)
    end = answers.read([f"1 {stop}"])
    if not isinstance(end, answers.ProgramState):
        raise ValueError(line)
    return end, int(instructions), int(ticks)
