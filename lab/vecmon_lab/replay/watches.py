"""Watched memory: the instructions that access it."""

import re
from collections.abc import Callable, Iterable, Iterator, Sequence
from dataclasses import dataclass

from ..guest.changes import Stepper
from ..guest.guest import Guest
from ..instructions.accesses import Span, active_spans
from ..instructions.words import LOAD, LOAD_FP, STORE, STORE_FP, decode

ACCESSES = {"watch": (STORE, STORE_FP), "rwatch": (LOAD, LOAD_FP), "awatch": (LOAD, LOAD_FP, STORE, STORE_FP)}
"""The opcodes of instructions that may trigger each kind of watchpoint, by gdb's names: changes, loads, or both."""

WORD = slice(34, 42)  # columns of the instruction in a line of a log
# In a line of a log: an element's address, and for stores its bytes.
MOVED = re.compile(rb" mem 0x(\w{16})(?: 0x(\w+))?")
SEW = re.compile(rb" e(\d+) m")


@dataclass(frozen=True)
class Watch:
    """Watched bytes, from an address on. kind: `watch` for changes, `rwatch` for loads, `awatch` for loads and stores"""

    kind: str
    address: int
    length: int


def accessed(watches: Sequence[Watch], guest: Guest, word: int) -> Watch | None:
    """Return the first of `watches` whose bytes a guest's next instruction accesses, in the way that the watch's kind says.

    word: the next instruction. All active elements count, also those that aren't accessed because the instruction faults or is a
    fault-only-first load. Returns None if the instruction accesses no watched bytes.
    """
    return _met(watches, word, lambda: _spans(guest, word))


def logged_access(watches: Sequence[Watch], line: bytes) -> Watch | None:
    """Return the first of `watches` whose bytes an instruction has accessed, in the way that the watch's kind says; None if there is none.

    line: the instruction's line in a log
    """
    return _met(watches, int(line[WORD], 16), lambda: _logged_spans(line)) if b" mem " in line else None


def _met(watches: Sequence[Watch], word: int, spans: Callable[[], Iterable[Span]]) -> Watch | None:
    """Return the first of `watches` whose bytes an instruction accesses, in the way that the watch's kind says; None if there is none.

    word: the instruction; spans: returns the addresses that the instruction accesses, each with a number of bytes
    """
    candidates = [watch for watch in watches if word & 0x7F in ACCESSES[watch.kind]]
    found = list(spans()) if candidates else []
    for watch in candidates:
        if any(at < watch.address + watch.length and watch.address < at + length for at, length in found):
            return watch
    return None


def _logged_spans(line: bytes) -> Iterator[Span]:
    """Yield the addresses that a load or store has accessed, each with its number of bytes.

    line: the instruction's line in a log, which shows the bytes of stores, but not of loads
    """
    word = int(line[WORD], 16)
    loaded = 1 << (word >> 12 & 3)
    if word & 0x7F == LOAD_FP:
        instruction = decode(word, int(SEW.findall(line)[0]))
        assert instruction
        loaded = max(1, instruction.operands[0].eew // 8)
    for address, data in MOVED.findall(line):
        yield int(address, 16), len(data) // 2 or loaded


def _spans(guest: Guest, word: int) -> Iterator[Span]:
    """Yield the addresses that a load or store will access, from the registers before it, each with its number of bytes."""
    before = Stepper(guest).registers
    yield from (span for _, span in active_spans(word, before.x, before.control, bytes(before.v)))
