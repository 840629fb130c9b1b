"""Calls that write fewer bytes than requested."""

from ..guest.guest import Guest
from ..guest.runner import MAX_BREAKPOINTS, WRITE_BYTES
from ..guest.symbols import Symbols
from ..instructions.calls import A0, A7, ECALL, STANDARD_OUTPUT, WRITE
from ..machine.answers import ScalarRegisters
from .counts import Counts

MAX_CALLS = 1000  # calls that are examined, at most
WHY = "the most that one writes: a0 has how many"
A1, A2 = 11, 12


def short_write(guest: Guest, counts: Counts, symbols: Symbols) -> str:
    """Return a line about the first call of a run that writes fewer bytes than requested.

    Return "" if the next call that writes continues after the bytes that were written, or if no such call is found. The search
    covers the first MAX_CALLS calls, at as many addresses as a user can have breakpoints.
    """
    calls = [place.address for place in counts.places if place.word == ECALL]
    guest.ask(*(f"break {address:x}" for address in calls[:MAX_BREAKPOINTS]))
    found, rest = "", 0
    for _ in range(MAX_CALLS):
        stop = guest.go(counts.ticks)
        if stop is None or stop.kind != "break":
            break
        x = guest.query("regs", ScalarRegisters).x
        if (x[A7], x[A0]) == (WRITE, STANDARD_OUTPUT):
            if found:
                return "" if x[A1] == rest else found
            if x[A2] > WRITE_BYTES:
                place, rest = f"{stop.pc:x} {symbols.place(stop.pc)}".rstrip(), x[A1] + WRITE_BYTES
                found = f"{place}: the call was given {x[A2]:,} bytes and wrote {WRITE_BYTES}, {WHY}"
    return found
