"""Count the instructions of a leg.

If the leg ended with a stop, the private machine steps to the stop. If it ended after a number of ticks, a second machine
runs for as many ticks, and the private machine steps until its registers are the same.
"""

from collections.abc import Callable, Collection, Generator, Sequence

from ..guest.guest import MAX_STEPS
from ..machine.answers import ControlRegisters, Position, Stop, read
from .legs import Leg
from .private_machine import CHUNK, PrivateMachine, ReplayDiffers, Signature
from .history import Parts

WINDOW = 512  # instructions before and after an expected count
GROWTH = 8  # factor between the numbers of ticks of two successive counts
MAX_SLICES = 1000  # largest number of slices that one line grants
SHORT = 1 << 20  # ticks for which the count is first assumed to be the number of ticks, without counting shorter parts

Reach = Callable[[int, int], Generator[None, None, PrivateMachine]]
"""Moves a private machine to a place, and returns it. The arguments are the index of a leg, and a number of the leg's instructions."""
Open = Callable[[int], PrivateMachine]
"""Returns a new private machine that can go on to the start of a leg. The argument is the index of the leg."""


def count_to_stop(legs: Sequence[Leg], place: int, most: int, quantum: int, reach: Reach) -> Parts:
    """Set the count of a leg that ended with a stop. It stays None if it is above `most`.

    If no breakpoint was set, the search starts where the last slice would start if each instruction took one tick.

    legs, place: all legs, and the index of the leg to count
    most: the largest number of instructions to count
    quantum: the ticks of a slice
    reach: moves the private machine to a place: the index of a leg, and an offset in instructions

    Raises ReplayDiffers if the replay stops elsewhere than the program did.
    """
    leg, found, least = legs[place], None, 0
    if leg.ticks is not None and quantum < leg.ticks <= most and not leg.breaks:
        try:
            found = yield from first_stop(place, leg.ticks - quantum, leg.most, (), reach)
        except ReplayDiffers as error:
            least = error.offset
    found = found or (yield from first_stop(place, least, min(leg.most, most), leg.breaks, reach))
    if found is None and leg.most > most:
        return
    if found is None or leg.stop is None or found[1].pc != leg.stop.pc:
        raise ReplayDiffers("a replay comes to another stop than the program did")
    leg.count = found[0]


def first_stop(
    place: int, least: int, most: int, breaks: Collection[int], reach: Reach
) -> Generator[None, None, tuple[int, Position | Stop] | None]:
    """Find the first instruction of a leg after which the program stops or is at a breakpoint.

    place: the leg's index
    least, most: the offsets in instructions at which the search starts and ends
    breaks: the addresses of the breakpoints

    Returns the number of the leg's instructions executed there, and the program's state; None if there is no such instruction.
    """
    is_near = True  # whether to step single instructions: at the start, and around a stop that was found
    while least <= most:
        machine = yield from reach(place, least)
        unit = 1 if is_near or most - least < MAX_STEPS else MAX_STEPS
        number = min(MAX_STEPS, most - least + 1) if unit == 1 else min(CHUNK, most - least) // unit
        answers = _stepped(machine, unit, number, breaks)
        found = _first_irregular(answers, breaks)
        if found is None:
            least += unit * number
            machine.place.offset, machine.is_used_up, is_near = least, least > most, False
            if not machine.is_used_up:
                machine.save_if_due()
            yield
            continue
        machine.is_used_up = True
        reply = read([answers[found]])
        assert isinstance(reply, Position | Stop)
        is_passed = isinstance(reply, Position)  # the address is reached after the last instruction of this step
        count = least + unit * (found + is_passed)
        if unit == 1 or is_passed:
            return (count, reply) if count <= most else None
        least, most, is_near = count, min(most, count + unit - 1), True
        yield
    return None


def _stepped(machine: PrivateMachine, unit: int, number: int, breaks: Collection[int]) -> list[str]:
    """Execute the command `step` `number` times while breakpoints are set; return the answers to these commands.

    unit: the number of instructions of each `step`; breaks: the addresses of the breakpoints
    """
    digit = machine.digit
    places = [f"{address:x}" for address in breaks]
    before, after = ([f"{digit} {command} {place}" for place in places] for command in ("break", "unbreak"))
    machine.executed += unit * number
    answers = machine.do([*before, *[f"{digit} step {unit}"] * number, *after])
    return answers[len(before) : len(before) + number]


def _first_irregular(answers: Sequence[str], breaks: Collection[int]) -> int | None:
    """Return the index of the first answer that reports a stop or the address of a breakpoint; None if there is none."""
    replies = (read([answer]) for answer in answers)
    is_regular = (isinstance(reply, Position) and reply.pc not in breaks for reply in replies)
    return next((place for place, each in enumerate(is_regular) if not each), None)


def count_to_ticks(legs: Sequence[Leg], place: int, most: int, quantum: int, reach: Reach, open_at: Open) -> Parts:
    """Set the count of a leg that ended after a known number of ticks. It stays None if it is above `most`.

    Each instruction takes one tick, except vector loads and stores. If the leg has vector loads or stores, the instructions of its first few
    ticks are counted, and then repeatedly those of more ticks. Each count is searched near a prediction from the last number of
    instructions per tick.

    legs, place: all legs, and the index of the leg to count
    most: the largest number of instructions to count
    quantum: the ticks of a slice
    reach: moves the private machine to a leg and an offset
    open_at: opens a second machine for the start of a leg

    Raises ReplayDiffers if no count is found.
    """
    leg, rate, ticks, count, is_cut = legs[place], 1.0, 0, 0, False
    whole, may_be_equal = leg.ticks or 0, True
    while ticks < whole and count <= most:
        is_equal = may_be_equal and ticks == count and (ticks > 0 or whole <= SHORT)
        end = whole if is_equal else min(whole, max(quantum, ticks * GROWTH))
        wanted, is_cut = yield from _after(legs, place, end, quantum, open_at)
        expected = end if is_equal else count + round((end - ticks) * rate)
        found = yield from _find(place, expected, 0 if is_equal else WINDOW, reach, wanted)
        if is_equal and found is None:
            may_be_equal = False
            continue
        if found is None:
            raise ReplayDiffers("the instructions can't be counted")
        rate, ticks, count = (found - count) / (end - ticks), end, found
    if ticks == whole and count <= most:
        leg.count = count - is_cut


def _after(
    legs: Sequence[Leg], place: int, ticks: int, quantum: int, open_at: Open
) -> Generator[None, None, tuple[Signature, bool]]:
    """Return the registers after the first `ticks` ticks of a leg, and whether the last slice cut a vector load or store.

    The rest of a cut instruction is executed before the registers are read. place: the index of the leg
    """
    machine, slices, leg = open_at(place), ticks // quantum, legs[place]
    try:
        yield from machine.go_to(place, 0)
        digit = machine.digit
        machine.do([*(f"{digit} break {address:x}" for address in leg.breaks), f"{digit} go"])
        while slices > 0:
            part = min(MAX_SLICES, slices, max(1, CHUNK // quantum))
            machine.executed += part * quantum
            machine.do([f"* slices {part}"])
            slices -= part
            yield
        machine.do([f"{digit} stop"])
        control = read(machine.session.do(f"{digit} vcsr"))
        is_cut = isinstance(control, ControlRegisters) and control.vstart > 0
        machine.do([f"{digit} step 1"] * is_cut)
        return machine.signature(), is_cut
    finally:
        machine.session.close()


def _find(place: int, expected: int, window: int, reach: Reach, wanted: Signature) -> Generator[None, None, int | None]:
    """Return the number of a leg's instructions after which the registers are `wanted`; None if there is none.

    The counts that differ from `expected` by at most `window` are tried. If several fit, the one nearest to `expected` is returned.
    """
    first, found = max(0, expected - window), list[int]()
    try:
        machine = yield from reach(place, first)
    except ReplayDiffers:
        return None
    for count in range(first, expected + window + 1):
        if machine.session.do(f"{machine.digit} regs") == wanted[0] and machine.signature() == wanted:
            found.append(count)
        machine.do([f"{machine.digit} step 1"])
        machine.place.offset += 1
        yield
    return min(found, key=lambda count: abs(count - expected)) if found else None
