"""The recorder's counts, from the monitor's own steps: one instruction at a time, by the registers before it."""

import pathlib
from collections import Counter
from collections.abc import Sequence
from dataclasses import dataclass, replace

from support.elements import elements_of
from tests.recordings.recorder import Counts
from vecmon_lab.guest.changes import Retired, Stepper
from vecmon_lab.guest.guest import started
from vecmon_lab.instructions.accesses import REGISTER_BYTES
from vecmon_lab.instructions.words import VECTOR_ACCESSES
from vecmon_lab.machine.answers import ControlRegisters

JAL, JALR = 0x6F, 0x67
LINKS = (1, 5)  # the registers that hold where a call returns to


def stepped(image: pathlib.Path, policy: str = "keep", most: int | None = None) -> tuple[Counts, bytes]:
    """The counts of an image until it stops, or for `most` instructions; and its output."""
    words = dict[tuple[int, int], tuple[int, ...]]()
    lengths, calls = Counter[tuple[int, int]](), Counter[tuple[int, int]]()
    instructions = 0
    with started(image, policy=policy) as guest:
        stepper, end = Stepper(guest), ""
        while not end and instructions != most:
            found, v0 = stepper.registers.control, bytes(stepper.registers.v[:REGISTER_BYTES])
            retired = stepper.step()
            end = f"{retired.stop}" if retired.stop else ""
            if retired.stop is None or retired.stop.kind == "exit":
                instructions += 1
                numbers, has_elements = _numbers(retired, found, stepper.registers.control.vl, v0)
                key = retired.pc, retired.word
                words[key] = tuple(map(sum, zip(words.get(key, (0,) * 5), numbers)))
                lengths.update([(found.vtype, found.vl)] if has_elements else [])
                calls.update([(retired.pc, guest.pc)] if _links(retired.word) else [])
        end = end or f"running pc={guest.pc:016x}"
        ticks = sum(numbers[1] for numbers in words.values())
        return Counts(words, lengths, calls, end, instructions, ticks), guest.output()


@dataclass(frozen=True)
class Place:
    """A place in memory, of some bytes."""

    address: int
    length: int


def stepped_changes(image: pathlib.Path, places: Sequence[Place], most: int) -> tuple[int, list[str]]:
    """The ticks of an image until it stops, or for `most` instructions; and the lines of the changes in places.

    The places are looked at after each step.
    """
    lines = list[str]()
    ticks = 0
    with started(image) as guest:
        stepper = Stepper(guest)
        values = [guest.peek(place.address, place.length) for place in places]
        for number in range(1, most + 1):
            found, v0 = stepper.registers.control, bytes(stepper.registers.v[:REGISTER_BYTES])
            retired = stepper.step()
            ticks += _numbers(retired, found, stepper.registers.control.vl, v0)[0][1]
            for index, place in enumerate(places):
                now = guest.peek(place.address, place.length)
                if now != values[index]:
                    change = f"{place.address:016x} {values[index].hex()} {now.hex()}"
                    lines.append(f"{number} {ticks} {retired.pc:016x} {change}")
                values[index] = now
            if retired.stop:
                break
        return ticks, lines


def _numbers(retired: Retired, found: ControlRegisters, vl: int, v0: bytes) -> tuple[tuple[int, ...], bool]:
    """Once, ticks, and elements, by what an instruction found and the length that it left; and whether it has any.

    A load or store takes a tick for each element of its body, and a fault-only-first load one for the element at
    which it faulted.
    """
    is_access = retired.word & 0x7F in VECTOR_ACCESSES
    elements = elements_of(retired.word, replace(found, vl=vl) if is_access else found, v0)
    if elements is None:
        return (1, 1, 0, 0, 0), False
    ticks = max(1, len(elements.active) + elements.masked + (vl < found.vl)) if is_access else 1
    return (1, ticks, len(elements.active), elements.masked, elements.tail), True


def _links(word: int) -> bool:
    """Whether an instruction is a jump that links, or that returns by a link."""
    rd, rs1 = word >> 7 & 31, word >> 15 & 31
    return word & 0x7F == JAL and rd in LINKS or word & 0x7F == JALR and (rd in LINKS or rs1 in LINKS)
