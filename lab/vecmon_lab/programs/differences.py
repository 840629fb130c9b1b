"""Differences between a log and the machine after an instruction: registers, the vector type and memory accesses."""

import itertools
from collections.abc import Callable, Iterable, Iterator
from fractions import Fraction

from ..guest.changes import Registers
from ..instructions.accesses import REGISTER_BYTES, active_spans, is_fault_only_first, vector_instruction
from ..instructions.words import STORE, STORE_FP
from ..machine.answers import CONTROL, elements_in
from ..runs.dataflow import Cell, bits_of_registers
from .origins import LoggedStep

Difference = tuple[str, set[Cell]]
"""A line about a difference, and the places that differ."""

Element = tuple[int, int]
"""The address of an accessed element, and its size in bytes."""


def differences(
    step: LoggedStep, after: Registers, shift: int, peek: Callable[[int, int], bytes]
) -> Iterator[Difference]:
    """Yield the differences between the log and the machine.

    after: the machine's registers after the instruction
    shift: the distance from the machine's stack to the log's, in bytes
    peek: returns the machine's memory after the instruction, given an address and a number of bytes
    """
    if step.commit.word not in (None, step.retired.word):
        yield f"word: {step.retired.word:08x} here, {step.commit.word:08x} in the log", set()
    yield from _of_scalars(step, after, shift)
    yield from _of_vectors(step, after) if "v" in step.commit.compared else ()
    yield from _of_vector_type(step, after)
    yield from _of_control(step, after)
    if "memory" in step.commit.compared and not step.retired.stop:
        yield from _of_memory(step, after, peek)


def _of_scalars(step: LoggedStep, after: Registers, shift: int) -> Iterator[Difference]:
    """Yield differences of scalar registers. Registers that the log doesn't name are unchanged."""
    for number in range(1, 32):
        there = step.commit.x.get(number, step.before.x[number])
        if there not in (after.x[number], after.x[number] + shift):
            bits = {("x", 64 * number + bit) for bit in range(64) if (there ^ after.x[number]) >> bit & 1}
            yield f"x{number}: {after.x[number]:x} here, {there:x} in the log", bits


def _of_vectors(step: LoggedStep, after: Registers) -> Iterator[Difference]:
    """Yield differences of elements of vector registers, with the width of the destination's elements."""
    instruction = vector_instruction(step.retired.word, step.before.control.vtype)
    width = max(8, instruction.operands[0].eew) if instruction and instruction.operands else 8
    names = {number: elements_in(data, width) for number, data in step.commit.v.items()}
    for number, at in enumerate(range(0, 32 * REGISTER_BYTES, REGISTER_BYTES)):
        register = slice(at, at + REGISTER_BYTES)
        if number not in names and after.v[register] == step.before.v[register]:
            continue
        there = names.get(number) or elements_in(step.before.v[register], width)
        for element, pair in enumerate(zip(elements_in(after.v[register], width), there)):
            if pair[0] != pair[1]:
                line = f"v{number}.e{width}[{element}]: {pair[0]:x} here, {pair[1]:x} in the log"
                yield line, bits_of_registers(8 * at + width * element, width)


def _of_vector_type(step: LoggedStep, after: Registers) -> Iterator[Difference]:
    """Yield a difference of SEW, LMUL or vl, if the log shows them."""
    control, there = after.control, step.commit.vector_type
    here = (control.sew, control.lmul, control.vl)
    if there and control.vtype >> 63:
        here = (*there[:2], control.vl)  # under vill these aren't defined
    if there and here != there:
        places: set[Cell] = {("vl", 0)} if here[2] != there[2] else set()
        places |= {("vtype", 0)} if here[:2] != there[:2] else set()
        yield f"vector type and vl: {_type_text(*here)} here, {_type_text(*there)} in the log", places


def _type_text(sew: int, lmul: Fraction, vl: int) -> str:
    """Return SEW, LMUL and vl in the form of logs."""
    return f"e{sew} {f'm{lmul}' if lmul >= 1 else f'mf{lmul.denominator}'} l{vl}"


def _of_control(step: LoggedStep, after: Registers) -> Iterator[Difference]:
    """Yield differences of control registers. Once a log has named a control register, those that a line doesn't name are unchanged."""
    values = {**vars(after.control), "vcsr": after.control.vxrm << 1 | after.control.vxsat, "vlenb": REGISTER_BYTES}
    before = vars(step.before.control) if "control" in step.commit.compared else {}
    for name, there in {**before, **step.commit.control}.items():
        if name in values and there != values[name]:
            places: set[Cell] = {(name, 0)} if name in CONTROL else {("vxrm", 0), ("vxsat", 0)}
            yield f"{name}: {values[name]:x} here, {there:x} in the log", places


def _of_memory(step: LoggedStep, after: Registers, peek: Callable[[int, int], bytes]) -> Iterator[Difference]:
    """Yield differences of addresses of loaded elements, and of addresses and bytes of stored elements."""
    opcode, commit, here = step.retired.word & 0x7F, step.commit, list(_elements(step, after))
    is_store = opcode in (STORE, STORE_FP)
    bytes_here = {address + at for address, length in here for at in range(length)}
    stored = {address + at: byte for address, data in commit.stores for at, byte in enumerate(data)}
    loaded = {*commit.loads}
    if is_store:
        missing, more, loads = bytes_here - stored.keys(), stored.keys() - bytes_here, loaded
    else:  # for a load, the log has the addresses of elements, or of parts of them
        missing, more, loads = {address for address, _ in here} - loaded, {*stored}, loaded - bytes_here
    verb = "stored" if is_store else "loaded"
    yield from ((f"{verb}: {_run_text(run)} here, not in the log", _places(run)) for run in _runs(missing))
    yield from ((f"stored: {_run_text(run)} in the log, not here", _places(run)) for run in _runs(more))
    yield from ((f"loaded: {_run_text(run)} in the log, not here", _places(run)) for run in _runs(loads))
    for run in _runs(stored.keys() & bytes_here):
        ours, theirs = peek(run.start, len(run)), bytes(stored[address] for address in run)
        if ours != theirs:
            differing = {("memory", address) for address, one, other in zip(run, ours, theirs) if one != other}
            yield f"[{run.start:x}]: {ours.hex()} here, {theirs.hex()} in the log", differing


def _elements(step: LoggedStep, after: Registers) -> Iterator[Element]:
    """Yield the elements that an instruction accessed on the machine. The fields of a segment are consecutive."""
    word, before = step.retired.word, step.before
    instruction = vector_instruction(word, before.control.vtype)
    is_shortened = is_fault_only_first(step.retired.word)
    for element, (address, length) in active_spans(word, before.x, before.control, bytes(before.v)):
        width = max(1, instruction.operands[0].eew // 8) if instruction else length
        if not (is_shortened and element >= after.control.vl):
            yield from (((address + at) % (1 << 64), width) for at in range(0, length, width))


def _runs(addresses: Iterable[int]) -> Iterator[range]:
    """Yield the runs of consecutive addresses."""
    for _, run in itertools.groupby(enumerate(sorted(addresses)), lambda pair: pair[1] - pair[0]):
        places = [place for _, place in run]
        yield range(places[0], places[-1] + 1)


def _run_text(run: range) -> str:
    """Return addresses as text for a line."""
    return f"{run.start:x}" if len(run) == 1 else f"{run.start:x} to {run.stop - 1:x}"


def _places(run: range) -> set[Cell]:
    """Return bytes of memory as places."""
    return {("memory", address) for address in run}
