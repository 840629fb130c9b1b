"""Call a program's functions from Python, for tests of vector kernels. Arrays are copied into memory, and read back."""

import contextlib
import html
import itertools
import os
import pathlib
import re
import shutil
import sys
import tempfile
import weakref
from collections.abc import Iterator, Sequence
from concurrent.futures import ThreadPoolExecutor
from dataclasses import dataclass
from typing import Any

from .. import LabError, SourceMistakes
from ..assembler.commands import explain_refusal
from ..compilers.compiling import compile_c, read_own_source
from ..compilers.compiler import C_SOURCE, CHOICES, IMAGE, PREPROCESSED_SUFFIX, choice_for, find_compiler
from ..compilers.signatures import Signatures
from ..exercises.answer import ExerciseAnswer, read_answer
from ..guest.changes import Stepper
from ..guest.guest import MAX_STEPS, QUANTUM, Guest
from ..guest.notebook import registers_html
from ..guest.runner import Reporter
from ..guest.symbols import Symbols
from ..instructions.accesses import PAGE_BYTES
from ..instructions.reasons import describe_stop
from ..machine.answers import Answer
from ..machine.answers import Memory, Refused, ScalarRegisters, Stop
from ..machine.program import find_program
from ..machine.session import Session
from ..machine.start_state import RETURN, STACK
from ..machine.target import target_warnings
from ..meanings.stepped import Step
from ..runs.choices import Choices
from ..runs.counts import Counts
from ..runs.initial_state import initial_state_at
from ..runs.open_runs import OpenProgram
from ..runs.recorder import record
from ..tables.table import html_table
from .arguments import FIRST_ARGUMENT, Argument, Call, call_of, result_of
from .arrays import Layout, Placed, like

__all__ = ["CallStopped", "Kernel", "Placed", "PoliciesDiffer", "Result"]

RENEWED_BYTES = 2_000_000  # the size of a session's script at which a new session replaces it
MAX_STEP_TICKS = 256  # the most ticks of an instruction: a load or store of 256 elements
EXACT_TICKS = 1_000_000  # limits up to this number are exact; greater ones are rounded up to slices of QUANTUM

_MAIN = "\nint main(void) { return 0; }\n"


@dataclass(frozen=True)
class Result:
    """The results of a call.

    value: the function's result, as a number of its C type; if the type is unknown, the number in a0, from 0 to 2^64 - 1; 0 for void
    arrays: the contents of the arrays after the call, in the order of the arguments, each as an object of the argument's type
    output: the bytes that the call printed
    counts: the counts of instructions and their elements; None if they weren't counted
    bits: the width of the result's type; 64 if the type is unknown
    """

    value: int
    arrays: Sequence[Any]
    output: bytes
    counts: Counts | None = None
    bits: int = 64

    @property
    def signed(self) -> int:
        """The value as a signed number: -1 for 0xffffffff of 32 bits."""
        half = 1 << self.bits - 1
        return (self.value + half) % (2 * half) - half


class CallStopped(LabError):
    """A call didn't return: it faulted, ended the program, stopped elsewhere, or used up its ticks.

    stop: None if the ticks were used up
    """

    def __init__(self, text: str, stop: Stop | None) -> None:
        super().__init__(text)
        self.stop = stop


class PoliciesDiffer(LabError):
    """A call has other results if agnostic elements become ones than if they are kept."""


_Left = tuple[int, list[bytes], bytes]
"""The results of a call: its value, the bytes of the arrays, and the output."""


class Kernel(contextlib.AbstractContextManager["Kernel"]):
    """The functions of a program: an image, or a source in assembler (.s, .S) or C (.c).

    Each call has a machine with the program newly loaded, so its variables have their initial values. `close`, or the end of a
    `with` statement, ends the machine's process.
    """

    def __init__(
        self,
        path: str | os.PathLike[str],
        options: str | None = None,
        compiler: str | None = None,
        any_vlen: bool = False,
    ) -> None:
        """Load a program. Raises LabError.

        path: the path of an image or a source
        options, compiler: the names of a compiler's options and of a compiler, as for `vecmon-lab lesson`. The default options for C are O2;
            `stock` assembles with clang.
        any_vlen: whether to accept an image for longer vector registers
        """
        self._path = pathlib.Path(path)
        choice = choice_for(self._path, options)
        with _failures_of(path):
            answer, self._symbols, self._signatures = _read(self._path, choice, compiler)
            has_image = answer.commands is None
            warnings = target_warnings(self._path, any_vlen, ", or give any_vlen=True") if has_image else []
            self._images = {"image": self._copied()} if has_image else {}
        sys.stderr.writelines(f"vecmon-lab: warning: {path}: {warning}\n" for warning in warnings)
        self._begin = ["load image"] if answer.commands is None else ["leave", "enter", *answer.commands]
        self._begin.append(f"set x1 {RETURN:x}")
        if "__global_pointer$" in self._symbols.addresses:
            self._begin.append(f"set x3 {self._symbols.addresses['__global_pointer$']:x}")
        self._report = Reporter(self._symbols.place)
        self._guest = self._opened()
        self._is_stopped = True  # False after an interrupt, when the program may run

    def __exit__(self, *error: object) -> None:
        self.close()

    def _repr_html_(self) -> str:
        """Return HTML with the symbols, and with the registers after the last call, for a notebook."""
        rows = [(name, f"{address:x}") for name, address in self._symbols.addresses.items()]
        registers = ""
        if self._is_stopped:
            left = Stepper(self._guest).registers
            registers = registers_html(self._guest.pc, left.x, left.control, self._guest.vectors())
        return f"<b>{html.escape(self._path.name)}</b>{html_table([('symbol', 'address'), *rows], 2)}{registers}"

    def close(self) -> None:
        """End the machine's process."""
        self._guest.session.close()

    def call(
        self,
        symbol: str,
        *arguments: Argument,
        policy: str = "keep",
        ticks: int = 1_000_000,
        counted: bool = False,
        seed: int | None = None,
    ) -> Result:
        """Call a function with integers and arrays' addresses, at most eight, in a0 to a7.

        The C types of the arguments and of the result come from debug data. Without debug data, an argument is a 64-bit number, unless
        it is a ctypes integer such as `ctypes.c_uint32(7)`. An array that isn't `Placed` ends at the end of a page. Arrays that share
        memory also share it in the call.

        symbol: the function's name
        policy: the policy for agnostic elements, `keep` or `ones`; `both` calls the function under each, and compares the results; `open`
            makes choices that the standard leaves open by the seed
        ticks: the largest number of ticks that the call may take; above 1,000,000, it is rounded up to a multiple of 1,000. A call that
            writes more than 1,024 bytes may take more ticks.
        seed: the seed of the policy `open`, an integer of at least 0; with the seed 0, nothing is chosen
        counted: whether instructions are counted; with the policy `both`, the instructions of the call under `keep` are counted

        Raises CallStopped, PoliciesDiffer, and LabError for arguments that don't fit the function.
        """
        if ticks < 1:
            raise LabError(f"a call has a tick at least, and not {ticks}")
        if (policy == "open") != (seed is not None) or policy == "open" and counted:
            raise LabError("policy='open' needs a seed, such as seed=1, and counts nothing")
        call = self._call(symbol, arguments)
        if seed is not None:
            return self._chosen(symbol, call, ticks, seed)
        policies = ("keep", "ones") if policy == "both" else (policy,)
        (first, counts), *others = [self._left(symbol, each, call, ticks, counted) for each in policies]
        if others and first != others[0][0]:
            raise PoliciesDiffer(f"{symbol}: {'; '.join(_differences(first, others[0][0]))}")
        return _result(call, first, counts)

    def steps(self, symbol: str, *arguments: Argument, policy: str = "keep", most: int = 100_000) -> Iterator[Step]:
        """Yield the instructions of a call, up to the call's return or stop. Raises LabError. The arguments are those of `call`.

        Each instruction is executed when the iterator is advanced. Then `step.why("v8", 5)` says why an element has its value.

        most: the largest number of instructions
        """
        call = self._call(symbol, arguments)
        self._renew()
        self._begin_call(symbol, policy, call.lines)
        guest, stepper, self._is_stopped = self._guest, Stepper(self._guest), True
        for _ in range(most):
            before = stepper.registers.copy()
            retired = stepper.step()
            if guest.pc == retired.pc and retired.pc == RETURN:
                return
            yield Step(guest, before, stepper.registers.control, retired)
            if retired.stop or guest.pc == RETURN:
                return

    def _copied(self) -> pathlib.Path:
        """A copy of the image, so that calls don't depend on later changes of the file. It exists as long as this object."""
        folder = tempfile.mkdtemp()
        weakref.finalize(self, shutil.rmtree, folder, ignore_errors=True)
        return pathlib.Path(shutil.copyfile(self._path, pathlib.Path(folder, self._path.name)))

    def _opened(self, quantum: int = QUANTUM) -> Guest:
        """Return a guest on a new machine, whose user has entered. quantum: the number of ticks of a slice"""
        guest = Guest(Session(find_program(), self._images, quantum=quantum), report=self._report)
        guest.ask("enter")
        return guest

    def _call(self, symbol: str, arguments: Sequence[Argument]) -> Call:
        """Return a call of a function. Raises LabError if there is no such function, or it doesn't take these arguments."""
        if symbol not in self._symbols.addresses:
            lacking = (
                f"no symbol {symbol}"
                if self._symbols.addresses
                else "no symbols: link it without -s, and don't strip it"
            )
            raise LabError(f"{self._path} has {lacking}")
        # A copy that gcc has specialised, such as `sum.constprop.0`, has other parameters than the function in the source.
        signature = None if "." in symbol else self._signatures.at(self._symbols.addresses[symbol])
        return call_of(symbol, arguments, signature)

    def _renew(self, quantum: int | None = None) -> None:
        """Start another session if the present one has a long script, a program that may run, or slices of another number of ticks.

        quantum: the number of ticks of a slice; None to accept any number
        """
        session = self._guest.session
        if session.size > RENEWED_BYTES or not self._is_stopped or quantum not in (None, session.quantum):
            self.close()
            self._guest = self._opened(quantum or session.quantum)

    def _begin_call(self, symbol: str, policy: str, lines: Sequence[str]) -> Sequence[str]:
        """Load the program, and set the state for a call. Return the commands that did this. Raises LabError if one is refused.

        lines: the commands of the call, as in `Call`
        """
        before = [*self._begin, f"policy {policy}", *lines, f"setpc {self._symbols.addresses[symbol]:x}"]
        for command, answer in zip(before, self._guest.ask(*before)):
            if isinstance(answer, Refused):
                raise LabError(f"{symbol}: {command[:60]}: {explain_refusal(f'1 {command}', answer)[-1]}")
        return before

    def _left(self, symbol: str, policy: str, call: Call, ticks: int, counted: bool) -> tuple[_Left, Counts | None]:
        """Return the results of a call under a policy, and its counts; None in place of the counts if `counted` is false.

        Raises CallStopped if the function doesn't return within `ticks` ticks.
        """
        self._renew(_quantum(ticks))
        guest, self._is_stopped = self._guest, False
        before = self._begin_call(symbol, policy, call.lines)
        counts = None
        if counted:
            counts = record(initial_state_at(guest, self._images.get("image"), [f"1 {line}" for line in before]), ticks)
        stop, found = self._execute(ticks, before, ["regs", *call.layout.looks()])
        output = guest.output()
        self._is_stopped = True
        if (stop.pc if stop else guest.pc) != RETURN:  # without a stop the return may have used the last tick
            raise self._stopped(symbol if policy == "keep" else f"{symbol} under {policy}", stop, call.layout)
        (registers,) = (each for each in found if isinstance(each, ScalarRegisters))
        contents = call.layout.contents(each.data for each in found if isinstance(each, Memory))
        return (result_of(registers.x[FIRST_ARGUMENT], call.result), contents, output), counts

    def _chosen(self, symbol: str, call: Call, ticks: int, seed: int) -> Result:
        """The results of a call with the choices of a seed, on the recorder."""
        self._renew()
        guest = self._guest
        before = self._begin_call(symbol, "keep", call.lines)
        state = initial_state_at(guest, self._images.get("image"), [f"1 {line}" for line in before])
        arrays = list(call.layout.arrays.values())
        program = OpenProgram(state, ticks, [(each.address, each.size) for each in arrays], [FIRST_ARGUMENT])
        outcome = program.outcome(Choices(seed))
        if outcome.end.pc != RETURN:
            place = f"{outcome.end.pc:x} {self._symbols.place(outcome.end.pc)}".rstrip()
            stop = outcome.end if isinstance(outcome.end, Stop) else None
            why = describe_stop(stop) if stop else "the ticks ran out"
            raise CallStopped(f"{symbol} with seed {seed}: {place}: {why}", stop)
        ends = [0, *itertools.accumulate(each.size for each in arrays)]
        contents = [outcome.memory[start:end] for start, end in itertools.pairwise(ends)]
        value = result_of(outcome.registers[0], call.result)
        return _result(call, (value, contents, outcome.output), None)

    def _execute(self, ticks: int, before: Sequence[str], looks: Sequence[str]) -> tuple[Stop | None, list[Answer]]:
        """Execute a call until it stops, or for the given number of ticks. Return the stop and the answers to `looks`.

        The stop is None if the ticks ran out.

        before: the commands that start the call; looks: commands that read the state after the call
        """
        guest = self._guest
        if ticks >= MAX_STEPS * MAX_STEP_TICKS:  # most calls are short, and this takes one exchange with the machine
            stop, found = guest.execute(MAX_STEPS, looks)
            if stop or guest.pc == RETURN:
                return stop, found
            guest.output()
            guest.ask(*before)  # start the call anew, since its first instructions took an unknown number of ticks
        return guest.go(ticks), guest.ask(*looks)

    def _stopped(self, what: str, stop: Stop | None, layout: Layout) -> CallStopped:
        """Return the error for a call that didn't return. For a fault in or near an array, the error names the place in the array.

        what: the name of the call in the error; stop: the stop; None if the ticks ran out; layout: the arrays of the call
        """
        text = f"{what}: " + self._guest.describe(stop, self._symbols.place(stop.pc if stop else self._guest.pc))
        for number, array in enumerate(layout.arrays.values(), 1):
            end = array.address + array.size
            if stop and stop.kind == "fault" and array.address - PAGE_BYTES <= stop.value < end + PAGE_BYTES:
                text += f" Array {number} is from {array.address:#x} to {end:#x}."
                break
        return CallStopped(text, stop)


def _result(call: Call, left: _Left, counts: Counts | None) -> Result:
    """The results of a call as its caller gets them."""
    value, found, output = left
    arrays = [like(each.given, data) for each, data in zip(call.layout.arrays.values(), found)]
    return Result(value, arrays, output, counts, call.result.bits if call.result else 64)


@contextlib.contextmanager
def _failures_of(path: str | os.PathLike[str]) -> Iterator[None]:
    """Put the path of a file before the text of an error in this context, unless the error's lines name places in the file."""
    try:
        yield
    except SourceMistakes:
        raise
    except LabError as error:
        raise LabError(f"{path}: {error}") from error
    except OSError as error:
        raise LabError(f"{path}: it can't be read: {error.strerror}") from error


def _quantum(ticks: int) -> int:
    """Return the number of ticks of a slice with which a call can be limited to `ticks` ticks.

    Up to EXACT_TICKS, this is the greatest divisor of the limit that is valid for a slice, so that the limit is exact.
    """
    return QUANTUM if ticks > EXACT_TICKS else next(each for each in range(QUANTUM, 0, -1) if ticks % each == 0)


def _read(path: pathlib.Path, choice: int | None, compiler: str | None) -> tuple[ExerciseAnswer, Symbols, Signatures]:
    """Return the program in a file, its symbols and its functions' types. Raises LabError and OSError.

    choice: the number of a compiler's options; None for an image, and for a source of the lab's assembler
    """
    if choice is not None:
        return _compiled(path, choice, compiler)
    answer = read_answer(path.resolve(), any_vlen=True)  # the caller checks it
    if answer.source:
        return answer, Symbols.of_labels(answer.source.labels), Signatures(b"")
    if answer.commands is not None:
        raise LabError("it is no image, and no source: the name of one ends in .c, .s or .S")
    return answer, Symbols.read(path), Signatures(path.read_bytes())


def _compiled(path: pathlib.Path, choice: int, compiler: str | None) -> tuple[ExerciseAnswer, Symbols, Signatures]:
    """Compile a source, and return the same as `_read`."""
    text = read_own_source(path)
    if CHOICES[choice].source == C_SOURCE and not re.search(r"\bmain\s*\(", text):
        text += _MAIN
    with tempfile.TemporaryDirectory() as folder, ThreadPoolExecutor(1) as thread:
        saved = pathlib.Path(folder)
        # in a thread, so that another event loop, as a notebook's, isn't in the way
        is_preprocessed = path.suffix == PREPROCESSED_SUFFIX
        words = (text, find_compiler(compiler), choice, path.parent, False, None, saved, is_preprocessed)
        program = thread.submit(compile_c, *words).result()
        program.check(path.name)
        return (
            ExerciseAnswer(path, [*program.lines, *STACK]),
            Symbols.of_labels(program.names()),
            Signatures((saved / IMAGE).read_bytes()),
        )


def _differences(kept: _Left, ones: _Left) -> Iterator[str]:
    """Yield the differences between the results under `ones` and under `keep`."""
    template = "{} under keep, {} under ones"
    if kept[0] != ones[0]:
        yield f"the result is {template.format(f'{kept[0]:#x}', f'{ones[0]:#x}')}"
    for number, pair in enumerate(zip(kept[1], ones[1]), 1):
        wrong = [at for at, (one, other) in enumerate(zip(*pair)) if one != other]
        if wrong:
            bytes_there = template.format(*(f"{data[wrong[0]]:02x}" for data in pair))
            yield f"array {number}, byte {wrong[0]}: {bytes_there}; {len(wrong):,} bytes of it differ"
    if kept[2] != ones[2]:
        yield f"it writes {template.format(repr(kept[2][:40]), repr(ones[2][:40]))}"
