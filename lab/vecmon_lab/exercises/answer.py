"""Load an answer to an exercise (an image, a source or a script), run it for one case, and read its results."""

import contextlib
import functools
import os
import pathlib
import re
import stat
from collections.abc import Callable, Iterator, Sequence
from dataclasses import dataclass, replace
from random import Random

from .. import LabError, mistakes_in
from ..assembler.source import Program, read_source
from ..compilers.compiled import CompiledProgram, Isolation
from ..compilers.compiler import find_compiler, refuse_cxx
from ..guest.entries import printable
from ..guest.guest import IMAGE_BYTES, MAX_STEPS, QUANTUM, SET_UP_ADDRESS, Guest, pokes
from ..guest.runner import Reporter
from ..lessons.script import Script, read_assembled, read_compiled, send
from ..machine.answers import Position, ScalarRegisters, Stop
from ..machine.lines import check_line, words_of
from ..machine.process import Vecmon
from ..machine.session import Session
from ..machine.start_state import RETURN, RETURN_PAGE
from ..machine.target import check_flags, check_kind, target_warnings
from .exercise import UNLIMITED, Case, Exercise, Limits, Results

TURNED = 0xA5
"""The bits of an expected byte that are inverted in the byte at its place before the run.

Not all 8 bits are inverted, since 32767 would become -32768.
"""

C_SUFFIX = ".c"


@dataclass(frozen=True)
class ExerciseAnswer:
    """The file of an answer.

    commands: the monitor's commands that load the answer after `enter`; None for an image
    source: the answer's source; None for an image or a script
    """

    path: pathlib.Path
    commands: Sequence[str] | None = None
    source: Script | None = None

    @functools.cached_property
    def reporter(self) -> Reporter:
        """Prints each unsupported call of the answer once, however many cases run."""
        return Reporter(lambda address: f"in {printable(str(self.path))}")


@dataclass(frozen=True)
class Attempt:
    """The contents of a case's expected places before and after an answer runs.

    is_long: whether the answer took more instructions than the exercise allows
    """

    before: Results
    found: Results
    is_long: bool


def read_answer(
    path: pathlib.Path,
    limit: int = IMAGE_BYTES,
    is_own: bool = False,
    isolation: Isolation | None = None,
    any_vlen: bool = False,
) -> ExerciseAnswer:
    """Return the answer in a file: an ELF image, a source (.s, .S, .c), or a script. Links, pipes and devices are refused.

    Raises LabError with the reason why the answer is refused, and ToolError if a tool fails.

    limit: the most bytes of the file
    is_own: whether the file is your own; then C is compiled without a sandbox, with the headers next to it
    isolation: compiles untrusted C; None for the sandbox
    any_vlen: whether to accept an image for longer vector registers
    """
    try:
        with open(path, "rb", opener=_open) as file:
            if not stat.S_ISREG(os.fstat(file.fileno()).st_mode):
                raise LabError("it is no regular file, and others aren't read")
            data = file.read(limit + 1)
    except OSError as error:
        why = "it is a link, and links aren't read" if path.is_symlink() else f"it can't be read: {error.strerror}"
        raise LabError(why) from error
    if len(data) > limit:
        raise LabError(f"it has more than {limit:,} bytes")
    if data.startswith(b"\x7fELF"):
        check_kind(path)
        check_flags(path)
        target_warnings(path, any_vlen)
        return ExerciseAnswer(path)
    try:
        text = data.decode("utf-8")
    except UnicodeDecodeError as error:
        raise LabError(f"it is no image and no text: byte {error.start + 1} is {data[error.start]:#04x}") from error
    refuse_cxx(path)
    if path.suffix == C_SUFFIX:
        from ..compilers.compiling import compile_c  # which needs subprocesses

        headers = path.parent if is_own else None
        compiled = compile_c(text, find_compiler(None), 0, headers, is_answer=True, isolation=isolation)
        return source_answer(text, path, compiled)
    if path.suffix not in (".s", ".S"):
        return ExerciseAnswer(path, _script_commands(text))
    if is_own:
        return source_answer(text, path)
    from ..language.apart import read_limited  # which needs subprocesses

    return source_answer(text, path, read=lambda it: read_limited("source", it, pathlib.Path()))


def source_answer(
    text: str,
    path: pathlib.Path,
    compiled: CompiledProgram | None = None,
    read: Callable[[str], Program] = read_source,
) -> ExerciseAnswer:
    """Return the answer that consists of a source. Raises LabError if the source has mistakes.

    text, path: the source and its file; compiled: the compiled form of a C source; read: assembles the source
    """
    name = printable(path.name)
    source = read_compiled(text, name, compiled, True) if compiled else read_assembled(text, name, read=read)
    if not (source.statements or compiled):
        raise LabError("there is no instruction in the source")
    return ExerciseAnswer(path, [line[2:] for line in source.steps[0].lines[1:]], source)


def _open(name: str, flags: int) -> int:
    """Open a file. Raises OSError for a link; doesn't wait for the writer of a pipe."""
    return os.open(name, flags | os.O_NOFOLLOW | os.O_NONBLOCK)


def _script_commands(text: str) -> list[str]:
    """Return the commands of a script, without the user's digit. Lines that start with # are comments.

    Raises LabError unless all commands are of the same user.
    """
    lines = [(number, line) for number, line in enumerate(text.split("\n"), 1) if line and not line.startswith("#")]
    for number, line in lines:
        with mistakes_in(f"line {number}"):
            if not re.match("[1-8*] ", line):
                hint = "a source's name ends in .s or .S"
                raise LabError(f"{line[:40]!r} has no user's digit and space before it; {hint}")
            check_line(line)
            if line[0] == "*" or words_of(line)[:1] in (["enter"], ["leave"], ["load"]):
                raise LabError("an answer has no line of the operator's, and no enter, leave or load")
            if line[0] != lines[0][1][0]:
                raise LabError(f"an answer has lines of one user, here of {lines[0][1][0]}")
    return [line[2:] for _, line in lines]


@contextlib.contextmanager
def ready(
    program: Vecmon,
    answer: ExerciseAnswer,
    exercise: Exercise,
    case: Case,
    write: Callable[[bytes], object] | None = None,
) -> Iterator[Guest]:
    """Yield a new machine with an answer loaded and a case's input set. Raises LabError if the machine refuses one of them.

    write: called with the output of the answer
    """
    images = {"image": answer.path} if answer.commands is None else {}
    with contextlib.ExitStack() as stack:
        session = Session(program, images, quantum=min(QUANTUM, exercise.limits.ticks))
        guest = Guest(session, report=answer.reporter)
        stack.callback(lambda: guest.session.close())  # another session, if the guest went back
        if answer.commands is None:
            guest.start("image")
        else:
            send(guest, ["enter", *answer.commands], answer.source)
        guest.ask("stop")  # a script's last line may be `go`
        guest.output()
        return_page = [] if answer.source else RETURN_PAGE  # a source has its own
        send(guest, [*return_page, *inputs(exercise, case, guest.query("state", Position).pc)])
        guest.write = write or guest.write
        yield guest


def attempt(program: Vecmon, answer: ExerciseAnswer, exercise: Exercise, case: Case) -> Attempt:
    """Run an answer for a case. Raises LabError with the reason if the answer doesn't end with an ebreak or an exit."""
    output = bytearray()

    def write(data: bytes) -> None:
        output.extend(data)
        if len(output) > exercise.limits.output:
            raise LabError(f"it writes more than {exercise.limits.output:,} bytes")

    with ready(program, answer, exercise, case, write) as guest:
        before, (stop, is_long) = _results(guest, case.expected, b""), _run(guest, exercise.limits)
        if stop is None or stop.kind not in ("ebreak", "exit") or _runs_on(answer, stop.pc):
            raise LabError(_without_end(guest, answer, stop, exercise.limits.ticks))
        return Attempt(before, _results(guest, case.expected, bytes(output)), is_long)


def _without_end(guest: Guest, answer: ExerciseAnswer, stop: Stop | None, ticks: int) -> str:
    """Return the reason why an answer doesn't end by itself, with the line of its source.

    stop: the stop of the answer; None if its ticks ran out
    """
    source, pc = answer.source.program if answer.source else None, stop.pc if stop else guest.pc
    line = source.line_at(pc) if source else 0
    if stop is None:
        place = f"; it is at line {line}" if line else ""
        return f"it hasn't ended after {ticks:,} ticks (an instruction takes at least one){place}"
    if _runs_on(answer, pc):
        return "it runs on behind its last instruction: is `ret` missing?"
    return (f"line {line}: " if line else "") + guest.explain(stop)


def _runs_on(answer: ExerciseAnswer, pc: int) -> bool:
    """Return whether an address is the one after the last instruction of an answer's source."""
    source = answer.source.program if answer.source else None
    return bool(source and source.statements and pc == source.statements[-1].address + 4)


def _run(guest: Guest, limits: Limits) -> tuple[Stop | None, bool]:
    """Run an answer. Return its stop, or None if its ticks ran out, and whether it executed more instructions than the limit."""
    left = limits.instructions + 1 if limits.instructions < UNLIMITED else 0  # the last one may be the stop
    while left > 0:
        stop, _ = guest.execute(min(left, MAX_STEPS))
        if stop:
            return stop, False
        left -= MAX_STEPS
    return guest.go(limits.ticks), limits.instructions < UNLIMITED


def inputs(exercise: Exercise, case: Case, start: int) -> list[str]:
    """Return the commands that set a case's input after the answer is loaded.

    They also fill each place that has an expected result with other bytes, so that an answer must write the result.

    start: the address where the run begins
    """
    others = [(place.address, bytes(byte ^ TURNED for byte in place.data)) for place in case.expected.memory]
    places = [*others, *((place.address, place.data) for place in case.memory)]
    turned = int.from_bytes(bytes([TURNED]) * 8, "little")
    registers = {name: value ^ turned for name, value in case.expected.registers.items()} | dict(case.registers)
    written = [command for address, data in places for command in pokes(address, data)]
    values = [f"set {name} {value:x}" for name, value in registers.items()]
    junk = _junk(case.name, start) if exercise.junk else []
    return [*exercise.set_up, *junk, f"policy {case.policy}", *written, *values]


def _junk(name: str, start: int) -> Iterator[str]:
    """Yield commands that fill x5 to x31, v0 to v31 and vxrm with values other than 0, which depend only on the case's name."""
    random = Random(name)
    yield from (f"set x{number} {random.randrange(1, 1 << 64):x}" for number in range(5, 32))
    yield from (f"vset v{number} {random.randbytes(32).hex()}" for number in range(32))
    yield f"asm {SET_UP_ADDRESS:x} csrrwi x0, vxrm, {random.randrange(1, 4)}"  # the one instruction that is needed
    yield from (f"setpc {SET_UP_ADDRESS:x}", "step 1", f"setpc {start:x}")


def _results(guest: Guest, expected: Results, output: bytes) -> Results:
    """Return the contents of the places that have expected values."""
    x = guest.query("regs", ScalarRegisters).x
    registers = {name: x[int(name[1:])] for name in expected.registers}
    memory = [place.holding(guest.peek(place.address, len(place.data))) for place in expected.memory]
    return Results(registers, memory, None if expected.output is None else output)


def settled(program: Vecmon, exercise: Exercise) -> Exercise:
    """Return the exercise, with the reference's results as the expected ones. Raises LabError if a case's input can't be set."""
    reference, cases = ExerciseAnswer(pathlib.Path(), [f"setpc {RETURN:x}"]), []  # it returns at once
    if "reference" in exercise.files:
        with mistakes_in(exercise.title):
            reference = read_answer(exercise.files["reference"], is_own=True)
    for case in exercise.cases:
        with mistakes_in(f"{exercise.title}, {case.name}"):
            results = attempt(program, reference, exercise, case).found
        cases.append(replace(case, expected=results) if "reference" in exercise.files else case)
    return replace(exercise, cases=cases)
