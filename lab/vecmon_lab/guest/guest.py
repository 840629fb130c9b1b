"""One user's program in a session: load it, run or step it, and read its output."""

import contextlib
import os
import pathlib
import struct
from collections.abc import Callable, Iterable, Iterator, Mapping, Sequence
from typing import TypeVar

from .. import LabError, mistakes_in
from ..instructions.accesses import LINE_BYTES
from ..instructions.reasons import describe_stop
from ..machine.answers import (
    Answer,
    ControlRegisters,
    Listing,
    Loaded,
    Memory,
    Output,
    Position,
    Refused,
    Stop,
    VectorRegister,
    Word,
    read,
)
from ..machine.program import find_program, image_refusal
from ..machine.session import TOGETHER, Session
from ..machine.start_state import RETURN, STACK_END, STACK_POINTER
from ..machine.target import check_flags, check_kind
from .image_start import image_start
from .input import input_of
from .runner import OUTPUT_BYTES, SAFE_STEPS, Report, Reporter, Runner

IMAGE_BYTES, ARGUMENT_BYTES = 4_194_304, 8192  # the largest file; the largest part of the stack's 16 KiB
QUANTUM = 1000  # the ticks of the longest slices, since there is no other program
MAX_STEPS, MAX_ROUNDS = 256, 1000  # steps of one line; lines that are sent before their answers are read
PACES = ((MAX_STEPS, OUTPUT_BYTES - 1), (SAFE_STEPS, OUTPUT_BYTES))
"""Pairs: the number of instructions that one line steps, and the most bytes of output with which each call certainly had room.

With the last pair, each call certainly has room in the output buffer.
"""

VECTOR_LOOKS = [f"vreg v{number} 64" for number in range(32)]

SET_UP_ADDRESS = STACK_END + 4  # for the instruction that sets up a case of an exercise; no listing shows it

AnswerType = TypeVar("AnswerType", bound=Answer)


class Guest:
    """A user's program in a session. Between calls of its methods, the program is stopped.

    pc: the program counter after `start`, `go`, `step` or a similar call, or after a `Stepper` has read the registers
    ticks: the number of ticks that `go` has granted, in whole slices
    start_commands: the commands that `start` sent after `load`, without the policy
    end: the address of the ebreak after the program's last instruction; 0 if there is none or it is unknown
    write: is called with the program's output
    runner: executes `go`
    on_pause: is called during a run, after each time that the output was read, while the program is stopped
    """

    def __init__(
        self,
        session: Session,
        user: int = 1,
        write: Callable[[bytes], object] | None = None,
        report: Report | None = None,
    ) -> None:
        """Create the guest for a user of a session.

        write: is called with the program's output as it arrives; None to collect the output for `output`
        report: is called for unsupported calls; None to print each of them once on standard error
        """
        self.session, self.user = session, user
        self.pc = self.ticks = self.end = 0
        self.start_commands: Sequence[str] = ()
        self._kept: list[bytes] = []
        self.write = write or self._kept.append
        self.runner = Runner(self, report or Reporter())
        self.on_pause: Callable[[], object] = lambda: None

    def ask(self, *commands: str) -> list[Answer]:
        """Return the answer to each command. Several commands are sent to the machine together."""
        answers = list[Answer]()
        for at in range(0, len(commands), TOGETHER):
            lines = [f"{self.user} {command}" for command in commands[at : at + TOGETHER]]
            answers += map(read, self.session.do_all(lines))
        return answers

    def query(self, command: str, kind: type[AnswerType]) -> AnswerType:
        """Return the answer to a command. Raises LabError if it isn't of this kind."""
        (answer,) = self.ask(command)
        if not isinstance(answer, kind):
            raise LabError(f"the machine answers {answer}")
        return answer

    def peek(self, address: int, length: int) -> bytes:
        """Return a number of bytes from an address on. All of them must be in mapped pages."""
        return b"".join(answer.data for answer in self.ask(*peeks(address, length)) if isinstance(answer, Memory))

    def vectors(self) -> list[bytes]:
        """Return the bytes of each vector register."""
        answers = self.ask(*VECTOR_LOOKS)
        return [answer.data for answer in answers if isinstance(answer, VectorRegister)]

    def words(self, addresses: Iterable[int]) -> list[Word]:
        """Return the words at addresses, with their texts, in the order of the addresses. Words in unmapped pages are left out."""
        answers = self.ask(*(f"dis {run[0]:x} {len(run)}" for run in runs_of(addresses)))
        return [word for answer in answers if isinstance(answer, Listing) for word in answer.words]

    def start(
        self, image: str, policy: str = "keep", arguments: Sequence[str] = (), data: Mapping[int, bytes] | None = None
    ) -> None:
        """Enter the user, load an image, and write the program's arguments to the stack.

        Raises LabError if the image is refused, or if the arguments or the data don't fit.

        image: the image's name in the session; policy: `keep` or `ones`
        arguments: the program's name and its arguments; if there are none, the stack isn't written
        data: bytes to write to memory, by the address of the first byte
        """
        block = argument_block(arguments)
        _, loaded, _ = self.ask(
            "enter", f"load {image}", f"policy {policy}"
        )  # a user who has entered gets E06, which is ignored
        if not isinstance(loaded, Loaded):
            raise LabError(image_refusal(image, str(loaded)))
        self.pc = loaded.pc
        written = [command for address, part in (data or {}).items() for command in pokes(address, part)]
        place, start = STACK_END - len(block), image_start(self.session.images[image])
        placed = (*pokes(place, block), f"set x2 {place:x}") if arguments else ()
        self.start_commands, self.end = [*start.commands, *written, *placed], start.end
        for command, answer in zip(self.start_commands, self.ask(*self.start_commands)):
            if isinstance(answer, Refused):
                raise LabError(f"the machine refuses to write from {command.split()[1]} on ({answer})")

    def go(self, ticks: int | None = None, is_interrupted: Callable[[], bool] = lambda: False) -> Stop | None:
        """Run the program, and return its stop; None after `ticks`, rounded up to slices, or after an interruption.

        Every call has room for its output. is_interrupted: is called between some slices
        """
        return self.runner.go(None if ticks is None else -(-ticks // self.session.quantum), is_interrupted)

    def execute(self, number: int, looks: Sequence[str] = ()) -> tuple[Stop | None, list[Answer]]:
        """Execute at most 256 instructions. Return the stop that ended them, or None, and the answers to `looks`.

        Every call has room for its output: if one may have had too little, the instructions are executed again in smaller parts.

        looks: commands that only read, which are sent after the instructions
        """
        size, pc, stop, at_once = self.session.size, self.pc, None, 1
        if not self.runner.has_uncertain():
            stop, (output, *answers) = self.step_between([], ["out", *looks], number)
            data = output.data if isinstance(output, Output) else b""
            if len(data) < OUTPUT_BYTES:
                self.emit_output(data)
                return stop, answers
            self.go_back(size, pc)
            stop, at_once = None, SAFE_STEPS
        self.pc = self.query("state", Position).pc
        while number > 0 and stop is None:
            self.runner.look(self.pc)
            stop = self.step_between([], [], min(at_once, number))[0]
            self.empty_buffer()
            number -= at_once
        return stop, self.ask(*looks)

    def go_back(self, size: int, pc: int) -> None:
        """Go back to the state when the script had `size` bytes, in a new session. pc: the program counter in this state"""
        session = self.session.rewound(self.session.script[:size])
        session.on_lines = self.session.on_lines
        self.session.close()
        self.session, self.pc = session, pc

    def step(self) -> Stop | None:
        """Read the output, and then execute one instruction. Return the stop if the instruction stops the program, or else None."""
        self.empty_buffer()
        if self.runner.has_uncertain():
            self.runner.look(self.pc)
        return self.step_between([], [])[0]

    def step_between(
        self, before: Sequence[str], after: Sequence[str], number: int = 1
    ) -> tuple[Stop | None, list[Answer]]:
        """Execute instructions, with read-only commands before and after them, all sent together.

        Return the stop or None, and the answers to the commands. Since the output isn't read, the stop may be `outfull`, at an ECALL.

        before, after: the commands; number: the number of instructions, 1 to 256
        """
        answers = self.ask(*before, f"step {number}", *after)
        reply = answers.pop(len(before))
        if not isinstance(reply, Position | Stop):
            raise LabError(f"the machine answers {reply}")
        self.pc = reply.pc
        return reply if isinstance(reply, Stop) else None, answers

    def pass_over(self, instructions: int, at_once: int = MAX_STEPS, limit: int = OUTPUT_BYTES) -> bool:
        """Execute a number of instructions in groups, and read the output after each group. The program mustn't stop meanwhile.

        Return True. If a group wrote more than `limit` bytes, return False without executing further lines.

        at_once: the number of instructions in a group
        """
        while instructions:
            part = min(instructions, MAX_ROUNDS * at_once)
            outputs = [answer.data for answer in self.ask(*stepping(part, at_once)) if isinstance(answer, Output)]
            self.emit_output(b"".join(outputs))
            if max(map(len, outputs)) > limit:
                return False
            instructions -= part
        self.pc = self.query("state", Position).pc
        return True

    def empty_buffer(self) -> None:
        """Read the output from the machine's buffer, which is empty then."""
        self.emit_output(self.query("out", Output).data)

    def output(self) -> bytes:
        """Return the program's output since the last call. If the guest has a function `write`, pass the output to it; return b""."""
        self.empty_buffer()
        kept = b"".join(self._kept)
        self._kept.clear()
        return kept

    def word_at(self, address: int) -> tuple[int, str]:
        """Return the word at an address and its text; 0 and "" if no page is mapped there."""
        (reply,) = self.ask(f"dis {address:x} 1")
        return (reply.words[0].word, reply.words[0].text) if isinstance(reply, Listing) else (0, "")

    def has_ended(self, stop: Stop) -> bool:
        """Return whether a stop is at the lab's ebreak, to which a source returns, or at the ebreak after its last instruction."""
        return stop.kind == "ebreak" and stop.pc in (RETURN, self.end)

    def explain(self, stop: Stop) -> str:
        """Return sentences that explain a stop, from the instruction at its address and the vector state."""
        word, text = self.word_at(stop.pc)
        return describe_stop(stop, word, self.query("vcsr", ControlRegisters), text, self.end)

    def describe(self, stop: Stop | None, place: str = "") -> str:
        """Return a line about a stop: its address, the place relative to a symbol, the instruction, and the cause.

        stop: the stop; None if the ticks ran out; place: such as `main+0x8`; "" if it is unknown
        """
        if stop is None:
            return f"the ticks ran out at {self.pc:x} {place}".rstrip()
        if self.has_ended(stop):
            return self.explain(stop)
        text = self.word_at(stop.pc)[1]
        return ": ".join(filter(None, [f"{stop.pc:x} {place}".rstrip(), text, self.explain(stop)]))

    def emit_output(self, data: bytes) -> None:
        """Pass output of the program, if there is any, to `write`."""
        if data:
            self.write(data)


@contextlib.contextmanager
def started(
    path: pathlib.Path,
    *,
    policy: str = "keep",
    quantum: int = QUANTUM,
    arguments: Sequence[str] = (),
    file: pathlib.Path | None = None,
    write: Callable[[bytes], object] | None = None,
    report: Report | None = None,
    name: object = None,
) -> Iterator[Guest]:
    """Load an image into a new machine, and yield its guest. The machine ends with the context.

    policy: `keep` or `ones`; quantum: the number of ticks in a slice; arguments: as in `Guest.start`
    file: the file to put into the program's memory as its input, or None; write, report: as in `Guest`
    name: the image's name in messages; by default its path

    Raises LabError and OSError if the image can't be read or is refused, or if there is no vecmon.
    """
    check_image(path)
    guest = Guest(Session(find_program(), {"image": path}, quantum=quantum), write=write, report=report)
    try:
        with mistakes_in(name or path):
            given = input_of(path, file) if file else {}
            guest.start("image", policy, arguments, given)
        yield guest
    finally:
        guest.session.close()  # another session, if the guest went back


def check_image(path: pathlib.Path) -> None:
    """Raise LabError or OSError if an image can't be read, is too large, is an assembler source, or is for another machine."""
    with path.open("rb") as opened:
        if len(opened.read(IMAGE_BYTES + 1)) > IMAGE_BYTES:
            raise LabError(f"{path} has more than {IMAGE_BYTES:,} bytes")
    if path.suffix in (".s", ".S"):
        raise LabError(
            f"{path} is an assembler source, and no image: run, profile, compare, gdb, the console and lessons take it"
        )
    with mistakes_in(path):
        check_kind(path)
        check_flags(path)


def runs_of(addresses: Iterable[int]) -> list[list[int]]:
    """Return addresses of words in rising order, divided into runs of at most 16 consecutive words."""
    runs: list[list[int]] = []
    for address in sorted(addresses):
        if not runs or len(runs[-1]) == 16 or address != runs[-1][-1] + 4:
            runs.append([])
        runs[-1].append(address)
    return runs


def stepping(instructions: int, at_once: int = MAX_STEPS) -> Iterator[str]:
    """Yield commands that execute a number of instructions in groups, and read the output after each group.

    For the same arguments the groups are always the same, so that in a replay the calls have the same room in the buffer.

    at_once: the number of instructions in a group
    """
    for done in range(0, instructions, at_once):
        yield from (f"step {min(at_once, instructions - done)}", "out")


def pokes(address: int, data: bytes) -> Iterator[str]:
    """Yield the commands that write bytes from an address on."""
    for at in range(0, len(data), LINE_BYTES):
        yield f"poke {address + at:x} {data[at : at + LINE_BYTES].hex()}"


def peeks(address: int, length: int) -> Iterator[str]:
    """Yield the commands that read bytes from an address on."""
    for at in range(address, address + length, LINE_BYTES):
        yield f"peek {at:x} {min(LINE_BYTES, address + length - at)}"


def argument_block(arguments: Sequence[str]) -> bytes:
    """Return the stack at the start of a program, in the layout of the RISC-V ABI.

    It has the number of arguments, their addresses, and 0; 0 for no environment variables; 0 and 0 for no auxiliary entries;
    and the arguments, each followed by a zero byte. It ends where the stack ends, and starts at the stack pointer of `load` or below.

    Raises LabError if it would have more than 8,192 bytes.
    """
    texts = [os.fsencode(argument) + b"\0" for argument in arguments]
    words = 5 + len(texts)
    size = max(STACK_END - STACK_POINTER, -(-(8 * words + sum(map(len, texts))) // 16) * 16)
    if size > ARGUMENT_BYTES:
        raise LabError(f"arguments take {ARGUMENT_BYTES:,} bytes of the stack at most, and these take {size:,}")
    first = STACK_END - size + 8 * words
    places = [first + sum(map(len, texts[:number])) for number in range(len(texts))]
    return (struct.pack(f"<{words}Q", len(texts), *places, 0, 0, 0, 0) + b"".join(texts)).ljust(size, b"\0")
