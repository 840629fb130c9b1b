"""The remote serial protocol of gdb over standard input and output: `target extended-remote | vecmon-lab gdb IMAGE`.

gdb starts the command, and exchanges packets with it over a pipe, so no port is opened. Packets and replies are those of gdb's manual,
"gdb Remote Serial Protocol":

- `S` and a signal's number reports a stop, `W` and the status an exit, and `O` and its bytes output.
- `E` and a number reports an error. The number is that of the machine's refusal.
- An empty reply means that a packet isn't supported.
- `T05` reports a watchpoint, the first state (there is nothing before it), or that the program ends at its next instruction. In the last
case, gdb can still go back.

In the extended mode (`!`) gdb can kill the program and run it again from its start, with `vKill`, `vRun` and `R`.
"""

import argparse
import contextlib
import os
import pathlib
import re
from collections.abc import Callable, Iterator, Sequence

from .. import LabError
from ..arguments import SOURCES, add_program, between
from ..assembler.commands import explain_refusal
from ..end_signals import ended_by_signals
from ..guest.guest import Guest, started
from ..guest.input import input_of
from ..guest.runner import Reporter
from ..guest.symbols import Symbols
from ..console.show import control_row
from ..instructions.accesses import LINE_BYTES, REGISTER_BYTES
from ..machine.answers import (
    CONTROL,
    Addresses,
    ControlRegisters,
    Done,
    Memory,
    Refused,
    ScalarRegisters,
    Stop,
    VectorRegister,
    elements_in,
    read,
)
from ..machine.lines import BadLine, is_look, words_of
from ..machine.session import TOGETHER
from ..port import HOST, one_client
from ..replay.timeline import Timeline
from ..replay.watches import Watch
from .packets import Link

BEGUN = "S00"  # signal 0: gdb would report another signal if the previous machine was stopped by it
INTERRUPTED, ILLEGAL, TRAPPED, MISALIGNED, UNMAPPED = "S02", "S04", "S05", "S0a", "S0b"  # SIGINT, ILL, TRAP, BUS, SEGV
FAULTS = {0: MISALIGNED, 1: UNMAPPED, 2: ILLEGAL, 5: UNMAPPED, 7: UNMAPPED}  # by cause of the fault
REFUSED, NO_IMAGE, TOO_MANY, THERE_ALREADY = "E04", "E08", "E12", Refused("E13")
FEATURES = "qXfer:features:read+;QStartNoAckMode+;ReverseStep+;ReverseContinue+;qXfer:exec-file:read+"
FIRST_INSTANT, LAST_INSTANT = "T05replaylog:begin;", "T05replaylog:end;"
WATCHES = {"2": "watch", "3": "rwatch", "4": "awatch"}  # the kind of a watchpoint by the type in a packet
PACKET_BYTES = 512  # so small that the bytes of one packet, in two digits each, fit into one `poke`
DESCRIPTION = pathlib.Path(__file__).with_name("registers.xml").read_text("ascii")
SCRIPT = pathlib.Path(__file__).with_name("info_vector.py")
PC, FIRST_CONTROL = 32, 33  # numbers of registers in packets: x0 to x31, pc, the control registers, v0 to v31, vcsr
FIRST_VECTOR = FIRST_CONTROL + len(CONTROL)
VCSR = FIRST_VECTOR + 32


def add_arguments(parser: argparse.ArgumentParser) -> None:
    """Add the arguments of `vecmon-lab gdb` to its parser."""
    add_program(parser, f"the image that the machine loads, or {SOURCES}", assembles=True)
    help_text = f"wait for gdb or LLDB at this port of {HOST}; 0 chooses one, which is printed"
    parser.add_argument("--port", metavar="N", type=between(0, 65535), help=help_text)
    help_text = "print the path of a file for gdb's source, with which `info vector` prints register groups"
    parser.add_argument("--script", action="version", version=f"{SCRIPT}", help=help_text)


def run(arguments: argparse.Namespace) -> int:
    """Serve gdb until it disconnects. Raises LabError and OSError for a bad image, and OSError if the port is in use."""
    with ended_by_signals():
        if arguments.port is None:
            return _serve(arguments, Link())
        with one_client(arguments.port) as connection:
            return _serve(arguments, Link(connection.fileno(), connection.sendall))


def _serve(arguments: argparse.Namespace, link: Link) -> int:
    """Serve gdb over a connection."""
    image = arguments.image
    report, write = Reporter(Symbols.read(image).place), lambda data: link.send(f"O{data.hex()}")
    own, name = [image.name, *arguments.words], arguments.named
    with started(image, arguments=own, file=arguments.input, write=write, report=report, name=name) as guest:

        def restart(words: Sequence[str]) -> None:
            data = input_of(image, arguments.input) if arguments.input else {}
            guest.go_back(0, 0)
            guest.start("image", arguments=[image.name, *words] if words else own, data=data)

        target = Target(guest, link, image, restart)
        with contextlib.suppress(EOFError, BrokenPipeError, ConnectionError):
            while target.is_attached:
                if (reply := target.reply_to(link.receive())) is not None:
                    link.send(reply)
    return 0


class Target:
    """A guest that gdb controls by packets. is_attached: whether gdb hasn't detached yet"""

    def __init__(self, guest: Guest, link: Link, image: pathlib.Path, restart: Callable[[Sequence[str]], None]) -> None:
        """guest: the program's user on its machine; link: the connection to gdb; image: the path of the program

        restart: loads the program on a new machine. Its argument has the program's arguments; if it is empty, those of the command are used.
        """
        self.is_attached, self._image, self._restart = True, image, restart
        self._is_extended = False  # whether gdb can run the program again
        self._guest, self._link, self._timeline = guest, link, self._new_timeline(guest)
        self._last = BEGUN  # the last stop
        self._exit = ""  # the reply if gdb resumes a program that is at its end; "" for a program that isn't

    def _new_timeline(self, guest: Guest) -> Timeline:
        """Return a timeline of a guest; gdb prints the progress of its work."""
        return Timeline(guest, lambda advance: self._tell(advance.sentence))

    def reply_to(self, packet: str) -> str | None:
        """Return the reply to a packet; None if it has no reply. Output is sent before the reply.

        Raises EOFError if gdb kills the program.
        """
        try:
            if packet[:1] in ("!", "v", "R", "D", "k"):
                return self._reply_on_process(packet)
            return self._reply(packet[:1], re.split("[,:=]", packet[1:]))
        except ValueError:  # a field that should be a number isn't one
            return REFUSED

    def _reply_on_process(self, packet: str) -> str | None:
        """Return the reply to a packet about the whole process; None if it has no reply, and "" if it is unsupported."""
        name, *fields = packet.split(";")
        match name, fields:
            case "!", _:
                self._is_extended = True
                return "OK"
            case "vRun", [file, *words] if self._is_extended:
                return self._run(*(os.fsdecode(bytes.fromhex(digits)) for digits in (file, *words)))
            case "vKill", _ if self._is_extended:
                return "OK"  # the next `vRun` loads the program again
            case _ if packet[0] == "R" and self._is_extended:
                self._run("")
                return None
            case "D", _:
                self.is_attached = self._is_extended
                return "OK"
            case "k", _:
                raise EOFError
        return ""

    def _run(self, file: str, *words: str) -> str:
        """Load the program again, and return its first stop, before its first instruction.

        file: the program's path, or "" for the same program; words: the program's arguments; if there are none, those of the command are used
        """
        if pathlib.Path(file).name not in ("", self._image.name):
            self._tell(f"{file} isn't {self._image.name}, which this machine runs: start the command with it")
            return NO_IMAGE
        try:
            self._restart(words)
        except (LabError, OSError) as error:
            self._tell(str(error))
            return REFUSED
        self._timeline, self._last, self._exit = self._new_timeline(self._guest), BEGUN, ""
        return self._last

    def _reply(self, letter: str, words: list[str]) -> str:
        if letter in "bMP":  # going back or writing may prevent the exit
            self._exit = ""
        match letter, words:
            case "q", _:
                return self._reply_to_query(words)
            case ("Q", ["StartNoAckMode"]) | ("H", _):
                return "OK"
            case "?", _:
                return self._last
            case ("c" | "C" | "s" | "S"), _ if self._exit:
                return self._exit
            case ("c" | "C"), _:
                return self._stopped(self._timeline.go(self._link.is_interrupted), INTERRUPTED)
            case ("s" | "S"), _:
                stop = self._timeline.step()
                return self._stopped(stop, self._trapped())
            case "b", ["s" | "c" as how]:
                return self._back(how == "s")
            case "g", _:
                return "".join(self._scalars()[:FIRST_CONTROL])
            case "p", [number]:
                return self._register(int(number, 16))
            case "P", [number, digits]:
                return self._write_register(int(number, 16), digits)
            case "m", [address, length]:
                return self._read_memory(address, int(length, 16))
            case "M", [address, _, digits]:
                return self._do(f"poke {address} {digits}")
            case ("Z" | "z"), ["0" | "1", address, _]:
                return self._do(f"{'break' if letter == 'Z' else 'unbreak'} {address}")
            case ("Z" | "z"), ["2" | "3" | "4" as kind, address, length]:
                return self._watch(letter == "Z", Watch(WATCHES[kind], int(address, 16), int(length, 16)))
        return ""

    def _read_memory(self, address: str, length: int) -> str:
        """Return the bytes from an address on, at most up to the end of the address's row. gdb then requests the rest.

        address: the address in hexadecimal digits; length: the number of bytes
        """
        limit = LINE_BYTES - int(address, 16) % LINE_BYTES
        (answer,) = self._guest.ask(f"peek {address} {min(length, limit)}")
        return answer.data.hex() if isinstance(answer, Memory) else str(answer)

    def _reply_to_query(self, words: list[str]) -> str:
        """Return the reply to a `q` packet; "" if it is unsupported."""
        match words:
            case ["Supported", *_]:
                return f"PacketSize={PACKET_BYTES:x};{FEATURES}"
            case ["Xfer", "features", "read", "target.xml", offset, length]:
                return _part(DESCRIPTION, offset, length)
            case ["Xfer", "exec-file", "read", _, offset, length]:
                return _part(os.fsencode(self._image.absolute()).decode("latin-1"), offset, length)
            case ["Rcmd", digits]:
                return self._monitor(bytes.fromhex(digits).decode("latin-1")).encode().hex()
        return ""

    def _stopped(self, stop: Stop | None, signal: str) -> str:
        """Return the reply that reports a stop, and print a message in gdb's console if the program ends or faults.

        signal: the reply if `stop` is None
        """
        self._last = self._trapped() if stop else signal
        if stop and stop.kind == "exit":
            self._tell(f"it exits here with status {stop.number}; continue ends it, reverse-continue goes back")
            self._exit, self._last = f"W{stop.number:02x}", LAST_INSTANT
        if stop and self._guest.has_ended(stop):
            self._tell(self._guest.explain(stop))
            self._exit, self._last = "W00", LAST_INSTANT
        if stop and stop.kind == "fault":
            self._tell(self._guest.explain(stop))
            self._last = FAULTS[stop.cause]
        return self._last

    def _back(self, is_step: bool) -> str:
        """Go back by one instruction, or to a breakpoint or watchpoint. Return the reply that reports the stop.

        At the first state, the reply says that there is nothing before it. The reason of an error is printed in gdb's console.
        """
        try:
            if is_step:
                is_there = self._timeline.back(1, self._link.is_interrupted)
            else:
                breaks = self._guest.query("breaks", Addresses).addresses
                is_there = self._timeline.back_to_halt(breaks, self._link.is_interrupted)
        except LabError as error:
            self._tell(str(error))
            return REFUSED
        self._last = INTERRUPTED if is_there is None else self._trapped() if is_there else FIRST_INSTANT
        return self._last

    def _trapped(self) -> str:
        """Return the reply for a stop at an instruction, with the watchpoint if it is the reason."""
        hit = self._timeline.hit
        return f"T05{hit.kind}:{hit.address:x};" if hit else TRAPPED

    def _watch(self, is_new: bool, watch: Watch) -> str:
        """Set a watchpoint, or remove it if `is_new` is false; return the reply."""
        watches = [each for each in self._timeline.watches if each != watch] + ([watch] if is_new else [])
        if watch.length < 1 or sum(-(-each.length // LINE_BYTES) for each in watches) > TOGETHER:
            return TOO_MANY
        self._timeline.watches = watches
        return "OK"

    def _tell(self, text: str) -> None:
        """Print a line in gdb's console."""
        self._link.send(f"O{f'vecmon: {text}'.encode().hex()}0a")

    def _scalars(self) -> list[str]:
        """Return the values of all registers except the vector registers, in the order of their numbers, as packets have them."""
        registers, control = self._guest.query("regs", ScalarRegisters), self._guest.query("vcsr", ControlRegisters)
        values = (*registers.x, registers.pc, *vars(control).values())
        return [value.to_bytes(8, "little").hex() for value in values]

    def _register(self, number: int) -> str:
        """Return the value of the register with this number, as packets have it, or a refusal."""
        if number < FIRST_VECTOR:
            return self._scalars()[number]
        if number == VCSR:
            control = self._guest.query("vcsr", ControlRegisters)
            return (control.vxrm << 1 | control.vxsat).to_bytes(8, "little").hex()
        (answer,) = self._guest.ask(f"vreg v{number - FIRST_VECTOR} 8")
        return answer.data.hex() if isinstance(answer, VectorRegister) else REFUSED

    def _write_register(self, number: int, digits: str) -> str:
        """Set a register to a value in a packet, and return the reply. The control registers are refused."""
        if VCSR > number >= FIRST_VECTOR:
            return self._do(f"vset v{number - FIRST_VECTOR} {digits}")
        if number >= FIRST_CONTROL:
            return REFUSED
        value = bytes.fromhex(digits)[::-1].hex()
        return self._do(f"setpc {value}" if number == PC else f"set x{number} {value}")

    def _monitor(self, line: str) -> str:
        """Return the output of gdb's `monitor LINE`. `vector`, read-only commands and `policy` are allowed."""
        if line.strip() == "vector":
            return "".join(f"{row}\n" for row in self._vector_rows())
        if not is_look(f"1 {line}") and words_of(f"1 {line}")[:1] != ["policy"]:
            return "monitor takes vector, policy and lines that look, as regs, vreg, dis and trace; gdb does the rest\n"
        try:
            lines = self._guest.session.do(f"1 {line}")
        except BadLine as error:
            return f"{error}\n"
        answer, rows = read(lines), [part[2:] for part in lines]
        return "\n".join([*(explain_refusal(f"1 {line}", answer) if isinstance(answer, Refused) else rows), ""])

    def _vector_rows(self) -> Iterator[str]:
        """Yield a description of the vector state, and a row for each register group.

        A row has the group's elements in hexadecimal, the first one first.
        """
        control, policy = self._guest.query("vcsr", ControlRegisters), self._guest.session.policy[self._guest.user]
        yield control_row(control, policy)
        data, is_typed = b"".join(self._guest.vectors()), not control.vtype >> 63
        size, width = (max(1, int(control.lmul)), control.sew) if is_typed else (1, 8)
        for register in range(0, 32, size):
            own = data[register * REGISTER_BYTES : (register + size) * REGISTER_BYTES]
            values = [f"{value:0{width // 4}x}" for value in elements_in(own, width)]
            yield f"v{register:<3} {' '.join(values[: control.vl] if is_typed else values)}".rstrip()

    def _do(self, command: str) -> str:
        """Execute a command that changes the machine; return the reply."""
        (answer,) = self._guest.ask(command)
        return "OK" if isinstance(answer, Done) or answer == THERE_ALREADY else str(answer)


def _part(text: str, offset: str, length: str) -> str:
    """Return the reply with a part of a text that gdb reads in parts. It starts with `m` if more of the text follows, and otherwise with `l`.

    offset, length: the start of the part and its largest length in characters, in hexadecimal digits
    """
    part = text[int(offset, 16) :]
    return ("m" if len(part) > int(length, 16) else "l") + part[: int(length, 16)]
