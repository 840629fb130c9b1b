"""Names in the console's lines: registers, symbols and omitted arguments become the arguments of the monitor."""

import re
from collections.abc import Iterable

from .. import LabError
from ..assembler.commands import COMMANDS, MEANINGS
from ..guest.changes import Stepper
from ..guest.guest import Guest
from ..guest.symbols import Symbols
from ..instructions.accesses import PAGE_BYTES
from ..instructions.table import instruction_table
from ..machine.answers import ControlRegisters, Position
from ..meanings.record import records
from ..tables.table import read_table
from .conditions import REGISTERS

DIGITS = "[0-9a-fA-F]+"
LEFT_OUT = {"dis": "{pc:x} {number}", "load": "image", "peek": "ADDR 16", "step": "1", "vreg": "vN {sew}"}
LEFT_OUT |= {"list": "{pc:x}", "back": "1"}
PLACES = ("ADDR", "VALUE", "PLACE")  # arguments that may be a symbol; the last one may also be a register
AS_TYPED = ("break", "unbreak", "until", "list")  # the console itself finds their places
VECTORS = {f"v{number}": number for number in range(32)}
CHOICES = {kind: words.split() for kind, words in read_table("choices")} | {"COMMAND": list(COMMANDS)}
GDB_COMMANDS = {
    "back": "reverse-stepi reverse-step reverse-continue rsi rs rc",
    "break": "b br tbreak tb",
    "dis": "disassemble disas",
    "help": "h",
    "list": "l",
    "peek": "x",
    "quit": "q exit",
    "regs": "info i print p display inspect",
    "run": "c continue cont fg r start",
    "source": "file",
    "step": "s si stepi n ni next nexti",
    "unbreak": "d delete clear",
    "until": "u advance finish watch",
}
"""The names of gdb's commands, by the console's command with the same or the nearest effect."""


class Names:
    """The names that a user's lines may contain. symbols: the symbols of the loaded program"""

    def __init__(self, guest: Guest, stepper: Stepper, symbols: Symbols) -> None:
        self.symbols = symbols
        self._guest, self._stepper = guest, stepper

    def choices(self, kind: str) -> Iterable[str]:
        """Return the values that an argument may have; none if they can't be listed.

        kind: the argument's name in the command's form, such as `ADDR`, or TOPIC for the argument of `help`
        """
        if kind == "TOPIC":
            described = (name for name, record in records().items() if record.kind != "absent")
            return {*COMMANDS, *MEANINGS, *instruction_table(), *described}
        registers = [*REGISTERS, *VECTORS] if kind == "PLACE" else []
        return (
            [*{*self.symbols.addresses, *self.symbols.source.functions}, *registers]
            if kind in PLACES
            else CHOICES.get(kind, [])
        )

    def words(self, line: str) -> list[str]:
        """Return the command and arguments of a line for the monitor, with defaults added and names replaced by their values."""
        name = line.split()[0]
        form = COMMANDS[name].form.split() if name in COMMANDS else [name]
        words = line.split(None, max(len(form) - 1, 1))
        vtype, (_, pc) = self._stepper.registers.control.vtype, state_of(self._guest)
        number, sew = min(8, (PAGE_BYTES - pc % PAGE_BYTES) // 4), ControlRegisters(vtype=vtype & 0x3F).sew
        words += LEFT_OUT.get(name, "").format(pc=pc, number=number, sew=sew).split()[len(words) - 1 :]
        if name in AS_TYPED:
            return words
        return words[:1] + [self.named(word, kind) for word, kind in zip(words[1:], [*form[1:], ""])]

    def named(self, word: str, kind: str) -> str:
        """Return the argument to send to the monitor in place of an argument of a line.

        The name of a register becomes its number, a symbol (main or main+8) its address in hexadecimal digits; 0x is removed.
        Other arguments are unchanged. Raises LabError for an unknown or ambiguous symbol.

        word: the argument of the line; kind: the argument's name in the command's form, such as `ADDR`
        """
        if kind == "xN":
            return REGISTERS.get(word, word)
        if kind not in PLACES or kind == "PLACE" and (word in REGISTERS or word in VECTORS):
            return word
        name, _, offset = word.partition("+")
        address = self.symbols.addresses.get(name)
        if len(places := self.symbols.places_of.get(name, ())) > 1:
            raise self.ambiguous(name, sorted(places))
        if address is None and re.fullmatch("[A-Za-z_.$][A-Za-z0-9_.$]*", name) and not re.fullmatch(DIGITS, name):
            raise LabError(f"there is no symbol {name}")
        if address is None or not re.fullmatch(f"(0x)?{DIGITS}", offset or "0"):
            return word.removeprefix("0x")
        return f"{address + int(offset or '0', 16):x}"

    def ambiguous(self, name: str, addresses: Iterable[int]) -> LabError:
        """Return the error for a name with several addresses."""
        lines = ((f"{address:x}", self.symbols.line(address)) for address in addresses)
        places = [f"{address} ({line})" if line else address for address, line in lines]
        return LabError(
            f"{name} names {len(places)} places: {', '.join(places)}; name one as FILE:LINE or by its address"
        )

    def place(self, address: int) -> str:
        """Return an address, followed by its place relative to a symbol, if there is one."""
        return f"{address:x} {self.symbols.place(address)}".rstrip()


def state_of(guest: Guest) -> tuple[str, int]:
    """Return `stopped` or `running` and the program counter, or `absent` and 0 if the user hasn't entered."""
    (state,) = guest.ask("state")
    return (state.run, state.pc) if isinstance(state, Position) else ("absent", 0)


def remedy_of(word: str) -> str:
    """Return the end of a message about an unknown command: which command to type instead. Return "" if the command exists."""
    if word in COMMANDS or f"* {word}" in COMMANDS:
        return ""
    name = word.partition("/")[0]  # x/4w
    own = gdb_command(name)
    return f"; gdb's {name} is `{COMMANDS[own].form}` here" if own else "; help lists the commands"


def gdb_command(name: str) -> str | None:
    """Return the console's command that is nearest to one of gdb's commands; None if the name isn't in GDB_COMMANDS."""
    return next((own for own, names in GDB_COMMANDS.items() if name in names.split()), None)
