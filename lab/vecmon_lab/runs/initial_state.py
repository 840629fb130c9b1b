"""The start of a run: an image with its arguments and input, or the state of a guest."""

import pathlib
from collections.abc import Iterable, Sequence
from dataclasses import dataclass, replace

from .. import mistakes_in
from ..checkpoints.snapshot import Snapshot
from ..guest.guest import Guest, argument_block, check_image
from ..guest.image_start import image_start
from ..guest.input import input_of
from ..instructions.accesses import PAGE_BYTES, Span
from ..machine.answers import ControlRegisters, ScalarRegisters
from ..machine.lines import words_of
from ..machine.start_state import STACK_END

PlacedBytes = tuple[int, str, bytes]
"""Bytes in memory: an address, the permissions for pages that aren't mapped yet, and the bytes."""


@dataclass(frozen=True)
class InitialState:
    """The start of a run.

    image: an ELF file; None for empty memory, and 0 in all registers
    memory: bytes to write over the image, in this order
    registers: lines, each with the name of a register and its value in hexadecimal digits
    policy: the policy for agnostic elements, `keep` or `ones`
    """

    image: pathlib.Path | None = None
    memory: Sequence[PlacedBytes] = ()
    registers: Sequence[str] = ()
    policy: str = "keep"


def with_settings(initial_state: InitialState, settings: Sequence[str]) -> InitialState:
    """Return the initial state with other values, each as `x12=1f` or, of bytes at an address, `7fffefb8=00ff`."""
    registers, memory = [*initial_state.registers], [*initial_state.memory]
    for setting in settings:
        place, _, digits = setting.partition("=")
        if place[0] in "xv":
            registers.append(f"{place} {digits}")
        else:
            memory.append((int(place, 16), "rw", bytes.fromhex(digits)))
    return replace(initial_state, registers=registers, memory=memory)


def initial_state_of(
    image: pathlib.Path,
    arguments: Sequence[str],
    file: pathlib.Path | None = None,
    policy: str = "keep",
    name: object = None,
) -> InitialState:
    """Return the start of a run of an image.

    arguments: the first one is the program's name; file: the program's input
    name: the image's name in messages, by default its path

    Raises LabError and OSError if the image can't be read, isn't for this machine, or if the arguments or the input don't fit.
    """
    check_image(image)
    with mistakes_in(name or image):
        block = argument_block(arguments)
        given = input_of(image, file) if file else {}
    placed = {**given, STACK_END - len(block): block}
    memory = [(address, "rw", data) for address, data in placed.items()]
    start = [command.removeprefix("set ") for command in image_start(image).commands]
    return InitialState(image, memory, [f"x2 {STACK_END - len(block):x}", *start], policy)


def initial_state_at(
    guest: Guest, image: pathlib.Path | None = None, lines: Iterable[str] | None = None
) -> InitialState:
    """Return the start of a run from a guest's current state.

    image: the loaded image, or None; memory that `lines` can't have changed is taken from it
    lines: all lines since the guest entered; None for the session's script
    """
    pages, spans = dict[int, str](), dict[Span, None]()
    for line in guest.session.script.decode("ascii").splitlines() if lines is None else lines:
        match words_of(line):
            case ["map", address, number, permissions]:
                first = int(address, 16)
                pages |= dict.fromkeys(range(first, first + int(number) * PAGE_BYTES, PAGE_BYTES), permissions)
            case ["poke" | "asm" as command, address, text, *_]:
                spans[int(address, 16), len(text) // 2 if command == "poke" else 4] = None
            case ["step" | "go", *_]:  # the instructions may write to any page
                spans |= dict.fromkeys((page, PAGE_BYTES) for page in pages)
    control, scalars = guest.query("vcsr", ControlRegisters), guest.query("regs", ScalarRegisters)
    registers = _register_lines(scalars, control, guest.vectors())
    memory = [(page, permissions, bytes(PAGE_BYTES)) for page, permissions in pages.items()]
    memory += [(first, "rw", guest.peek(first, length)) for first, length in spans]
    return InitialState(image, _joined(memory), registers, guest.session.policy[guest.user])


def initial_state_of_snapshot(snapshot: Snapshot) -> InitialState:
    """Return the start of a run from a snapshot."""
    shown, pages = snapshot.shown, snapshot.user.pages
    memory = [(page, permissions, shown.memory[page]) for page, permissions in sorted(pages.items())]
    return InitialState(
        None, _joined(memory), _register_lines(shown.registers, shown.control, shown.vectors), shown.policy
    )


def _register_lines(scalars: ScalarRegisters, control: ControlRegisters, vectors: Sequence[bytes]) -> Sequence[str]:
    """Return the lines that set registers."""
    lines = [f"pc {scalars.pc:x}", *(f"{name} {value:x}" for name, value in vars(control).items())]
    lines += [f"x{number} {scalars.x[number]:x}" for number in range(1, 32)]
    return [*lines, *(f"v{number} {data.hex()}" for number, data in enumerate(vectors))]


def _joined(memory: Iterable[PlacedBytes]) -> Sequence[PlacedBytes]:
    """Return the memory with adjacent parts of the same permissions joined."""
    joined = list[PlacedBytes]()
    for address, permissions, data in memory:
        first, before, content = joined[-1] if joined else (0, "", b"")
        if (before, first + len(content)) == (permissions, address):
            joined[-1] = first, permissions, content + data
        else:
            joined.append((address, permissions, data))
    return joined
