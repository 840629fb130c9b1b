"""The whole state of a machine, found from the lines of its script, by read-only commands, and by commands that change the machine.

No read-only command shows some of the state, such as the user of the last turn. So the machine can't be used afterwards.
"""

import pathlib
from collections.abc import Callable, Iterator, Mapping
from dataclasses import dataclass, field

from ..compilers.compiled import rights_by_page
from ..guest.guest import Guest
from ..guest.notebook import registers_html
from ..instructions.accesses import PAGE_BYTES
from ..machine.answers import (
    Addresses,
    ControlRegisters,
    Granted,
    Output,
    Position,
    ScalarRegisters,
    Switches,
    is_refusal,
    read,
)
from ..machine.lines import DIGITS, words_of
from ..machine.program import segments_of
from ..machine.session import Session
from ..machine.start_state import STACK_BYTES, STACK_END

TOUCHING = "vadd.vv v0, v1, v2, v0.t"
"""An instruction that is illegal under each vector type: it makes its user the vector unit's owner and changes nothing."""

Opening = Callable[[], Session]
"""Opens a session on a new machine."""

_FOLLOWED = set(" elmv")  # first letters of the commands that `follow_line` knows


@dataclass
class User:
    """The state of a present user that follows from the lines of the script.

    image: the name of the loaded image, or ""
    maps: the address, number of pages and permission of each `map` since the image was loaded
    has_area: whether the vector unit has a save area with the user's state. `follow_line` only sets it if the line is a `vset`.
    pages: permissions by the addresses of pages
    """

    image: str = ""
    maps: list[tuple[int, int, str]] = field(default_factory=list)
    has_area: bool = False
    pages: dict[int, str] = field(default_factory=dict)

    def first(self, permission: str) -> int | None:
        """Return the address of the first page with a permission; None if there is none."""
        return next((page for page, allowed in self.pages.items() if permission in allowed), None)


@dataclass(frozen=True)
class Shown:
    """The state of a stopped user that read-only commands show. memory: the contents of pages, by their addresses"""

    is_running: bool
    registers: ScalarRegisters
    control: ControlRegisters
    policy: str
    vectors: list[bytes]
    breakpoints: list[int]
    trace: list[int]
    memory: dict[int, bytes]
    output: bytes

    @property
    def is_at_breakpoint(self) -> bool:
        """Whether the program runs, and its program counter is at a breakpoint."""
        return self.is_running and self.registers.pc in self.breakpoints


@dataclass(frozen=True)
class MachineState:
    """The state of a machine, except for the counts of its vector unit.

    users: the state of each present user that follows from the script, by the user's digit
    shown: the state of each present user that read-only commands show, by the user's digit
    owner: the digit of the user whose state the vector unit holds; 0 if there is none
    is_dirty: whether the state in the vector unit has changed since it was loaded there
    last: the digit of the user of the last turn
    """

    users: Mapping[str, User]
    shown: Mapping[str, Shown]
    owner: str
    is_dirty: bool
    last: str

    def _repr_html_(self) -> str:
        """Return the registers of each user as a notebook shows them."""
        texts = []
        for digit, it in self.shown.items():
            registers = registers_html(it.registers.pc, it.registers.x, it.control, it.vectors)
            texts.append(f"<b>User {digit}{', running' * it.is_running}</b>{registers}")
        return "".join(texts)


def replay_script(session: Session, script: bytes) -> dict[str, User]:
    """Execute a script that a session recorded; return its users by digit."""
    users = dict[str, User]()
    for line, answer in session.do_script(script):
        if line[2:3] in _FOLLOWED and line[0] != "*" and not is_refusal(answer):
            follow_line(users, line)
    return users


def machine_after(session: Session, script: bytes, images: Mapping[str, pathlib.Path]) -> MachineState:
    """Return the state in which a script leaves the machine of a new session. The session is of no use afterwards."""
    users = replay_script(session, script)
    for user in users.values():
        user.pages = dict(pages_of(user, images))
    owner = _switches(session)["owner"]
    shown = {digit: _look(Guest(session, int(digit)), user) for digit, user in users.items()}
    is_dirty = _find_areas(session, users, str(owner))
    return MachineState(users, shown, str(owner), is_dirty, _last(session))


def fresh_memory(opening: Opening, user: User) -> dict[int, bytes]:
    """Return the contents of a user's pages before the program starts, by their addresses."""
    memory = dict.fromkeys(user.pages, bytes(PAGE_BYTES))
    if user.image:
        with opening() as session:
            guest = Guest(session)
            guest.ask("enter", f"load {user.image}")
            memory = {page: guest.peek(page, PAGE_BYTES) or memory[page] for page in user.pages}
    return memory


def follow_line(users: dict[str, User], line: str) -> None:
    """Take up a user's line that the machine has accepted. users: the users by digit, to which the line may add its user or from which it
    may remove its user
    """
    digit = line[0]
    match words_of(line):
        case ["enter"]:
            users[digit] = User()
        case ["load", image]:
            users[digit] = User(image)
        case ["leave"]:
            del users[digit]
        case ["map", address, pages, permission]:
            users[digit].maps.append((int(address, 16), int(pages), permission))
        case ["vset", *_]:
            users[digit].has_area = True


def pages_of(user: User, images: Mapping[str, pathlib.Path]) -> Iterator[tuple[int, str]]:
    """Yield the address and the permissions of each of a user's pages. images: the paths of images by name"""
    if user.image:
        segments = (
            (address, rights, size) for address, rights, size, _ in segments_of(images[user.image].read_bytes())
        )
        yield from rights_by_page([(STACK_END - STACK_BYTES, "rw", STACK_BYTES), *segments]).items()
    for address, pages, permission in user.maps:
        for page in range(address, address + pages * PAGE_BYTES, PAGE_BYTES):
            yield page, permission


def _look(guest: Guest, user: User) -> Shown:
    """Return the state of a user. The program is stopped first, and the output buffer is emptied."""
    is_running = guest.query("state", Position).run == "running"
    if is_running:
        guest.query("stop", Position)
    return Shown(
        is_running,
        guest.query("regs", ScalarRegisters),
        guest.query("vcsr", ControlRegisters),
        guest.session.policy[guest.user],
        guest.vectors(),
        list(guest.query("breaks", Addresses).addresses),
        list(guest.query("trace", Addresses).addresses),
        {page: guest.peek(page, PAGE_BYTES) for page in user.pages},
        guest.query("out", Output).data,
    )


def _switches(session: Session) -> dict[str, int]:
    """Return the counts of the vector unit by name, and its owner, which has the name `owner`."""
    switches = read(session.do("* stats"))
    assert isinstance(switches, Switches)
    return switches.counts


def _find_areas(session: Session, users: Mapping[str, User], owner: str) -> bool:
    """Find which users have a save area, and set `has_area`. Return whether the owner's state has changed since it was loaded.

    Each user executes a vector instruction, the owner last, so that the counts of saves and restores show this.
    """
    touching = {digit: page for digit, user in users.items() if (page := user.first("x")) is not None}
    own_page, is_dirty = touching.pop(owner, None), False
    if own_page is not None:
        outsider = next((digit for digit in DIGITS if digit not in touching and digit != owner), "")
        if not touching:
            for command in ("leave", "enter", "map 0 1 x"):
                session.do(f"{outsider} {command}")
        touching = (touching or {outsider: 0}) | {owner: own_page}
    before = first = _switches(session)
    for digit, page in touching.items():
        for command in (f"asm {page:x} {TOUCHING}", f"setpc {page:x}", "step 1"):
            session.do(f"{digit} {command}")
        now = _switches(session)
        is_dirty = is_dirty or before is first and now["saves"] > before["saves"]
        if digit in users:
            users[digit].has_area = now["restores"] > before["restores"]
        before = now
    return is_dirty


def _last(session: Session) -> str:
    """Return the user of the last turn. Each user's program is started and faults in its first slice, so the first fault shows the order."""
    for digit in DIGITS:
        for command in ("leave", "enter", "go"):
            session.do(f"{digit} {command}")
    granted = read(session.do("* slices 1"))
    assert isinstance(granted, Granted)
    return DIGITS[DIGITS.index(granted.stops[0][0]) - 1]
