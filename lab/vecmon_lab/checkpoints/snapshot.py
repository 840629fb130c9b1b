"""The state of one user's stopped program, read by read-only commands, and the lines that restore it on a new machine."""

from collections.abc import Mapping, Sequence
from dataclasses import dataclass

from ..guest.guest import Guest
from ..instructions.accesses import LINE_BYTES, PAGE_BYTES
from ..machine.answers import Addresses, ControlRegisters, Memory, ScalarRegisters, Switches, read
from ..machine.lines import DIGITS
from ..machine.session import TOGETHER
from .machine_state import MachineState, Shown, User
from .set_up import lines_of

LINES_OF_A_PAGE = PAGE_BYTES // LINE_BYTES


@dataclass(frozen=True)
class Snapshot:
    """The state of the only user of a machine, whose program is stopped, and whose output buffer is empty.

    user: the image and the pages; shown: registers, memory, breakpoints, trace and policy
    is_owner: whether the vector unit holds this user's state
    """

    user: User
    shown: Shown
    is_owner: bool

    def lines(self, digit: str, fresh: Mapping[int, bytes]) -> Sequence[str]:
        """Return the lines that bring a new machine into this state, except for the counts of its vector unit.

        digit: the user's digit on the new machine
        fresh: the contents that the user's pages have before the program starts, by their addresses
        """
        owner = digit if self.is_owner else "0"
        machine = MachineState({digit: self.user}, {digit: self.shown}, owner, self.is_owner, DIGITS[-1])
        return lines_of(machine, {digit: fresh})


def take_snapshot(guest: Guest, user: User, before: Snapshot | None = None) -> Snapshot:
    """Take a guest's snapshot by read-only commands.

    user: the guest's image and pages; before: an earlier snapshot, whose pages are used again if their contents are equal, to save memory
    """
    switches = read(guest.session.looks(["* stats"]))
    assert isinstance(switches, Switches)
    shown = Shown(
        False,
        guest.query("regs", ScalarRegisters),
        guest.query("vcsr", ControlRegisters),
        guest.session.policy[guest.user],
        guest.vectors(),
        list(guest.query("breaks", Addresses).addresses),
        list(guest.query("trace", Addresses).addresses),
        _shared(_memory(guest, user.pages), before),
        b"",
    )
    return Snapshot(user, shown, switches.counts["owner"] == guest.user)


def _memory(guest: Guest, pages: Mapping[int, str]) -> dict[int, bytes]:
    """Return the contents of pages, by their addresses."""
    places = [page + at for page in pages for at in range(0, PAGE_BYTES, LINE_BYTES)]
    lines = [f"{guest.user} peek {place:x} {LINE_BYTES}" for place in places]
    groups = (lines[at : at + TOGETHER] for at in range(0, len(lines), TOGETHER))
    answers = [read([answer]) for group in groups for answer in guest.session.looks(group)]
    parts = [answer.data for answer in answers if isinstance(answer, Memory)]
    joined = (b"".join(parts[at : at + LINES_OF_A_PAGE]) for at in range(0, len(parts), LINES_OF_A_PAGE))
    return dict(zip(pages, joined))


def _shared(memory: dict[int, bytes], before: Snapshot | None) -> dict[int, bytes]:
    """Return the same memory, in which pages of an earlier snapshot replace pages with equal contents, so that the copies are freed."""
    old = before.shown.memory if before else dict[int, bytes]()
    return {page: old[page] if old.get(page) == data else data for page, data in memory.items()}
