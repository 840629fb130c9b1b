"""The console's breakpoints: one at each address of a place, perhaps with a condition."""

from collections.abc import Mapping, Sequence

from .. import LabError
from ..assembler.commands import explain_refusal
from ..guest.guest import Guest
from ..machine.answers import Addresses, Refused, read
from ..machine.lines import check_text
from .conditions import Condition, Conditions
from .names import Names, state_of
from .places import Place, Places, is_number
from .show import Screen

MAX_BREAKPOINTS = 16  # a user's limit

Kept = Mapping[int, Condition | None]
"""The condition of each breakpoint, or None, by the breakpoint's address."""


class Breakpoints:
    """A user's breakpoints."""

    def __init__(self, guest: Guest, screen: Screen, names: Names, places: Places, conditions: Conditions) -> None:
        self._guest, self._screen, self._names = guest, screen, names
        self._places, self._conditions = places, conditions

    def set(self, text: str) -> None:
        """Set breakpoints, and print a refusal if the machine refuses one. Raises LabError for an unknown place or a bad condition.

        text: `PLACE`, or `PLACE if CONDITION`
        """
        word, _, condition_text = text.partition(" if ")
        place, condition = self.find(word.strip()), None
        if condition_text:
            condition = Condition.read(condition_text, lambda side: self._names.named(side, "VALUE"))
        there = self._there()
        new = [each for each in place.addresses if not is_number(each) or int(each, 16) not in there]
        self.check_room(word.strip(), place)
        if self._send("break", new or place.addresses[:1]):
            self._conditions.by_address.update({int(each, 16): condition for each in new} if condition else {})
            self._say_done(place)

    def remove(self, word: str) -> None:
        """Remove the breakpoints of a place. Raises LabError if there is no such place. word: the argument that names the place"""
        place, there = self.find(word), self._there()
        old = [each for each in place.addresses if is_number(each) and int(each, 16) in there]
        if self._send("unbreak", old or place.addresses[:1]):
            self._conditions.drop_old()
            self._say_done(place)

    def find(self, word: str) -> Place:
        """Return the place that an argument names. Raises LabError as `Places.find` does."""
        return self._places.find(word, state_of(self._guest)[1])

    def check_room(self, word: str, place: Place) -> None:
        """Raise LabError if a place with several addresses needs more breakpoints than are left. word: the argument that names it"""
        there = self._there()
        new, left = [each for each in place.addresses if int(each, 16) not in there], MAX_BREAKPOINTS - len(there)
        if len(new) > max(left, 1) or len(new) > left and len(place.addresses) > 1:
            needed = f"{word} needs {len(new)} breakpoints, and {left} of {MAX_BREAKPOINTS} are left"
            raise LabError(f"{needed}: none is set; break takes one address, of {', '.join(place.addresses)}")

    def all(self) -> Kept:
        """Return all breakpoints with their conditions."""
        return {address: self._conditions.by_address.get(address) for address in self._there()}

    def restart(self, saved: Kept, is_same: bool) -> None:
        """Set the saved breakpoints again after a program was loaded. If it isn't the same program, report their removal instead.

        saved: the breakpoints before the program was loaded; is_same: whether the program is the same as before
        """
        if is_same:
            self._guest.ask(*(f"break {address:x}" for address in saved))
            self._conditions.by_address.update({at: condition for at, condition in saved.items() if condition})
        elif saved:
            number = "1 breakpoint was" if len(saved) == 1 else f"{len(saved)} breakpoints were"
            places = ", ".join(f"{address:x}" for address in saved)
            self._screen.say(f"{number} removed, since the program is another one: {places}")

    def _there(self) -> Sequence[int]:
        """Return the addresses of all breakpoints; none if the machine doesn't show them."""
        (reply,) = self._guest.ask("breaks")
        return reply.addresses if isinstance(reply, Addresses) else ()

    def _send(self, command: str, addresses: Sequence[str]) -> bool:
        """Send a command for each address, up to one that is refused, whose refusal is printed. Return whether none was refused."""
        for address in addresses:
            check_text(f"{command} {address}")
            line = f"{self._guest.user} {command} {address}"
            answer = read(self._guest.session.do(line))
            if isinstance(answer, Refused):
                self._screen.say(*explain_refusal(line, answer), kind="refused")
                return False
        return True

    def _say_done(self, place: Place) -> None:
        """Print where the breakpoints of a place are, unless the user named an address."""
        where = [self._names.place(int(each, 16)) for each in place.addresses if not place.is_address]
        description = ", ".join(filter(None, [place.taken, f"at {', '.join(where)}" if where else ""]))
        self._screen.say(f"ok: {description}" if description else "ok")
