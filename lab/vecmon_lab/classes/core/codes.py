"""The codes that open the seats of a class."""

import secrets
from collections.abc import Iterable, Mapping

from ...machine.lines import DIGITS

TEACHER, WALL = "teacher", "wall"
LETTERS = "ABCDEFGHIJKL"  # of machines
CODE_LETTERS = "abcdefghjkmnpqrstuvwxyz23456789"  # without letters and digits that look alike
CODE_LENGTH = 14  # 69 bits


def new_code() -> str:
    """Return a new code that can't be guessed."""
    return "".join(secrets.choice(CODE_LETTERS) for _ in range(CODE_LENGTH))


class Codes:
    """The code of each seat (A1 to L8), of the teacher, and of the wall, a page that shows one seat and makes no requests."""

    def __init__(self, machines: Iterable[str], stored: Mapping[str, str]) -> None:
        """machines: the letters of the machines; stored: the codes of an earlier server, by name. Other names get new codes."""
        seats = [f"{machine}{digit}" for machine in machines for digit in DIGITS]
        self.codes = {name: stored.get(name) or new_code() for name in (TEACHER, WALL, *seats)}

    def owner(self, code: object) -> str | None:
        """Return the owner of a code, or None. The comparison takes the same time for any text."""
        text = code.encode("utf-8", "replace") if isinstance(code, str) else b""
        matches = [secrets.compare_digest(known.encode("ascii"), text) for known in self.codes.values()]
        return next((name for name, match in zip(self.codes, matches) if match), None)

    def shown(self, name: str) -> dict[str, str]:
        """Return codes that a teacher hands out, by their owner's name. The teacher's own code isn't among them.

        name: a seat or `wall`, to return only its code; "" to return all codes. The result is empty for an unknown name.
        """
        return {each: code for each, code in self.codes.items() if each != TEACHER and name in ("", each)}

    def renew(self, seat: str) -> None:
        """Give a seat a new code. The old one is no longer valid."""
        self.codes[seat] = new_code()
