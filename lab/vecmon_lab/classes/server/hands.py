"""Raised hands of students, which the class's folder saves until they are lowered.

hands.json: by seat the time since when the hand is up, and the student's text
"""

import time

from ..core.messages import Hand
from .folder_texts import FolderTexts

HANDS = "hands.json"


def raised_hands(**values: Hand) -> dict[str, Hand]:
    """Check the raised hands in the file, and return them by seat. Raises ValueError if the file has anything else."""
    for hand in values.values():
        kinds = {name: type(value) for name, value in hand.items()} if isinstance(hand, dict) else {}
        if kinds != {"since": int, "text": str}:
            raise ValueError("not all are hands")
    return values


class Hands:
    """The raised hands of a class."""

    def __init__(self, texts: FolderTexts) -> None:
        self._texts = texts
        self._by_seat = texts.read(HANDS, raised_hands, "the raised hands are lost")

    def of(self, seat: str) -> Hand | None:
        """Return a seat's hand if it is up; None otherwise."""
        return self._by_seat.get(seat)

    def up(self, seat: str, text: str) -> None:
        """Raise a seat's hand with a text, which may be empty. If the hand is up already, only the text changes."""
        before = self.of(seat)
        since = before["since"] if before else int(time.time())
        self._save({**self._by_seat, seat: {"since": since, "text": text}})

    def down(self, seat: str) -> None:
        """Lower a seat's hand, if it is up."""
        self._save({name: hand for name, hand in self._by_seat.items() if name != seat})

    def _save(self, hands: dict[str, Hand]) -> None:
        self._by_seat = hands
        self._texts.write(HANDS, hands)
