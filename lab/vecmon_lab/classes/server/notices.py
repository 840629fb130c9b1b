"""The teacher's messages to seats. Some messages offer a source. The folder of the class has the messages in a file:

notices.json: by number each message with the seats that have it, that have read it, and that have opened its source.
In a class of an earlier version the file has the open messages by seat.
"""

import re
import time
from collections.abc import Sequence
from typing import cast

from ..core.languages import LANGUAGES, SourceText
from ..core.messages import Notice, Offer, SentNotice
from ..core.bad_request import BadRequest
from .folder_texts import FolderTexts

NOTICES = "notices.json"
MAX_NOTICES = 20  # of a seat

GONE = "there is no such message: the teacher may have taken it back"


def sent_notices(**values: object) -> dict[str, SentNotice]:
    """Check the messages in the file, and return them by number, in order. Raises ValueError and TypeError."""
    by_number = _of_seats(values) if any(isinstance(value, list) for value in values.values()) else values
    if not all(re.fullmatch("[1-9][0-9]{0,8}", number) and _is_sent(sent) for number, sent in by_number.items()):
        raise ValueError("not all are messages")
    return {number: cast(SentNotice, by_number[number]) for number in sorted(by_number, key=int)}


def _of_seats(values: dict[str, object]) -> dict[str, object]:
    """Return the messages by number, from a file of an earlier version, which has the open messages by seat. Raises ValueError."""
    found = dict[str, SentNotice]()
    for seat, notices in values.items():
        for notice in notices if isinstance(notices, list) else [None]:
            match notice:
                case {"number": int() as number, "time": int() as when, "text": str() as text, **others} if not others:
                    sent: SentNotice = {"time": when, "text": text, "to": [], "read": [], "opened": []}
                    found.setdefault(f"{number}", sent)["to"].append(seat)
                case _:
                    raise ValueError("not all are messages")
    return {**found}


def _is_sent(value: object) -> bool:
    """Return whether a value of the file is a message with a text or an offer."""
    match value:
        case {"time": int(), "to": to, "read": read, "opened": opened, **others}:
            are_seats = all(
                isinstance(it, list) and all(isinstance(seat, str) for seat in it) for it in (to, read, opened)
            )
            return are_seats and set(opened) <= set(read) <= set(to) and (_is_text(others) or _is_offer(others))
    return False


def _is_text(fields: dict[object, object]) -> bool:
    return fields.keys() == {"text"} and isinstance(fields["text"], str)


def _is_offer(fields: dict[object, object]) -> bool:
    match fields:
        case {"offer": {"title": str(), "text": str(), "language": int() as language, **more}, **others}:
            return not more and not others and 0 <= language < len(LANGUAGES)
    return False


class Notices:
    """The last messages to each seat, and who has read them."""

    def __init__(self, texts: FolderTexts) -> None:
        self._texts = texts
        self.sent = texts.read(NOTICES, sent_notices, "the messages to students are lost")
        self._number = max(map(int, self.sent), default=0)
        self._by_seat = _by_seat(self.sent)

    def of(self, seat: str) -> dict[str, Notice]:
        """Return the messages to a seat, by number, the oldest first."""
        return self._by_seat.get(seat, {})

    def add(self, seats: Sequence[str], text: str) -> None:
        """Send a message to seats. A seat with MAX_NOTICES messages loses the oldest one that it has read, or else the oldest one."""
        self._add({"time": int(time.time()), "text": text, "to": [*seats], "read": [], "opened": []})

    def offer(self, seats: Sequence[str], title: str, source: SourceText) -> None:
        """Offer a source to seats, as a message."""
        offer: Offer = {"title": title, "text": source.text, "language": source.language}
        self._add({"time": int(time.time()), "offer": offer, "to": [*seats], "read": [], "opened": []})

    def read(self, seat: str, number: int) -> None:
        """Mark a message as read by a seat. Raises BadRequest if the seat has no such message."""
        sent = self._to(seat, number)
        if seat not in sent["read"]:
            self._change(number, _with_seats(sent, sent["to"], [*sent["read"], seat], sent["opened"]))

    def open(self, seat: str, number: int) -> SourceText:
        """Mark an offer as opened, and read, by a seat; return its source. Raises BadRequest if the seat has no such offer."""
        sent = self._to(seat, number)
        if "offer" not in sent:
            raise BadRequest("this message has no source to open")
        if seat not in sent["opened"]:
            read = list(dict.fromkeys([*sent["read"], seat]))
            self._change(number, _with_seats(sent, sent["to"], read, [*sent["opened"], seat]))
        return SourceText(sent["offer"]["text"], sent["offer"]["language"])

    def unsend(self, number: int) -> list[str]:
        """Take a message back from the seats that haven't read it; return the seats that have. Raises BadRequest for an unknown number."""
        sent = self.sent.get(f"{number}")
        if sent is None:
            raise BadRequest("there is no such message")
        self._change(number, _with_seats(sent, sent["read"], sent["read"], sent["opened"]))
        return sent["read"]

    def _to(self, seat: str, number: int) -> SentNotice:
        """Return a message that a seat has. Raises BadRequest if the seat has no such message."""
        sent = self.sent.get(f"{number}")
        if sent is None or seat not in sent["to"]:
            raise BadRequest(GONE)
        return sent

    def _add(self, sent: SentNotice) -> None:
        """Send the next message. Seats that have too many messages lose one."""
        lost = {seat: self._oldest(seat) for seat in sent["to"] if len(self.of(seat)) >= MAX_NOTICES}
        kept = {
            number: _without(it, {seat for seat in lost if lost[seat] == number}) for number, it in self.sent.items()
        }
        self._number += 1
        self._save({**kept, f"{self._number}": sent})

    def _oldest(self, seat: str) -> str:
        """Return the number of the oldest message that a seat has read, or of its oldest message if it has read none."""
        numbers = [*self.of(seat)]
        return next((number for number in numbers if self.of(seat)[number]["read"]), numbers[0])

    def _change(self, number: int, sent: SentNotice) -> None:
        self._save({**self.sent, f"{number}": sent})

    def _save(self, sent: dict[str, SentNotice]) -> None:
        """Set the messages, except those that no seat has, and save them."""
        self.sent = {number: it for number, it in sent.items() if it["to"]}
        self._by_seat = _by_seat(self.sent)
        self._texts.write(NOTICES, self.sent)


def _without(sent: SentNotice, seats: set[str]) -> SentNotice:
    """Return a message without these seats."""
    to, read, opened = ([it for it in those if it not in seats] for those in (sent["to"], sent["read"], sent["opened"]))
    return _with_seats(sent, to, read, opened)


def _with_seats(sent: SentNotice, to: list[str], read: list[str], opened: list[str]) -> SentNotice:
    """Return a message with other seats. to: the seats that have it; read, opened: the seats that have read it, or opened its source"""
    changed = sent.copy()
    changed["to"], changed["read"], changed["opened"] = to, read, opened
    return changed


def _by_seat(sent: dict[str, SentNotice]) -> dict[str, dict[str, Notice]]:
    """Return the messages of each seat by number."""
    found = dict[str, dict[str, Notice]]()
    for number, each in sent.items():
        for seat in each["to"]:
            notice: Notice = {"time": each["time"], "read": seat in each["read"]}
            if "offer" in each:
                notice["offer"] = each["offer"]
            else:
                notice["text"] = each["text"]
            found.setdefault(seat, {})[number] = notice
    return found
