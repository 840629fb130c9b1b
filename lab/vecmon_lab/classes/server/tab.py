"""An open tab of a seat, of the teacher or of the wall."""

import asyncio

from ..core.messages import Updates
from ..core.seats import Seat


class Tab:
    """An open tab.

    who: the name of its seat, `teacher` or `wall`; shoulder: the seat that a teacher looks at, or None
    sent: the state of the page, according to the messages that were sent to it
    changed: is set when there may be news for the page
    is_open: whether its code still opens the class; a new code for its owner closes the tab
    page: the open page of the tab. A page that has just reconnected may have two tabs.
    """

    def __init__(self, role: str) -> None:
        self.who = role
        self.shoulder: Seat | None = None
        self.sent = Updates()
        self.changed = asyncio.Event()
        self.is_open = True
        self.page: object = self
