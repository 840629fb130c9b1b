"""Messages that a session sends without a request: events, output, and the progress of long work."""

import codecs
from typing import Any

from ..replay.control import Advance
from .wire import Wire


class Reports:
    """Sends the events of a session to the client.

    shows_progress: whether the client shows the progress of long work
    """

    def __init__(self, wire: Wire) -> None:
        self.shows_progress = False
        self._wire = wire
        self._decoder = codecs.getincrementaldecoder("utf-8")("replace")
        self._reported, self._progress = set[str](), 0  # the second is odd while the progress of work is shown

    def event(self, name: str, **body: Any) -> None:
        """Send an event."""
        self._wire.send("event", event=name, body=body)

    def output(self, text: str, category: str = "console") -> None:
        """Show a text in the client's debug console. category: the protocol's name of its kind, such as `stderr`"""
        if text:
            self.event("output", category=category, output=text)

    def write(self, data: bytes) -> None:
        """Show the program's output. data: bytes in UTF-8, which may end inside a character"""
        self.output(self._decoder.decode(data), "stdout")

    def unsupported(self, place: str, sentence: str) -> None:
        """Report a system call that isn't supported. Each sentence is reported only once for a program.

        place: the address of the call, as text; sentence: the reason
        """
        if sentence not in self._reported:
            self._reported.add(sentence)
            self.output(f"{place}: {sentence}\n", "stderr")

    def forget_program(self) -> None:
        """Reset the decoder of output and the list of reported sentences, for another program."""
        self._decoder.reset()
        self._reported.clear()

    def building(self, name: str, is_over: bool) -> None:
        """Show that the build of a program begins, or that it is over. name: the file name of the program"""
        if not self.shows_progress:
            return
        if is_over:
            self.event("progressEnd", progressId="launch")
        else:
            self.event("progressStart", progressId="launch", title=f"Building {name}")

    def advance(self, advance: Advance) -> None:
        """Show the progress of long work. The first call shows the work; `end_progress` hides it."""
        if not self.shows_progress:
            return
        share = {"percentage": 100 * advance.done // advance.whole} if advance.whole else {}
        name = f"work{self._progress}"
        if self._progress % 2 == 0:
            self._progress += 1
            name = f"work{self._progress}"
            self.event("progressStart", progressId=name, title=advance.work, cancellable=True)
        self.event("progressUpdate", progressId=name, message=advance.amount, **share)

    def end_progress(self) -> None:
        """Hide the work whose progress is shown, if there is any."""
        if self._progress % 2:
            self.event("progressEnd", progressId=f"work{self._progress}")
            self._progress += 1
