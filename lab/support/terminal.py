"""A terminal for tests: a program at a pseudo-terminal, what is typed into it, and what it shows."""

import fcntl
import os
import pty
import re
import select
import struct
import subprocess
import termios
import time
from collections.abc import Mapping, Sequence
from types import TracebackType

MAX_SECONDS = 180  # of silence, after which a test that waits fails
FORTH, ESCAPES = re.compile(r"\x1b\[[0-9]*C"), re.compile(r"\x1b(?:\[[0-9;?]*[A-Za-z]|[()][A-Z0-9]|[=>])|\r")
WHERE, HERE = "\x1b[6n", b"\x1b[1;1R"  # a program asks for the place of the cursor, and the terminal's answer
INTERRUPT, END, UP = "\x03", "\x04", "\x1b[A"


class Terminal:
    """A program at a terminal of its own, of 40 rows with 120 columns."""

    def __init__(self, command: Sequence[str], environment: Mapping[str, str]) -> None:
        self._file, program_side = pty.openpty()
        fcntl.ioctl(program_side, termios.TIOCSWINSZ, struct.pack("HHHH", 40, 120, 0, 0))
        more = {"TERM": "xterm", **environment}
        self._child = subprocess.Popen(
            command,
            stdin=program_side,
            stdout=program_side,
            stderr=program_side,
            start_new_session=True,
            preexec_fn=lambda: fcntl.ioctl(0, termios.TIOCSCTTY, 0),
            env={**os.environ, **more},
        )
        os.close(program_side)
        self._unread = ""

    def __enter__(self) -> "Terminal":
        return self

    def __exit__(
        self, kind: type[BaseException] | None, error: BaseException | None, trace: TracebackType | None
    ) -> None:
        self._child.kill()
        self._child.wait()
        os.close(self._file)

    def type(self, text: str) -> None:
        """Types a text."""
        os.write(self._file, text.encode())

    def interrupt(self) -> None:
        """Press Ctrl-C once the program waits for input. An earlier signal would show only after the next line."""
        with open(f"/proc/{self._child.pid}/stat", "rb") as file:
            while file.read().rpartition(b") ")[2][:1] != b"S":
                time.sleep(0.01)
                file.seek(0)
        self.type(INTERRUPT)

    def expect(self, text: str, is_raw: bool = False) -> str:
        """Wait until a text is shown; return the output up to its end, without escape sequences unless `raw`."""
        while True:
            shown = self._unread if is_raw else _plain(self._unread)
            if text in shown:
                before, _, behind = shown.partition(text)
                self._unread = behind
                return before + text
            assert self._receive(), f"the terminal shows {shown!r}, and not {text!r}"

    def end(self) -> tuple[int, str]:
        """Waits for the program's end; its status, and what it showed before."""
        while self._receive():
            pass
        return self._child.wait(), _plain(self._unread)

    def _receive(self) -> bool:
        """Takes in what is shown next; whether anything came."""
        assert select.select([self._file], [], [], MAX_SECONDS)[0], f"nothing comes behind {self._unread!r}"
        try:
            data = os.read(self._file, 65536)
        except OSError:  # the program has closed its side
            return False
        text = data.decode("utf-8", "replace")
        os.write(self._file, HERE * text.count(WHERE))
        self._unread += text
        return bool(data)


def _plain(shown: str) -> str:
    """What is shown, without the sequences that move the cursor and change colours; one that moves forth is a space."""
    return ESCAPES.sub("", FORTH.sub(" ", shown))
