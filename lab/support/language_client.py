"""An editor's end of the language server, over a pipe."""

import json
import os
import select
import subprocess
import sys
from collections.abc import Sequence
from types import TracebackType
from typing import Any

from support.busy_host import PATIENCE
from support.places import TOP

COMMAND = [sys.executable, "-m", "vecmon_lab", "lsp", "--stdio"]
URI = "file:///tmp/source.s"


class Editor:
    """An editor with one document.

    notes: notifications of the server that came before an answer
    """

    def __init__(self, initialize: bool = True, markdown: bool = True) -> None:
        pipe = subprocess.PIPE
        self.process = subprocess.Popen(COMMAND, cwd=TOP / "lab", stdin=pipe, stdout=pipe, stderr=pipe, bufsize=0)
        assert self.process.stdin and self.process.stdout
        self._out, self._in = self.process.stdin.fileno(), self.process.stdout.fileno()
        self._unread = b""
        self._number = self.version = 0
        self.notes: list[dict[str, Any]] = []
        if initialize:
            formats = ["markdown", "plaintext"] if markdown else ["plaintext"]
            hover = {"textDocument": {"hover": {"contentFormat": formats}}}
            self.capabilities = self.ask("initialize", capabilities=hover)["capabilities"]
            self.tell("initialized")

    def __enter__(self) -> "Editor":
        return self

    def __exit__(
        self, kind: type[BaseException] | None, error: BaseException | None, trace: TracebackType | None
    ) -> None:
        self.process.kill()
        self.process.communicate()

    def write(self, data: bytes) -> None:
        """Send bytes as they are."""
        while data:
            data = data[os.write(self._out, data) :]

    def send(self, message: object) -> None:
        """Send a message."""
        content = json.dumps(message).encode()
        self.write(b"Content-Length: %d\r\n\r\n%s" % (len(content), content))

    def tell(self, method: str, **params: object) -> None:
        """Send a notification."""
        self.send({"jsonrpc": "2.0", "method": method, "params": params})

    def receive(self) -> dict[str, Any]:
        """The next message of the server. Raises EOFError if there is none any more."""
        while b"\r\n\r\n" not in self._unread:
            self._read()
        head, _, rest = self._unread.partition(b"\r\n\r\n")
        length = int(head.removeprefix(b"Content-Length: "))
        while len(rest) < length:
            self._read()
            rest = self._unread.partition(b"\r\n\r\n")[2]
        self._unread = rest[length:]
        message: dict[str, Any] = json.loads(rest[:length])
        assert message["jsonrpc"] == "2.0"
        return message

    def _read(self) -> None:
        assert select.select([self._in], [], [], PATIENCE)[0], "nothing comes"
        data = os.read(self._in, 65536)
        if not data:
            raise EOFError
        self._unread += data

    def reply(self, method: str, params: object) -> dict[str, Any]:
        """The whole answer to a request."""
        self._number += 1
        self.send({"jsonrpc": "2.0", "id": self._number, "method": method, "params": params})
        while "id" not in (received := self.receive()):
            self.notes.append(received)
        assert received["id"] == self._number
        return received

    def ask(self, method: str, **params: object) -> Any:
        """The result of a request."""
        answer = self.reply(method, params)
        assert "result" in answer, answer
        return answer["result"]

    def at(self, method: str, line: int, character: int, **others: object) -> Any:
        """The result of a request about a place in the document, from 0 on."""
        place = {"line": line, "character": character}
        return self.ask(method, textDocument={"uri": URI}, position=place, **others)

    def whole(self, method: str, **others: object) -> Any:
        """The result of a request about the document."""
        return self.ask(method, textDocument={"uri": URI}, **others)

    def set_text(self, text: str) -> list[dict[str, Any]]:
        """Open the document with a text, or replace its text; the diagnostics of it."""
        self.version += 1
        document: dict[str, object] = {"uri": URI, "version": self.version}
        if self.version == 1:
            self.tell("textDocument/didOpen", textDocument=document | {"languageId": "asm", "text": text})
        else:
            self.tell("textDocument/didChange", textDocument=document, contentChanges=[{"text": text}])
        return self.diagnostics()

    def change(self, *changes: tuple[int, int, int, int, str]) -> None:
        """Replace ranges, one after another: the lines and characters of the start and the end, and the new text."""
        self.version += 1
        parts = [
            {
                "range": {
                    "start": {"line": first, "character": start},
                    "end": {"line": last, "character": end},
                },
                "text": text,
            }
            for first, start, last, end, text in changes
        ]
        self.tell("textDocument/didChange", textDocument={"uri": URI, "version": self.version}, contentChanges=parts)

    def diagnostics(self) -> list[dict[str, Any]]:
        """The diagnostics of the text as it is now, when they come."""
        while True:
            for note in [*self.notes]:
                self.notes.remove(note)
                if note["method"] == "textDocument/publishDiagnostics":
                    params = note["params"]
                    if params.get("version") == self.version:
                        return list(params["diagnostics"])
            received = self.receive()
            assert "id" not in received, received
            self.notes.append(received)

    def hints(self, lines: int = 10_000) -> dict[int, str]:
        """The inlay hints by line, from 0 on."""
        span = {"start": {"line": 0, "character": 0}, "end": {"line": lines, "character": 0}}
        return {each["position"]["line"]: each["label"] for each in self.whole("textDocument/inlayHint", range=span)}

    def ended(self) -> tuple[int, str]:
        """The status of the server once it has ended, and what it wrote to standard error."""
        _, errors = self.process.communicate(timeout=PATIENCE)
        return self.process.returncode, errors.decode()


def marked(text: str, diagnostics: Sequence[dict[str, Any]]) -> list[tuple[int, str, str]]:
    """The line, from 0 on, the marked text and the message of each diagnostic."""
    lines, found = text.split("\n"), list[tuple[int, str, str]]()
    for each in diagnostics:
        start, end = each["range"]["start"], each["range"]["end"]
        assert start["line"] == end["line"]
        found.append((start["line"], lines[start["line"]][start["character"] : end["character"]], each["message"]))
    return found
