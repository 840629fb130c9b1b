"""A client of the debug adapter, over its pipes or a socket: it sends requests, and waits for responses and events."""

import json
import os
import pathlib
import re
import select
import subprocess
import sys
import threading
from collections.abc import Mapping, Sequence
from functools import partial
from types import TracebackType
from typing import Any

from support.busy_host import PATIENCE
from support.places import TOP
from support.terminal import MAX_SECONDS
from vecmon_lab.adapter.client_output import ClientOutput
from vecmon_lab.adapter.session import Session
from vecmon_lab.adapter.wire import Wire

DAP = [sys.executable, "-m", "vecmon_lab", "dap"]
Body = dict[str, Any]


class Client:
    """A client of a debug adapter. Events that arrive while it waits for something else are stored in `events`.

    program: the process of the adapter, if `started` has started one
    """

    def __init__(self, source: int, target: int, program: "subprocess.Popen[bytes] | None" = None) -> None:
        """source, target: file descriptors to read from and to write to"""
        self.events = list[Body]()
        self._source, self._target, self.program = source, target, program
        self._number, self._unread = 0, b""
        self._thread: threading.Thread | None = None

    @classmethod
    def started(cls, **settings: Any) -> "Client":
        """Start the command `vecmon-lab dap`, and return its client. Tests of the command itself need this: of pipes, signals, its end."""
        pipe = subprocess.PIPE
        program = subprocess.Popen(DAP, cwd=TOP, stdin=pipe, stdout=pipe, stderr=pipe, bufsize=0, **settings)
        assert program.stdin and program.stdout
        return cls(program.stdout.fileno(), program.stdin.fileno(), program)

    @classmethod
    def in_thread(cls) -> "Client":
        """Start a session in a thread of this process, and return its client.

        The session is that of the command. Python doesn't start for it, and imports no modules again, which takes most of the
        processor time of a short session.
        """
        (requests, target), (source, answers) = os.pipe(), os.pipe()
        client = cls(source, target)
        client._thread = threading.Thread(target=_serve, args=(requests, answers), daemon=True)
        client._thread.start()
        return client

    def __enter__(self) -> "Client":
        return self

    def __exit__(
        self, kind: type[BaseException] | None, error: BaseException | None, trace: TracebackType | None
    ) -> None:
        if self._thread:
            os.close(self._target)
            os.close(self._source)
            self._thread.join(PATIENCE)
            assert not self._thread.is_alive(), "the session goes on without its client"
        if not self.program:
            return
        for pipe in (self.program.stdin, self.program.stdout, self.program.stderr):
            if pipe:
                pipe.close()
        try:
            self.program.wait(PATIENCE)  # so that it removes its files
        except subprocess.TimeoutExpired:
            self.program.kill()
            self.program.wait()

    def write(self, data: bytes) -> None:
        """Write bytes as they are."""
        while data:
            data = data[os.write(self._target, data) :]

    def post(self, command: str, **arguments: Any) -> int:
        """Send a request; return its number."""
        self._number += 1
        message = {"seq": self._number, "type": "request", "command": command, "arguments": arguments}
        data = json.dumps(message).encode()
        self.write(b"Content-Length: %d\r\n\r\n%s" % (len(data), data))
        return self._number

    def message(self) -> Body:
        """The next message. Raises EOFError at the end."""
        while not (found := re.match(rb"Content-Length: ([0-9]+)\r\n\r\n", self._unread)) or (
            len(self._unread) < found.end() + int(found[1])
        ):
            assert select.select([self._source], [], [], MAX_SECONDS)[0], "nothing comes"
            data = os.read(self._source, 65536)
            if not data:
                raise EOFError
            self._unread += data
        end = found.end() + int(found[1])
        message: Body = json.loads(self._unread[found.end() : end])
        self._unread = self._unread[end:]
        return message

    def response(self, number: int) -> Body:
        """The response to a request."""
        while (message := self.message())["type"] != "response":
            self.events.append(message)
        assert message["request_seq"] == number
        return message

    def ask(self, command: str, **arguments: Any) -> Any:
        """The body of the response to a request, which has to succeed."""
        response = self.response(self.post(command, **arguments))
        assert response["success"], response
        return response.get("body")

    def refused(self, command: str, **arguments: Any) -> str:
        """The message of the response to a request, which has to fail."""
        response = self.response(self.post(command, **arguments))
        assert not response["success"], response
        return str(response["message"])

    def event(self, name: str) -> Body:
        """The body of the next event of a name."""
        while True:
            for place, event in enumerate(self.events):
                if event["event"] == name:
                    del self.events[place]
                    body: Body = event.get("body", {})
                    return body
            message = self.message()
            assert message["type"] == "event", message
            self.events.append(message)

    def output(self, category: str = "stdout") -> str:
        """The output of a category that has come."""
        bodies = [event["body"] for event in self.events if event["event"] == "output"]
        return "".join(body["output"] for body in bodies if body["category"] == category)

    def launch(self, program: pathlib.Path, initialize: Mapping[str, Any] = {}, **arguments: Any) -> None:
        """Initialize, and launch a program; it can be configured then."""
        self.ask("initialize", adapterID="vecmon", **initialize)
        self.ask("launch", program=f"{program}", **arguments)
        self.event("initialized")

    def begin(self) -> Body:
        """End the configuration; return the first stop."""
        self.ask("configurationDone")
        return self.event("stopped")

    def move(self, command: str, **arguments: Any) -> Body:
        """Move the program; return its stop."""
        self.ask(command, threadId=1, **arguments)
        return self.event("stopped")

    def where(self) -> tuple[str, int]:
        """The function and the line of the innermost frame."""
        frame = self.ask("stackTrace", threadId=1, levels=1)["stackFrames"][0]
        return frame["name"], frame["line"]

    def lines(self, path: pathlib.Path, *lines: int, **settings: Any) -> list[Body]:
        """Set the breakpoints of a source."""
        wanted = [{"line": line, **settings} for line in lines]
        found: list[Body] = self.ask("setBreakpoints", source={"path": f"{path}"}, breakpoints=wanted)["breakpoints"]
        return found

    def scope(self, name: str, frame: int = 1) -> int:
        """The reference of a scope of a frame."""
        scopes = {each["name"]: each["variablesReference"] for each in self.ask("scopes", frameId=frame)["scopes"]}
        return int(scopes[name])

    def rows(self, reference: int, **settings: Any) -> dict[str, Body]:
        """The rows of a reference by their names."""
        rows = self.ask("variables", variablesReference=reference, **settings)["variables"]
        assert len({each["name"] for each in rows}) == len(rows)
        return {each["name"]: each for each in rows}

    def value(self, expression: str, **settings: Any) -> str:
        """The value of an expression."""
        return str(self.ask("evaluate", expression=expression, **settings)["result"])


def _serve(source: int, target: int) -> None:
    """Serve a client over two pipes, as the command does over standard input and output. Closes them."""
    output = ClientOutput(source, target, partial(os.write, target))
    try:
        Session(Wire(source, output.write)).serve()
    finally:
        os.close(source)
        os.close(target)


def line_of(path: pathlib.Path, text: str, number: int = 0) -> int:
    """The number of a source's line that has a text; of several the one of this number, from 0."""
    lines = [at for at, line in enumerate(path.read_text("utf-8").split("\n"), 1) if text in line]
    return lines[number]


def names(rows: Sequence[Body]) -> list[str]:
    """The names of rows."""
    return [each["name"] for each in rows]
