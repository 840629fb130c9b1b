"""Firefox by its own protocol, Marionette: Debian has no geckodriver."""

import json
import pathlib
import shutil
import socket
import subprocess
import tempfile
import time
from collections.abc import Mapping
from typing import Any

SECONDS = 120.0  # for an answer
PREFERENCES = {
    "datareporting.policy.dataSubmissionEnabled": False,
    "browser.shell.checkDefaultBrowser": False,
    "dom.disable_open_during_load": False,
    "app.update.enabled": False,
    "dom.max_script_run_time": 0,
}


class Firefox:
    """Firefox without a window, with a profile of its own, and as much of selenium's driver as tests need."""

    def __init__(self, program: str = "firefox-esr") -> None:
        with socket.socket() as free:
            free.bind(("127.0.0.1", 0))
            port = free.getsockname()[1]
        self._profile = pathlib.Path(tempfile.mkdtemp(prefix="vecmon-firefox-"))
        wanted = {**PREFERENCES, "marionette.port": port}
        lines = [f"user_pref({json.dumps(name)}, {json.dumps(value)});\n" for name, value in wanted.items()]
        (self._profile / "user.js").write_text("".join(lines))
        words = ["--headless", "--no-remote", "--marionette", "--profile", str(self._profile), "about:blank"]
        self._child = subprocess.Popen([program, *words], stdout=subprocess.DEVNULL, stderr=subprocess.DEVNULL)
        self._socket, self._unread, self._number = _connected(port), b"", 0
        self._socket.settimeout(SECONDS)
        self._receive()
        told = self._ask("WebDriver:NewSession", {"strictFileInteractability": False})
        self.capabilities: Mapping[str, Any] = told["capabilities"]
        self._ask("WebDriver:SetTimeouts", {"script": 60_000, "pageLoad": 60_000})

    def get(self, address: str) -> None:
        """Opens a page."""
        self._ask("WebDriver:Navigate", {"url": address})

    def execute_script(self, script: str, *arguments: object) -> Any:
        """The value that a script returns."""
        return self._ask("WebDriver:ExecuteScript", {"script": script, "args": list(arguments)})["value"]

    @property
    def window_handles(self) -> list[str]:
        """The tabs."""
        handles: list[str] = self._ask("WebDriver:GetWindowHandles", {})
        return handles

    @property
    def switch_to(self) -> "Firefox":
        """This driver, as selenium's: its method `window` chooses a tab."""
        return self

    def window(self, handle: str) -> None:
        """Choose the tab that later calls use."""
        self._ask("WebDriver:SwitchToWindow", {"handle": handle, "name": handle, "focus": True})

    def quit(self) -> None:
        """End the browser, and remove its profile."""
        try:
            self._ask("Marionette:Quit", {"flags": ["eForceQuit"]})
            self._child.wait(10)
        except (OSError, RuntimeError, subprocess.TimeoutExpired):
            self._child.kill()
            self._child.wait()
        shutil.rmtree(self._profile, ignore_errors=True)

    def _ask(self, name: str, body: Mapping[str, object]) -> Any:
        """The answer to a command. Raises RuntimeError if it fails."""
        self._number += 1
        message = json.dumps([0, self._number, name, body]).encode()
        self._socket.sendall(f"{len(message)}:".encode() + message)
        _, _, error, told = self._receive()
        if error:
            raise RuntimeError(f"{name}: {error['error']}: {error['message']}"[:1000])
        return told

    def _receive(self) -> Any:
        """The next message: its length, a colon, and JSON."""
        while b":" not in self._unread:
            self._unread += self._more()
        digits, _, self._unread = self._unread.partition(b":")
        while len(self._unread) < int(digits):
            self._unread += self._more()
        message, self._unread = self._unread[: int(digits)], self._unread[int(digits) :]
        return json.loads(message)

    def _more(self) -> bytes:
        data = self._socket.recv(65536)
        if not data:
            raise OSError("Firefox has ended")
        return data


def _connected(port: int) -> socket.socket:
    """A connection to a port that is opened in time."""
    end = time.monotonic() + SECONDS
    while True:
        try:
            return socket.create_connection(("127.0.0.1", port))
        except OSError:
            if time.monotonic() > end:
                raise
            time.sleep(0.1)
