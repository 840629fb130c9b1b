"""The built site for tests: its folder, its parts, a server of files, and tabs of its pages."""

import contextlib
import functools
import gzip
import http.server
import os
import pathlib
import threading
from collections.abc import Iterator
from typing import TYPE_CHECKING

from support.class_pages import Tab
from support.skips import NO_SITE, leave_out

if TYPE_CHECKING:
    from selenium.webdriver import Chrome

TITLE = "Playground – vecmon"
PARTS = ("python", "memory", "machine", "lessons", "later")


def built_site() -> pathlib.Path:
    """The folder of the site that VECMON_SITE names. Without it a test is left out; where CI is set, it fails."""
    folder = pathlib.Path(os.environ.get("VECMON_SITE") or "none")
    if not (folder / "playground.html").is_file():
        leave_out(NO_SITE)
    return folder.resolve()


def unpack_parts(site: pathlib.Path, out: pathlib.Path) -> None:
    """Writes the parts of the playground, each as a file of its name, into a folder."""
    for name in PARTS:
        (packed,) = (site / "play").glob(f"{name}-*.gz")
        (out / name).write_bytes(gzip.decompress(packed.read_bytes()))


@contextlib.contextmanager
def served_files(folder: pathlib.Path) -> Iterator[tuple[str, list[str]]]:
    """A server of a folder's files: its address, and the paths that were asked for."""
    asked = list[str]()

    class Handler(http.server.SimpleHTTPRequestHandler):
        """Serves files, and notes their paths."""

        def log_message(self, format: str, *values: object) -> None:
            """Notes a path."""
            asked.append(self.path)

    with http.server.ThreadingHTTPServer(("127.0.0.1", 0), functools.partial(Handler, directory=str(folder))) as server:
        thread = threading.Thread(target=server.serve_forever)
        thread.start()
        try:
            yield f"http://127.0.0.1:{server.server_port}", asked
        finally:
            server.shutdown()
            thread.join()


class SiteTab(Tab):
    """A tab with the playground."""

    def __init__(self, browser: "Chrome", address: str, before: str = "") -> None:
        """before: a script that is executed before the page's"""
        self.browser, self.who = browser, "A1"
        browser.switch_to.new_window("tab")
        self.handle = browser.current_window_handle
        if before:
            browser.execute_cdp_cmd("Page.addScriptToEvaluateOnNewDocument", {"source": before})
        self.open(address)

    def open(self, address: str) -> None:
        """Opens the page, waits for its machine, and leaves the start page."""
        self.activate().get(address)
        self.wait("document.title === arguments[0] && id('gone').hidden", TITLE)
        self.run("id('start-page').hidden || id('to-exercises').click()")

    def write(self, source: str) -> None:
        """Writes a source into memory."""
        self.run(
            "(id('show-source').click(), code().setValue(arguments[0]))",
            source,
        )
        self.wait("!id('assemble').disabled")
        self.click("#assemble")

    def register(self, number: int) -> str:
        """The value of a scalar register as the command `regs` prints it."""
        self.command("regs")
        words = self.text("#log > li:last-child").split()
        return words[words.index(f"x{number}") + 1] if f"x{number}" in words else ""
