"""A class served for tests of its pages, and tabs of one browser in it."""

import contextlib
import hashlib
import json
import os
import pathlib
import re
import signal
import subprocess
import sys
import time
import urllib.request
from collections.abc import Callable, Iterator, Sequence
from typing import IO, TYPE_CHECKING, Any

from support.busy_host import PATIENCE
from support.checked_requests import invalid_requests
from support.places import SUM, TOP

if TYPE_CHECKING:
    from selenium.webdriver import Chrome

PANES = "vecmon-panes-student"  # the browser's storage keeps the arrangement of panes under this name
UNFOLDED = f"""try {{ localStorage["{PANES}"] ??=
    '{{"version": 1, "sizes": {{}}, "folded": {{"dock": false, "exercise": false}}}}'; }} catch {{}}"""  # steps fold no pane
PIECES = """all('#source + .CodeMirror .CodeMirror-line [class^=cm-]').map((piece) =>
    `${piece.className.slice(3)} ${piece.textContent}`)"""  # of the source in sight, with their kinds
SIGNS = """Array.from({ length: code().lineCount() }, (_, line) =>
    `${code().lineInfo(line).gutterMarkers?.marks?.textContent ?? ""}${line + 1}`).filter((sign) => /[●○▶]/.test(sign)).join()"""
FRAME = "requestAnimationFrame(() => setTimeout(arguments[0])), setTimeout(arguments[0], 100)"  # which none has out of sight


def lab_command(takes_c: bool, before: str = "") -> list[str]:
    """The command that runs the lab, with limits for a busy host and checked requests.

    takes_c: whether root may compile others' C

    before: statements of Python that end with `; `
    """
    compiles = (
        "from vecmon_lab.compilers import sandbox; sandbox.check_sandbox = lambda account: None; " if takes_c else ""
    )
    limits = "from support.busy_host import raise_limits; raise_limits(); "
    checks = "from support.checked_requests import check_requests; check_requests(); "
    return [
        sys.executable,
        "-c",
        f"{compiles}{limits}{checks}{before}import vecmon_lab.__main__ as lab; raise SystemExit(lab.main())",
    ]


class Served:
    """A class's server in a process of its own, over a folder; it can be killed, and begun again at the same port."""

    before = ""  # statements of Python before those of the lab

    def __init__(
        self, folder: pathlib.Path, program: pathlib.Path, *words: str, takes_c: bool = False, clock: bool = False
    ) -> None:
        """takes_c: whether sources in C are compiled, also where the tests are root's; clock: whether it is on"""
        self.folder, self.program, self.words, self.port, self.takes_c = folder, program, words, 0, takes_c
        self.has_clock = clock
        self.log: IO[str] = open(folder.with_suffix(".log"), "w")
        self.begin()

    def begin(self) -> None:
        command = [
            *lab_command(self.takes_c, self.before),
            "class",
            str(self.folder),
            f"sum={SUM}",
            "--port",
            str(self.port),
            *([] if self.has_clock else ["--no-clock"]),
        ]
        self._begin([*command, *self.words])

    def _begin(self, command: Sequence[str]) -> None:
        """Start the server, which prints its port and the code of one page."""
        environment = os.environ | {"VECMON": str(self.program), "PYTHONPATH": str(TOP)}
        self.server = subprocess.Popen(command, stdout=subprocess.PIPE, stderr=self.log, text=True, env=environment)
        assert self.server.stdout
        output = re.search(r"http://127\.0\.0\.1:(\d+)/#(\S+)", self.server.stdout.readline())
        assert output, pathlib.Path(self.log.name).read_text()
        self.port, self.code = int(output[1]), output[2]

    @property
    def codes(self) -> dict[str, str]:
        """The codes by seat, and the teacher's."""
        codes: dict[str, str] = json.loads((self.folder / "codes.json").read_text())
        return codes

    def address(self, role: str) -> str:
        """The address of a seat's page, or the teacher's."""
        return f"http://127.0.0.1:{self.port}/#{self.codes[role]}"

    def title(self, role: str) -> str:
        """The title of a page."""
        return role.title() if role in ("teacher", "wall") else f"Seat {role}"

    def programs(self) -> list[int]:
        """The numbers of the program's processes, children of the server, whose others make checkpoints."""
        command = ["ps", "-o", "pid=,comm=", "--ppid", str(self.server.pid)]
        output = subprocess.run(command, stdout=subprocess.PIPE, text=True, check=True)
        children = [line.split(maxsplit=1) for line in output.stdout.splitlines()]
        return [int(number) for number, name in children if name == self.program.name]

    def fetch(self, name: str) -> bytes:
        """A script or a transcript, as the teacher fetches it."""
        request = urllib.request.Request(
            f"http://127.0.0.1:{self.port}/{name}", headers={"Authorization": f"Bearer {self.codes['teacher']}"}
        )
        with urllib.request.urlopen(request) as answer:
            data: bytes = answer.read()
        return data

    def check_replay(self, digest: str) -> bytes:
        """The recorded script, whose plain run gives answers of this SHA-256."""
        script = self.fetch("A/script")
        completed = subprocess.run(
            [self.program, "--", "/dev/stdin", f"sum={SUM}"], input=script, stdout=subprocess.PIPE, check=True
        )
        assert hashlib.sha256(completed.stdout).hexdigest() == digest
        assert self.fetch("A/transcript") == completed.stdout
        return script

    def kill(self) -> None:
        self.server.send_signal(signal.SIGKILL)
        self.server.wait()

    def invalid_requests(self) -> list[str]:
        """Lines on requests of pages that the server accepted, and that aren't as the schema has them."""
        return invalid_requests(pathlib.Path(self.log.name).read_text())

    def end(self) -> None:
        """End the server. Raises AssertionError if a page has sent a request that isn't as the schema has it."""
        self.kill()
        if self.server.stdout:
            self.server.stdout.close()
        self.log.close()
        if invalid := self.invalid_requests():
            raise AssertionError("\n".join(invalid))


class Explored(Served):
    """An author's page, served so."""

    def __init__(self, folder: pathlib.Path, program: pathlib.Path, source: pathlib.Path | None, *words: str) -> None:
        """folder: the folder of its log; source: None for the start page"""
        self.source = source
        super().__init__(folder, program, *words, takes_c=True)

    def begin(self) -> None:
        self._begin(
            [*lab_command(True, self.before), "explore", *([str(self.source)] if self.source else []), *self.words]
        )

    def address(self, role: str) -> str:
        """That of the page, which is one seat's."""
        return f"http://127.0.0.1:{self.port}/#{self.code}"

    def title(self, role: str) -> str:
        """The name of the source."""
        return self.source.name if self.source else "Explore"

    def end(self) -> None:
        self.server.terminate()  # so that its folder is removed
        self.server.wait()
        super().end()


class Tab:
    """A tab of the browser at a seat, the teacher's, or the wall's."""

    def __init__(self, browser: "Chrome", served: Served, role: str, before: str = "") -> None:
        """before: a script that runs before the page's"""
        self.browser, self.served, self.who = browser, served, role
        browser.switch_to.new_window("tab")
        self.handle = browser.current_window_handle
        browser.execute_cdp_cmd("Page.addScriptToEvaluateOnNewDocument", {"source": UNFOLDED + before})
        browser.get(served.address(role))
        self.wait("document.title.replace(/[⟦⟧]/g, '') === arguments[0]", f"{served.title(role)} – vecmon")

    def activate(self) -> "Chrome":
        """The browser, with this tab before all others."""
        if self.browser.current_window_handle != self.handle:
            self.browser.switch_to.window(self.handle)
        return self.browser

    def run(self, script: str, *arguments: Any) -> Any:
        """The value of a script in the page; in it, `id`, `one` and `all` find elements, and `code` an editor."""
        helpers = """const id = (name) => document.getElementById(name), one = (css) => document.querySelector(css),
            all = (css) => [...document.querySelectorAll(css)], code = (name = "source") => id(name).nextSibling?.CodeMirror,
            text = (name) => code(name)?.getValue();"""
        return self.activate().execute_script(f"{helpers} return {script}", *arguments)

    def wait(self, script: str, *arguments: Any) -> Any:
        """Wait until a script's value is true and the page is painted; return the value."""
        from selenium.common.exceptions import TimeoutException
        from selenium.webdriver.support.wait import WebDriverWait

        self.activate()
        try:
            found = WebDriverWait(self.browser, PATIENCE, 0.02).until(lambda _: self.run(script, *arguments))
            self.browser.execute_async_script(FRAME)
            return found
        except TimeoutException as error:
            raise AssertionError(f"{script} {arguments}: {self.run('document.body.innerText')}") from error

    def copied_link(self) -> str:
        """The link that the page copies to the clipboard, which the browser lets it read here."""
        permissions = ["clipboardReadWrite", "clipboardSanitizedWrite"]
        self.activate().execute_cdp_cmd("Browser.grantPermissions", {"permissions": permissions})
        self.click("#link")
        self.wait("id('stop').textContent === 'The link is copied.'")
        link: str = self.run("navigator.clipboard.readText()")
        return link

    def open_menu(self, selector: str) -> None:
        """Opens the menu that an element is in, if any."""
        self.run("one(arguments[0])?.closest('.menu')?.setAttribute('open', '')", selector)
        self.run("one(arguments[0])?.closest('[popover]')?.togglePopover(true)", selector)

    def click(self, selector: str) -> None:
        """Clicks an element, and opens its menu before."""
        from selenium.webdriver.common.by import By

        self.open_menu(selector)
        self.activate().find_element(By.CSS_SELECTOR, selector).click()

    def keys(self, selector: str, *keys: str) -> None:
        from selenium.webdriver.common.by import By

        self.open_menu(selector)
        self.activate().find_element(By.CSS_SELECTOR, selector).send_keys(*keys)

    def type(self, *keys: str, field: str = "source") -> None:
        """Press keys in an editor."""
        self.keys(f"#{field} + .CodeMirror .CodeMirror-code", *keys)

    def write(self, text: str) -> None:
        """Put a source into the editor, and show it."""
        self.run("(id('show-source').click(), code().setValue(arguments[0]))", text)

    def choose(self, selector: str, text: str) -> None:
        """Chooses what has this text in a list."""
        from selenium.webdriver.common.by import By
        from selenium.webdriver.support.select import Select

        self.open_menu(selector)
        Select(self.activate().find_element(By.CSS_SELECTOR, selector)).select_by_visible_text(text)

    def save(self, selector: str, path: pathlib.Path, is_whole: Callable[[bytes], bool] = bool) -> bytes:
        """Return the file that a click saves, once it is complete: the browser creates it empty before it writes it."""
        # the headless shell applies this to one tab only
        folder = {"behavior": "allow", "downloadPath": str(path.parent)}
        self.activate().execute_cdp_cmd("Browser.setDownloadBehavior", folder)
        self.click(selector)
        end = time.monotonic() + PATIENCE
        while not path.exists() or not is_whole(path.read_bytes()):
            assert time.monotonic() < end, f"{path} isn't saved"
            time.sleep(0.02)
        return path.read_bytes()

    def command(self, *lines: str) -> None:
        """Enters lines at the command line, and waits until all are answered."""
        self.run("all('#log li').forEach((item) => item.classList.add('before'))")  # 500 at most
        self.run("arguments[0].forEach((line) => (id('line').value = line, id('command').requestSubmit()))", lines)
        asked = "all('#log .asked:not(.before)').length"
        self.wait(f"{asked} >= arguments[0] && !one('#log > li:last-child').matches('.asked')", len(lines))

    def begin(self, *lines: str) -> None:
        """A new machine with these instructions at 10000 on."""
        self.click("#new")
        if self.run("id('ask').open"):
            self.click("#yes")
        self.wait("one('#log > li:nth-last-child(2)')?.textContent === '> setpc 10000'")
        self.command(*(f"asm {0x10000 + 4 * place:x} {line}" for place, line in enumerate(lines)))

    def text(self, selector: str) -> str:
        text: str = self.run("one(arguments[0]).textContent", selector)
        return text

    def close(self) -> None:
        self.activate().close()


def press_key(tab: Tab, name: str) -> None:
    """Presses a key that aria-keyshortcuts names."""
    from selenium.webdriver.common.keys import Keys

    from support.browser import press

    *held, key = name.split("+")
    letters = {each: getattr(Keys, each.upper()) for each in (*held, key) if len(each) > 1}
    press(tab.activate(), *(letters.get(each, each.lower()) for each in (*held, key)))


def look_at(teacher: Tab, seat: str) -> None:
    """Look over a student's shoulder."""
    teacher.click(f"#seats [data-seat='{seat}'] .look")
    teacher.wait(
        "id('shoulder').matches('.looks') && one('#seats [aria-current=true]')?.dataset.seat === arguments[0]", seat
    )


@contextlib.contextmanager
def dialog(teacher: Tab, name: str) -> Iterator[None]:
    """Open a dialog of the teacher's page, and close it."""
    teacher.click(f"[data-dialog='{name}']")
    yield
    teacher.click(f"#{name} .done")


def digest_of(teacher: Tab) -> str:
    """The digest of all answers, as the teacher's page shows it once it has the whole script."""
    size = len(teacher.served.fetch("A/script"))
    teacher.wait("one('.figures').textContent.includes(arguments[0])", f" {size:,} of ")
    digest: str = teacher.run("one('.figures').textContent.match(/[0-9a-f]{64}/)[0]")
    return digest


def close_all(browser: "Chrome", tabs: Sequence[str]) -> None:
    """Closes all tabs but these."""
    for handle in browser.window_handles:
        if handle not in tabs:
            browser.switch_to.window(handle)
            browser.close()
    browser.switch_to.window(tabs[0])
