"""Drive the built site in Chromium, Firefox and WebKitGTK, and take times: `lab/tools/other_browsers.py SITE [BROWSER]...`.

SITE is the output folder of tools/site. In each browser, `chromium`, `firefox` or `webkit`, it works at the page from a server: the
page, a reload, an exercise failed and passed, a lesson, an image. It prints a row for MEASUREMENTS.md, in milliseconds: the first
interaction cold and warm, a step, and 10,000,000 instructions by Run; and the MB of Python's memory. The packages are those of
`tools/building/debian_packages other-browsers`; WebKitGTK needs a display, for instance that of `xvfb-run`.
"""

import base64
import json
import pathlib
import sys
import time
from collections.abc import Callable
from typing import Any

sys.path.insert(0, str(pathlib.Path(__file__).resolve().parents[1]))

from support.browser import browser_with  # noqa: E402
from support.marionette import Firefox  # noqa: E402
from support.places import SUM, TOP  # noqa: E402
from support.site import TITLE, served_files  # noqa: E402

PATIENCE = 60.0
SOURCE = "        li t0, 10\nloop:   vsetivli zero, 8, e32, m1, ta, ma\n        vid.v v1\n        addi t0, t0, -1\n        bnez t0, loop\n        ebreak\n"
LONG = "        li t0, 5000000\nloop:   addi t0, t0, -1\n        bnez t0, loop\n        ebreak\n"
GOOD = TOP / "lab" / "vecmon_lab" / "exercises" / "given" / "doubles" / "good.s"
CODE = "document.getElementById('source').nextSibling.CodeMirror"
RUN = "document.getElementById('run').textContent"
CHECK = "[...document.querySelectorAll('#exercise button')].find((each) => each.textContent === 'Check')"
LESSON = "[...document.querySelectorAll('#exercise a')].find((each) => each.textContent.includes('lesson'))"
STATE = "document.querySelector('#exercise [role=status]').textContent"
DROP = """
const bytes = Uint8Array.from(atob(arguments[0]), (letter) => letter.charCodeAt(0)), data = new DataTransfer();
data.items.add(new File([bytes], "sum.elf"));
document.dispatchEvent(new DragEvent("drop", {dataTransfer: data, cancelable: true}));
"""


class Page:
    """The playground in a browser."""

    def __init__(self, driver: Any, address: str) -> None:
        self.driver, self.address = driver, address

    def open(self, place: str = "") -> float:
        """Opens the page; the seconds to its first interaction."""
        self.driver.get("about:blank")
        start = time.monotonic()
        self.driver.get(f"{self.address}{place}")
        self.wait(f"document.title === {TITLE!r} && document.getElementById('gone').hidden")
        return time.monotonic() - start

    def run(self, script: str, *arguments: object) -> Any:
        """The value that a script returns."""
        return self.driver.execute_script(script, *arguments)

    def wait(self, condition: str) -> float:
        """Waits until a condition holds; the seconds."""
        start = time.monotonic()
        while not self.run(f"return {condition}"):
            assert time.monotonic() - start < PATIENCE, f"{condition}: {self.run('return document.body.innerText')}"
            time.sleep(0.01)
        return time.monotonic() - start

    def click(self, name: str) -> None:
        """Clicks an element."""
        self.run("document.getElementById(arguments[0]).click()", name)

    def write(self, text: str) -> None:
        """Puts a source into the editor."""
        self.click("show-source")
        self.run(f"{CODE}.setValue(arguments[0])", text)

    def assemble(self, text: str) -> None:
        """Writes a source into memory."""
        self.write(text)
        self.click("assemble")
        self.wait(f"{RUN} === 'Ready'")


def chromium() -> Any:
    """Chromium, whose driver ends with this process."""
    context = browser_with()
    driver: Any = context.__enter__()
    driver.leave = lambda: context.__exit__(None, None, None)
    return driver


def webkit() -> Any:
    """WebKitGTK's browser for tests."""
    from selenium import webdriver

    options = webdriver.WebKitGTKOptions()
    options.binary_location = "/usr/lib/x86_64-linux-gnu/webkit2gtk-4.1/MiniBrowser"
    options.add_argument("--automation")
    return webdriver.WebKitGTK(options=options, executable_path="/usr/bin/WebKitWebDriver", desired_capabilities={})


BROWSERS: dict[str, Callable[[], Any]] = {"chromium": chromium, "firefox": Firefox, "webkit": webkit}


def open_lesson(page: Page) -> None:
    """Open the lesson before the exercise, in its own tab, and come back."""
    (before,) = page.driver.window_handles
    link = page.run(f"return {LESSON}")
    if hasattr(link, "click"):
        link.click()  # as a user does: WebKitGTK blocks a window that a script opens
    else:
        page.run(f"{LESSON}.click()")
    start = time.monotonic()
    while len(page.driver.window_handles) < 2:
        assert time.monotonic() - start < PATIENCE, "no lesson opens"
        time.sleep(0.05)
    (lesson,) = set(page.driver.window_handles) - {before}
    page.driver.switch_to.window(lesson)
    page.wait("document.querySelector('#count')?.textContent")
    page.driver.switch_to.window(before)


def work(page: Page) -> list[str]:
    """Work at the page; return the figures."""
    cold, warm = page.open(), page.open()
    page.assemble(SOURCE)
    steps = []
    for _ in range(10):
        before = page.run("return document.getElementById('step').textContent")
        start = time.monotonic()
        page.click("one")
        page.wait(f"document.getElementById('step').textContent !== {before!r}")
        steps.append(time.monotonic() - start)
    page.click("go")
    page.wait(f"{RUN} === 'Ended'")
    page.click("backward")
    page.wait("!document.getElementById('says-past').hidden")
    page.click("now")
    page.assemble(LONG)
    start = time.monotonic()
    page.click("go")
    page.wait(f"{RUN} === 'Ended'")
    went = time.monotonic() - start
    time.sleep(1)
    page.open()
    page.wait(f"{CODE}.getValue() === {json.dumps(LONG)}")
    page.wait(f"['Ended', 'Ready', 'Paused'].includes({RUN})")
    page.open("#exercise=doubles")
    for answer, told in (("        ret\n", "1 try, best 1 of 5"), (GOOD.read_text(), "2 tries, passed")):
        page.write(answer)
        page.run(f"{CHECK}.click()")
        page.wait(f"{STATE} === {told!r}")
    open_lesson(page)
    page.run(DROP, base64.b64encode(SUM.read_bytes()).decode())
    page.wait("document.getElementById('log').textContent.includes('The image sum has')")
    memory = int(page.run("return document.body.dataset.memory"))
    times = (cold, warm, sorted(steps)[len(steps) // 2], went)
    return [*(f"{1000 * each:.0f}" for each in times), f"{memory / 1e6:.1f} MB"]


def main(site: pathlib.Path, *names: str) -> None:
    """Works at the site in browsers, and prints a row for each."""
    print("| browser | cold | warm | a step | 10,000,000 instructions | Python's memory |\n|---|---|---|---|---|---|")
    with served_files(site) as (address, _):
        for name in names or BROWSERS:
            driver = BROWSERS[name]()
            try:
                figures = work(Page(driver, f"{address}/play/index.html"))
                version = driver.capabilities.get("browserVersion", "")
                print(f"| {name} {version} | {' | '.join(figures)} |", flush=True)
            finally:
                getattr(driver, "leave", driver.quit)()


if __name__ == "__main__":
    main(pathlib.Path(sys.argv[1]), *sys.argv[2:])
