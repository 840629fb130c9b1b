"""The browser of the tests: when it is ended, no process of it goes on."""

import shutil

from support.browser import WINDOWS, browser_with
from support.skips import NO_BROWSER, leave_out
from support.processes import alive, descendants


def test_browser_processes_end() -> None:
    commands = [each for each in WINDOWS if shutil.which(each)]
    if not commands or not shutil.which("chromedriver"):
        leave_out(NO_BROWSER)
    with browser_with(command=commands[0]) as browser:
        browser.get("data:text/html,<title>page</title>")
        processes = descendants(browser.service.process.pid)
        assert browser.title == "page" and len(alive(processes)) > 2
    assert alive(processes) == []
