"""Connections that break while something is typed, dragged, changed or running, in Chromium behind a proxied."""

import pathlib
from collections.abc import Iterator
from typing import TYPE_CHECKING

import pytest

from support.broken_proxy import ProxiedClass
from support.browser import press
from support.class_pages import Tab

if TYPE_CHECKING:
    from selenium.webdriver import Chrome

GONE = "id('gone').textContent.startsWith('The server is gone.')"
BACK = "id('gone').hidden && id('run').textContent !== 'No connection'"
STEPS = "all('#log .asked').filter((item) => item.textContent === '> step 1').length"
WIDTH = "Math.round(id('middle').getBoundingClientRect().width)"


@pytest.fixture
def proxied(program: pathlib.Path, tmp_path: pathlib.Path) -> Iterator[ProxiedClass]:
    proxied = ProxiedClass(tmp_path / "class", program)
    yield proxied
    proxied.end()


def _mouse(tab: Tab, kind: str, x: float, y: float) -> None:
    """Move the mouse, or press or release its button."""
    event = {"type": kind, "x": x, "y": y, "button": "left", "buttons": int(kind != "mouseReleased"), "clickCount": 1}
    tab.activate().execute_cdp_cmd("Input.dispatchMouseEvent", event)


@pytest.mark.parametrize("lost", [["answers"], ["requests", "answers"]])
def test_nothing_is_lost_by_silent_connection(tabs: "Chrome", proxied: ProxiedClass, lost: list[str]) -> None:
    """A step is executed once, whether its request or its answer is lost; typed text is saved, and a drag goes on."""
    from selenium.webdriver.common.keys import Keys

    tab = Tab(tabs, proxied, "A1")
    tab.click("#one")
    tab.wait(f"id('step').textContent.includes('vsetivli') && {STEPS} === 1")
    width = tab.run(WIDTH)
    proxied.swallows = lost
    tab.click("#one")
    tab.type(Keys.CONTROL, Keys.END, Keys.NULL, "# typed")
    x, y = tab.run("((box) => [box.x + 2, box.y + 50])(id('split-middle').getBoundingClientRect())")
    _mouse(tab, "mousePressed", x, y)
    _mouse(tab, "mouseMoved", x + 30, y)
    tab.wait(GONE)
    assert tab.text("#run") == "No connection"
    assert tab.run("text().endsWith('# typed')")
    _mouse(tab, "mouseMoved", x + 60, y)
    assert abs(tab.run(WIDTH) - width - 60) < 3
    proxied.swallows = ()
    tab.wait(BACK)
    _mouse(tab, "mouseMoved", x + 90, y)
    _mouse(tab, "mouseReleased", x + 90, y)
    _mouse(tab, "mouseMoved", x + 150, y)
    tab.wait(f"Math.abs({WIDTH} - arguments[0]) < 3", width + 90)
    tab.wait(f"id('step').textContent.includes('vid.v') && {STEPS} === 2")
    assert proxied.fetch("A/script").decode().splitlines().count("1 step 1") == 2
    assert tab.run("text().endsWith('# typed')")
    other = Tab(tabs, proxied, "A1")
    other.wait("text().endsWith('# typed')")


def test_value_and_running_program_outlast_cut_connection(tabs: "Chrome", proxied: ProxiedClass) -> None:
    """A value in its dialog is written once the server is back, a line of the console stays, and a program that runs goes on."""
    from selenium.webdriver.common.keys import Keys

    tab = Tab(tabs, proxied, "A1")
    tab.begin("addi x5, x5, 1", "jal x0, -4")
    tab.click("[data-edit='set x10']")
    tab.wait("id('edit').open")
    tab.keys("#value", Keys.CONTROL, "a", Keys.NULL, "31")
    proxied.kill()
    proxied.cut()
    tab.wait(GONE)
    assert tab.run("id('edit').open && id('value').value === '31'")
    tab.keys("#value", Keys.ENTER)
    tab.keys("#line", "set x11 7")
    assert tab.text("#gone").endswith("Waiting: set x10 31.")
    press(tabs, Keys.F11)
    tab.wait("id('key-says').textContent.startsWith('There is no connection')")
    proxied.begin()
    tab.wait(f"{BACK} && id('key-says').textContent === '' && one(\"[data-edit='set x10']\").textContent === '31'")
    assert tab.run("id('line').value") == "set x11 7"
    tab.click("#go")
    tab.wait("id('run').textContent === 'Running'")
    tab.run(
        "new MutationObserver(() => window.shown ||= id('gone').textContent).observe(id('gone'), {childList: true})"
    )
    proxied.cut()
    tab.wait(f"window.shown?.startsWith('The server is gone.') && {BACK} && id('run').textContent === 'Running'")
    tab.click("#halt")
    tab.wait("id('run').textContent === 'Paused'")
    tab.wait("/[0-9]/.test(id('moment-count').textContent)")  # the instructions are counted
    moments = tab.text("#moment-count")
    tab.run("delete window.shown")
    proxied.cut()
    tab.wait(f"window.shown?.startsWith('The server is gone.') && {BACK}")
    assert tab.text("#moment-count") == moments  # the state is as it was
