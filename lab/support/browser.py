"""Chromium, and what tests in it do and look at."""

import contextlib
import os
import pathlib
import shutil
from collections.abc import Iterator
from typing import TYPE_CHECKING

from support.busy_host import PATIENCE
from support.processes import descendants, end_all

if TYPE_CHECKING:
    from selenium.webdriver import Chrome

# The commands of browsers for tests, the one that takes less of the processor first, and the window in which a page has 1280 by 757 pixels.
WINDOWS = {"chromium-headless-shell": "1280,757", "chromium": "1280,900"}

# Debian's command is a shell that waits for this program: chromedriver would end only the shell, and leave the browser running.
HEADLESS_SHELL = pathlib.Path("/usr/lib/chromium/chromium-headless-shell")

# The texts whose colours are too close to their background: the class, the text and the ratio of each.
CONTRAST = """
const channels = (color) => color.match(/[\\d.]+/g).map(Number);
const luminance = (color) => {
  const linear = (c) => (c <= 0.04045 ? c / 12.92 : ((c + 0.055) / 1.055) ** 2.4);
  const [r, g, b] = channels(color).slice(0, 3).map((channel) => linear(channel / 255));
  return 0.2126 * r + 0.7152 * g + 0.0722 * b;
};
const ground = (element) => {
  for (let e = element; e; e = e.parentElement) {
    const color = getComputedStyle(e).backgroundColor;
    if (channels(color)[3] !== 0) return color;
  }
};
const low = [];
const texts = document.createTreeWalker(document.body, NodeFilter.SHOW_TEXT);
while (texts.nextNode()) {
  const element = texts.currentNode.parentElement;
  if (!texts.currentNode.data.trim() || !element.checkVisibility({visibilityProperty: true})) continue;
  if (element.closest(".unseen, option, button:disabled, script")) continue;
  const [one, other] = [luminance(getComputedStyle(element).color), luminance(ground(element))].sort((a, b) => b - a);
  const ratio = (one + 0.05) / (other + 0.05);
  if (ratio < 4.5) low.push([element.className, texts.currentNode.data, ratio]);
}
return low;
"""


@contextlib.contextmanager
def browser_with(*more: str, command: str = "chromium") -> Iterator["Chrome"]:
    """Chromium, or its headless shell, without a window, with these options; all its processes have ended afterwards."""
    browser = _start(command, more)
    driver = browser.service.process.pid
    try:
        yield browser
    finally:
        processes = descendants(driver)
        browser.quit()
        end_all(processes)


def _start(command: str, more: tuple[str, ...]) -> "Chrome":
    from selenium.webdriver import Chrome, ChromeOptions
    from selenium.webdriver.chrome.service import Service

    path, driver = shutil.which(command), shutil.which("chromedriver")
    assert path and driver, f"{command} or chromedriver not found: run tools/building/debian_packages browser"
    options = ChromeOptions()
    is_shell = command == HEADLESS_SHELL.name and os.access(HEADLESS_SHELL, os.X_OK)
    options.binary_location = str(HEADLESS_SHELL) if is_shell else path
    size = f"window-size={WINDOWS[command]}"
    for word in ("headless=new", "no-sandbox", "disable-dev-shm-usage", "disable-gpu", size, *more):
        options.add_argument(f"--{word}")
    options.set_capability("goog:loggingPrefs", {"browser": "ALL"})
    browser = Chrome(options=options, service=Service(driver))
    browser.set_script_timeout(PATIENCE)
    return browser


def click(browser: "Chrome", selector: str) -> None:
    """Clicks an element, once more if the page draws it anew meanwhile."""
    from selenium.common.exceptions import StaleElementReferenceException
    from selenium.webdriver.support.wait import WebDriverWait

    def is_clicked(on: "Chrome") -> bool:
        on.find_element("css selector", selector).click()
        return True

    WebDriverWait(browser, PATIENCE, ignored_exceptions=[StaleElementReferenceException]).until(is_clicked)


def press(browser: "Chrome", *keys: str) -> None:
    """Presses keys, the last one while the others are held."""
    from selenium.webdriver import ActionChains

    chain = ActionChains(browser, duration=0)
    for key in keys[:-1]:
        chain.key_down(key)
    chain.send_keys(keys[-1])
    for key in keys[:-1]:
        chain.key_up(key)
    chain.perform()


def media(browser: "Chrome", **features: str) -> None:
    """The reader's preferences, by the names of media features."""
    emulated = [{"name": name.replace("_", "-"), "value": value} for name, value in features.items()]
    browser.execute_cdp_cmd("Emulation.setEmulatedMedia", {"features": emulated})
