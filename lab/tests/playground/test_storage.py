"""The browser's storage of the built site: full, damaged, of an older and of a newer version."""

import json
import pathlib
import time
from collections.abc import Iterator
from typing import TYPE_CHECKING, Any

import pytest

from playground.test_site import LOOP
from support.busy_host import PATIENCE
from support.class_pages import close_all
from support.site import TITLE, SiteTab, built_site, served_files

if TYPE_CHECKING:
    from selenium.webdriver import Chrome

pytestmark = pytest.mark.site
OPEN = "const done = arguments[arguments.length - 1], request = indexedDB.open('vecmon playground');"
READ = f"""{OPEN}
request.onsuccess = () => {{
  const all = request.result.transaction('texts').objectStore('texts').getAll();
  all.onsuccess = () => (request.result.close(), done(all.result));
}};"""
CHANGE = f"""{OPEN}
request.onsuccess = () => {{
  const transaction = request.result.transaction('texts', 'readwrite'), store = transaction.objectStore('texts');
  for (const entry of arguments[0]) store.put(entry);
  transaction.oncomplete = () => (request.result.close(), done());
}};"""
FULL = """const put = IDBObjectStore.prototype.put;
IDBObjectStore.prototype.put = function (...values) {
  if (window.isFull) throw new DOMException('full', 'QuotaExceededError');
  return put.apply(this, values);
};"""
NEXT_VERSION = "const open = indexedDB.open.bind(indexedDB); indexedDB.open = (name, version) => open(name, version && version + 1);"


@pytest.fixture
def address(browser: "Chrome") -> Iterator[str]:
    """The address of a server of the site with a new port, so with a storage of its own."""
    first = browser.current_window_handle
    with served_files(built_site()) as (address, _):
        yield address
        close_all(browser, [first])


def entries(tab: SiteTab) -> list[dict[str, Any]]:
    """The stored texts."""
    found: list[dict[str, Any]] = tab.activate().execute_async_script(READ)
    return found


def wait_for_text(tab: SiteTab, part: str) -> None:
    """Wait until a stored text has this part."""
    end = time.monotonic() + PATIENCE
    while not any(part in entry["text"] for entry in entries(tab)):
        assert time.monotonic() < end, f"{part!r} isn't stored"
        time.sleep(0.05)


def test_a_full_storage_is_reported_until_there_is_room(browser: "Chrome", address: str) -> None:
    tab = SiteTab(browser, f"{address}/play/index.html", before=FULL)
    tab.write(LOOP)
    tab.wait("id('run').textContent === 'Ready'")
    wait_for_text(tab, "A loop")
    tab.run("window.isFull = true")
    tab.write("# no room for this\n" + LOOP)
    tab.wait("id('stored').textContent.startsWith(\"The browser's storage takes no more (QuotaExceededError).\")")
    assert not any("no room" in entry["text"] for entry in entries(tab))
    tab.run("window.isFull = false")
    tab.command("set x11 1f")
    wait_for_text(tab, "set x11 1f")
    wait_for_text(tab, "no room for this")  # the change that wasn't saved is saved with the next one
    tab.wait("id('stored').hidden")


def test_damaged_texts_leave_the_others(browser: "Chrome", address: str, tmp_path: pathlib.Path) -> None:
    """A text that isn't one is offered as a file; lines that no machine executes are exported, and the sources are there."""
    page = f"{address}/play/index.html"
    tab = SiteTab(browser, page)
    tab.write(LOOP)
    tab.command("set x11 1f")
    wait_for_text(tab, "set x11 1f")
    browser.get(f"{address}/index.html")
    damaged = [{"name": "A.script", "text": "1 enter\nno line\n", "time": 1}, {"name": "A1.note", "text": 5, "time": 1}]
    tab.activate().execute_async_script(CHANGE, damaged)
    tab.open(page)
    tab.wait("text() === arguments[0]", LOOP)
    said = tab.text("#stored")
    assert said.startswith("1 saved text can't be read: Damaged texts saves it as a file.")
    assert "the machine's lines can't be executed again" in said or "the machine's lines are damaged" in said
    is_whole = lambda content: content.rstrip().endswith((b"]", b"}"))  # noqa: E731
    saved = tab.save("[aria-label='Save damaged texts as a file']", tmp_path / "vecmon-damaged.json", is_whole)
    assert json.loads(saved) == [damaged[1]]
    tab.click("#menu summary")
    work = json.loads(tab.save("#home", tmp_path / "vecmon-work.json", is_whole))
    texts = {entry["name"]: entry["text"] for entry in work["texts"]}
    assert texts["damaged/A.script"] == "1 enter\nno line\n" and texts["A1.s"] == LOOP


def test_another_version_of_the_storage(browser: "Chrome", address: str) -> None:
    """A later version of the page takes up what this one has saved; then this one only reads it."""
    page = f"{address}/play/index.html"
    tab = SiteTab(browser, page)
    tab.write(LOOP)
    wait_for_text(tab, "A loop")
    later = SiteTab(browser, page, before=NEXT_VERSION)
    tab.wait("id('stored').textContent.startsWith('A newer playground has saved the work in this browser.')")
    tab.activate().get("about:blank")  # so that the later one is the tab that saves
    later.open(page)
    later.wait("text() === arguments[0]", LOOP)
    later.command("set x11 1f")
    wait_for_text(later, "set x11 1f")
    again = SiteTab(browser, page)
    assert again.text("#stored").startswith(
        "A newer playground has saved the work in this browser. It is only read here"
    )
    again.command("regs")
    assert "x11 1f" in again.text("#log")
    again.command("set x12 2f")
    assert not any("set x12 2f" in entry["text"] for entry in entries(again))


def sources(tab: SiteTab) -> dict[str, str]:
    """The stored sources and versions, by name."""
    return {entry["name"]: entry["text"] for entry in entries(tab) if entry["name"].endswith(".s")}


def test_second_tab_takes_over(browser: "Chrome", address: str) -> None:
    """It saves once the first one is closed. The text of both tabs is there: one in the editor, the other one in Versions."""
    page = f"{address}/play/index.html"
    first, second = SiteTab(browser, page), SiteTab(browser, page)
    second.write("# of the second tab\n" + LOOP)
    second.wait("id('run').textContent === 'Ready'")
    first.write("# of the first tab\n" + LOOP)
    wait_for_text(first, "# of the first tab")
    assert not any("second" in text for text in sources(first).values())
    third = SiteTab(browser, page)
    first.activate().close()
    browser.switch_to.window(second.handle)
    second.wait("id('stored').textContent.startsWith('The other tab is closed, and this tab saves now.')")
    assert second.run("text().startsWith('# of the second tab') && id('versions').options.length") == 3
    stored = sources(second)
    assert stored["free/A1.s"].startswith("# of the second tab")
    assert any(name.startswith("sources/") and "# of the first tab" in text for name, text in stored.items())
    assert third.text("#stored").startswith("The playground is open in another tab")
    second.activate().close()
    browser.switch_to.window(third.handle)
    third.wait("id('stored').textContent.startsWith('The other tab is closed. This tab has taken up its work')")
    third.wait("id('gone').hidden && text().startsWith('# of the second tab')")
    third.command("set x11 1f")
    wait_for_text(third, "set x11 1f")


def test_text_of_the_last_moment_comes_back(browser: "Chrome", address: str) -> None:
    """A reload at once loses nothing that was typed."""
    page = f"{address}/play/index.html"
    tab = SiteTab(browser, page)
    tab.write(LOOP)
    wait_for_text(tab, "A loop")
    for text in ("nop\n", "ret\n"):
        tab.run("(id('show-source').click(), code().setValue(arguments[0]), location.reload())", text)
        tab.wait("document.title === arguments[0] && id('gone').hidden && text() === arguments[1]", TITLE, text)
    wait_for_text(tab, "ret")
    tab.wait("localStorage.getItem('vecmon-unsaved') === 'null'")


def test_free_program_is_no_answer(browser: "Chrome", address: str) -> None:
    """An exercise starts with its own text and without the program's machine, and the program is there again afterwards."""
    page = f"{address}/play/index.html"
    tab = SiteTab(browser, page)
    tab.run("(id('to-start').click(), id('new-program').click())")
    tab.wait("id('desk').checkVisibility()")
    tab.run("code().setValue(arguments[0])", LOOP)
    tab.click("#go")
    tab.wait("id('run').textContent === 'Ended' && id('stop').textContent.includes('Stopped at the ebreak')")
    versions = tab.run("[...id('versions').options].map((option) => option.text).slice(1)")
    assert len(versions) == 1 and versions[0].endswith(" assembled")
    tab.run("location.hash = 'exercise=doubles'")
    tab.wait("text().includes('double') && id('run').textContent === 'Not begun'")
    assert tab.run("[id('stop').textContent, id('check').disabled]") == ["", False]
    tab.run("code().setValue('ret\\n')")
    tab.click("#to-start")
    tab.run("all('#recent .tile').find((tile) => tile.textContent.startsWith('Your program')).click()")
    tab.wait("id('desk').checkVisibility() && text() === arguments[0] && id('check').disabled", LOOP)
    tab.run("all('#course-list button')[0].click()")
    tab.wait("text() === 'ret\\n' && !id('check').disabled")
    tab.run("(id('to-start').click(), all('.tile').find((tile) => tile.textContent.endsWith('strip_mined.s')).click())")
    tab.wait("text().startsWith('## A strip-mined loop')")
    wait_for_text(tab, "## A strip-mined loop")
    tab.open(page)
    tab.wait("text().startsWith('## A strip-mined loop')")
    assert sources(tab)["drafts/A1.doubles.s"] == "ret\n"
