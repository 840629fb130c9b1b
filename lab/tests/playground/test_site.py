"""The built site in Chromium: the whole page, reload, exercises, lessons, images, work as files, links, and no request."""

import base64
import hashlib
import json
import pathlib
import time
from collections.abc import Iterator
from typing import TYPE_CHECKING

import pytest

from support.busy_host import PATIENCE
from support.class_pages import close_all
from support.places import SUM, TOP
from support.site import SiteTab, built_site, served_files

if TYPE_CHECKING:
    from selenium.webdriver import Chrome

pytestmark = pytest.mark.site
LOOP = """# A loop.
        li t0, 10
loop:   vsetivli zero, 8, e32, m1, ta, ma
        vid.v v1
        vadd.vv v2, v1, v1
        addi t0, t0, -1
        bnez t0, loop
        ebreak
"""
GIVEN = TOP / "lab" / "vecmon_lab" / "exercises" / "given" / "doubles"
NO_STORAGE = (
    "Object.defineProperty(window, 'indexedDB', {get() { throw new DOMException('refused', 'SecurityError'); }});"
)
CONDITIONS = """window.conditions = [], new MutationObserver(() => conditions.push(id('run').textContent))
    .observe(id('run'), {childList: true, characterData: true})"""  # that the status line shows one after the other
DROP = """
const bytes = Uint8Array.from(atob(arguments[1]), (letter) => letter.charCodeAt(0)), data = new DataTransfer();
data.items.add(new File([bytes], arguments[0]));
document.dispatchEvent(new DragEvent("drop", {dataTransfer: data, cancelable: true}));
"""


@pytest.fixture(scope="module")
def site() -> pathlib.Path:
    """The folder of the site."""
    return built_site()


def test_sums_have_all_files(site: pathlib.Path) -> None:
    """SHA256SUMS has the digests of all other files."""
    listed = [line.split("  ", 1) for line in (site / "SHA256SUMS").read_text("utf-8").splitlines()]
    files = [path for path in sorted(site.rglob("*")) if path.is_file() and path.name != "SHA256SUMS"]
    digests = {path.relative_to(site).as_posix(): hashlib.sha256(path.read_bytes()).hexdigest() for path in files}
    assert {name: digest for digest, name in listed} == digests and len(listed) == len(digests) > 50


@pytest.fixture(scope="module")
def server(site: pathlib.Path) -> Iterator[tuple[str, list[str]]]:
    """A server of its files, and what was asked of it."""
    with served_files(site) as told:
        yield told


@pytest.fixture
def tabs(browser: "Chrome") -> Iterator["Chrome"]:
    """The browser; its console has said nothing behind the test."""
    first = browser.current_window_handle
    browser.get_log("browser")
    yield browser
    said = browser.get_log("browser")
    close_all(browser, [first])
    assert said == []


def forget(tab: SiteTab) -> None:
    """Deletes what the browser has stored of the page."""
    tab.activate().execute_async_script(
        "const done = arguments[0], request = indexedDB.deleteDatabase('vecmon playground');"
        "request.onblocked = request.onsuccess = request.onerror = () => done()"
    )


def visit_first(tab: SiteTab, address: str) -> None:
    """Opens a page as at a first visit."""
    forget(tab)
    tab.run("sessionStorage.clear()")
    tab.activate().get("about:blank")
    tab.activate().get(address)


def test_the_page_steps_goes_and_goes_back(tabs: "Chrome", site: pathlib.Path) -> None:
    tab = SiteTab(tabs, (site / "playground.html").as_uri())
    tab.write(LOOP)
    tab.wait("id('run').textContent === 'Ready'")
    tab.click("#show-source")
    tab.wait("one('.lines [data-type]')?.dataset.type === 'e32 m1 · vl 8'")  # the only vset
    for _ in range(4):
        tab.click("#one")
    tab.wait("one('#log > li:last-child').textContent.includes('stepped 1')")
    tab.command("regs")
    tab.command("break 10014", "go")
    tab.wait("id('stop').textContent.includes('breakpoint')")
    tab.click("#backward")
    tab.wait("!id('says-past').hidden")
    tab.click("#now")
    tab.command("unbreak 10014")
    tab.click("#go")
    tab.wait("id('run').textContent === 'Ended'")
    tab.command("vreg v2 32")
    assert "v2 00000000 00000002 00000004 00000006 00000008 0000000a 0000000c 0000000e" in tab.text("#log")
    tab.write("bad x1\n")
    tab.wait("all('#mistakes li').length === 1")
    tab.run("(id('line').value = 'help vadd.vv', id('command').requestSubmit())")
    tab.wait("one('#entries').textContent.includes('vadd')")


def test_work_comes_back_after_a_reload(tabs: "Chrome", server: tuple[str, list[str]]) -> None:
    tab = SiteTab(tabs, f"{server[0]}/play/index.html")
    tab.write(LOOP)
    tab.wait("id('run').textContent === 'Ready'")
    tab.command("step 3", "set x11 1f")
    answer = "a = indexedDB.open('vecmon playground'); a.onsuccess = () => { const all = a.result.transaction('texts').objectStore('texts').get('A.script');"
    kept, end = "", time.monotonic() + PATIENCE
    while "1 set x11 1f" not in kept:
        assert time.monotonic() < end, kept
        kept = tab.activate().execute_async_script(
            f"const done = arguments[0], {answer} all.onsuccess = () => done(all.result?.text ?? ''); }}"
        )
    tab.open(f"{server[0]}/play/index.html")
    tab.wait("['Ready', 'Paused'].includes(id('run').textContent) && text() === arguments[0]", LOOP)
    assert "x11" in tab.text("body") and tab.run("!id('versions').hidden")
    forget(tab)


def test_an_exercise_fails_and_passes(tabs: "Chrome", site: pathlib.Path) -> None:
    from selenium.webdriver.support.wait import WebDriverWait

    tab = SiteTab(tabs, (site / "playground.html").as_uri())
    visit_first(tab, (site / "playground.html").as_uri() + "#exercise=doubles")
    tab.wait("id('exercise-text').checkVisibility() && text() === arguments[0]", (GIVEN / "start.s").read_text())
    for answer, told in (("        ret\n", "1 try, best 1 of 5"), ((GIVEN / "good.s").read_text(), "2 tries, passed")):
        tab.run("code().setValue(arguments[0])", answer)
        tab.run("all('#exercise button').find((each) => each.textContent === 'Check').click()")
        tab.wait("one('#exercise [role=status]').textContent === arguments[0]", told)
    before = set(tabs.window_handles)
    tab.run("all('#exercise a').find((each) => each.textContent.includes('lesson')).click()")
    wait = WebDriverWait(tabs, PATIENCE)
    (lesson,) = wait.until(lambda _: set(tabs.window_handles) - before)
    tabs.switch_to.window(lesson)
    wait.until(lambda _: tabs.execute_script("return document.querySelector('#count')?.textContent"))
    tabs.switch_to.window(tab.handle)


def test_nothing_is_sent(tabs: "Chrome", site: pathlib.Path) -> None:
    """A server of the one file is asked for nothing else; the policy refuses a request of a script."""
    with served_files(site) as (address, asked):
        tab = SiteTab(tabs, f"{address}/playground.html")
        tab.write(LOOP)
        tab.click("#one")
        tab.command("regs")
        told = tab.activate().execute_async_script(
            f"fetch('{address}/index.html').then(() => arguments[0]('sent'), (error) => arguments[0](error.name))"
        )
        assert told == "TypeError" and set(asked) == {"/playground.html"}
        assert any("Content Security Policy" in entry["message"] for entry in tab.activate().get_log("browser"))
        forget(tab)


def test_a_refused_storage_is_said_at_once(tabs: "Chrome", site: pathlib.Path, tmp_path: pathlib.Path) -> None:
    tab = SiteTab(tabs, (site / "playground.html").as_uri(), before=NO_STORAGE)
    assert tab.text("#stored").startswith("This browser stores nothing for this page (SecurityError).")
    tab.write(LOOP)
    tab.command("step 3")
    tab.click("#menu summary")
    saved = tab.save("#home", tmp_path / "vecmon-work.json", lambda content: content.rstrip().endswith(b"}"))
    work = json.loads(saved)
    assert work["format"] == "vecmon work" and "1 step 3" in str([each["text"] for each in work["texts"]])


def test_work_is_brought_from_a_file(tabs: "Chrome", site: pathlib.Path, tmp_path: pathlib.Path) -> None:
    tab = SiteTab(tabs, (site / "playground.html").as_uri())
    tab.write(LOOP)
    tab.command("set x11 1234567")
    path = tmp_path / "vecmon-work.json"
    tab.click("#menu summary")
    tab.save("#home", path, lambda content: content.rstrip().endswith(b"}"))
    tab.command("set x11 0")
    tab.write("nop\n")
    tab.run("one('input[type=file][accept=\".json\"]').hidden = false")
    tab.keys("input[type=file][accept='.json']", str(path))
    tab.wait("id('ask').open")
    tab.run(f"({CONDITIONS})")
    tab.click("#yes")
    tab.wait("!id('ask').open && id('gone').hidden && text() === arguments[0]", LOOP)
    assert tab.run("window.conditions") == ["Starting", "Ready"]
    tab.command("regs")
    assert "1234567" in tab.text("#log")
    path.write_text("{}")
    tab.keys("input[type=file][accept='.json']", str(path))
    tab.wait("id('stored').textContent === \"vecmon-work.json isn't a file of exported work.\"")


def test_links_carry_sources_and_no_markup(tabs: "Chrome", site: pathlib.Path) -> None:
    address = (site / "playground.html").as_uri()
    tab = SiteTab(tabs, address)
    tab.run("(id('show-source').click(), code().setValue(arguments[0]))", "# <img src=x onerror=alert(1)>\n")
    link = tab.copied_link()
    tab.run("code().setValue('nop')")
    tab.activate().get("about:blank")
    tab.open(link)
    tab.wait("text().startsWith('# <img')")
    assert tab.run("all('img').length") == 0
    for hash in ("#source=%%%", "#source=" + "A" * 200_000, "#source=e30"):
        tab.activate().get("about:blank")
        tab.open(address + hash)
        tab.wait("id('stop').textContent.includes('this link can')")


def test_files_are_dropped(tabs: "Chrome", site: pathlib.Path) -> None:
    """An image is loaded and runs; a source in C, an image that is too large, and any other file are refused by name."""
    tab = SiteTab(tabs, (site / "playground.html").as_uri())
    tab.run("code().setValue(arguments[0])", LOOP)
    for name, content, told in (
        (
            "sum.c",
            b"int main(void) { return 0; }",
            "sum.c: this page has no compiler; compile it elsewhere, with `clang-19",
        ),
        ("large", b"\x7fELF" + bytes(1 << 20), "large: an image has at most 1,048,576 bytes, and this one has more"),
        ("notes.txt", b"<img src=x onerror=alert(1)>", "notes.txt: this is no ELF image"),
        ("<b>.elf", b"\x7fELF", "<b>.elf: "),
        ("sum.elf", SUM.read_bytes(), "The image sum has"),
    ):
        tab.activate().execute_script(DROP, name, base64.b64encode(content).decode())
        tab.wait("id('log').textContent.includes(arguments[0])", told)
    assert tab.run("all('#log img, #log b').length") == 0
    tab.wait("id('run').textContent === 'Ready'")
    tab.click("#go")  # the image, and not the source
    tab.wait("id('output').textContent.startsWith('328350')")  # the sum of the squares below 100


def test_it_starts_with_examples(tabs: "Chrome", site: pathlib.Path) -> None:
    """A first visit shows the start page, and one with work the bench; an exercise that the address names comes at once."""
    tab = SiteTab(tabs, (site / "playground.html").as_uri() + "#exercise=filter")
    tab.wait("id('desk').checkVisibility() && text().includes('the result has the greater numbers')")
    tab.run("location.hash = 'exercise=doubles'")
    tab.wait("one('#exercise-text h3').textContent === '1 Doubles'")
    assert tab.run("[...id('language').options].filter((option) => !option.hidden).length") == 1  # no C
    for name in ("none", "toString"):
        tab.run("location.hash = arguments[0]", f"exercise={name}")
        tab.wait("id('stop').textContent.includes(arguments[0])", f"names an unknown exercise, {name}: choose one")
    visit_first(tab, (site / "playground.html").as_uri())
    tab.wait("id('start-page').checkVisibility()")
    assert tab.run("all('.tile').length") == 21 and tab.run("id('new-in-c').disabled")
    tab.run("all('.tile').find((tile) => tile.textContent.endsWith('strip_mined.s')).click()")
    tab.wait("id('desk').checkVisibility() && text().startsWith('## A strip-mined loop')")
    tab.click("#one")
    tab.wait("id('run').textContent === 'Paused'")
    forget(tab)


def test_a_second_tab_is_told(tabs: "Chrome", server: tuple[str, list[str]]) -> None:
    first = SiteTab(tabs, f"{server[0]}/play/index.html")
    second = SiteTab(tabs, f"{server[0]}/play/index.html")
    assert second.text("#stored").startswith("The playground is open in another tab")
    assert first.run("id('stored').hidden")


def test_the_pages_around_it(tabs: "Chrome", server: tuple[str, list[str]]) -> None:
    tabs.switch_to.new_window("tab")
    tabs.get(f"{server[0]}/index.html")
    links = tabs.execute_script("return [...document.querySelectorAll('main a')].map((each) => each.href)")
    assert len(links) == 5
    assert (
        tabs.find_element("id", "count").text == "5 of 22"
    )  # vmacc.vx, under a mask of 9, 2, 7, 1, 8, 3, 6, 4 above 4
    tabs.find_element("id", "next").click()
    assert tabs.find_element("id", "count").text == "6 of 22"
    assert tabs.find_element("css selector", "#listing [aria-current]").text == "vse32.v v9, (a2)"
    tabs.find_element("id", "back").click()
    cells = tabs.execute_script(
        "return [...document.querySelectorAll('#elements .after td')].map((each) => each.firstChild.data)"
    )
    assert cells == ["127", "100", "121", "100", "124", "100", "118", "100"] and not tabs.get_log("browser")
    tabs.get(f"{server[0]}/course/index.html")
    hrefs = tabs.execute_script("return [...document.querySelectorAll('a')].map((each) => each.getAttribute('href'))")
    assert "../play/index.html#exercise=doubles" in hrefs and len([it for it in hrefs if "#exercise=" in it]) == 12
