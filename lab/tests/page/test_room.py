"""What is in sight at a first step, how numbers and addresses are shown, memory at an address, and where the focus stays."""

import pathlib
from collections.abc import Iterator
from typing import TYPE_CHECKING

import pytest

from support.class_pages import Explored, Tab
from support.layouts import Size, reset, resize

if TYPE_CHECKING:
    from selenium.webdriver import Chrome

SOURCE = """\
        la a1, x
        vsetivli zero, 4, e32, m1, ta, ma
        vle32.v v8, (a1)
        li a2, -1
        ebreak
        .data
x:      .word 65, 300, -2, 4
"""
IN_SIGHT = """((box) => all('#registers dt').map((each) => each.getBoundingClientRect())
    .filter(({ top, bottom }) => top >= box.top && bottom <= box.bottom).length)(id('registers').getBoundingClientRect())"""
GROUND = "getComputedStyle(id('vectors')).backgroundColor"


@pytest.fixture
def stepped(tabs: "Chrome", program: pathlib.Path, tmp_path: pathlib.Path) -> Iterator[Tab]:
    """The page of `explore` after the load of four elements."""
    (tmp_path / "four.s").write_text(SOURCE)
    served = Explored(tmp_path / "explore", program, tmp_path / "four.s")
    tab = Tab(tabs, served, "A1")
    tab.run("id('number').value = 4")
    tab.wait("!id('one').disabled")
    tab.run("id('many').click()")
    tab.wait("id('run-place').textContent.includes('next line 4')")
    yield tab
    reset(tab.activate())
    tab.run("localStorage.clear()")
    tab.activate().get("about:blank")  # or the page reports that its server has gone
    served.end()


def test_registers_and_elements_are_in_sight(stepped: Tab) -> None:
    """All 33 on a screen, more than sixteen; on a tablet with source and elements."""
    browser = stepped.activate()
    resize(browser, Size(1280, 800))
    stepped.wait(f"{IN_SIGHT} === 33 && id('elements').clientHeight > 150")
    resize(browser, Size(820, 1180))
    shown = (
        "['editor', 'elements', 'registers'].every((each) => id(each).checkVisibility({ visibilityProperty: true }))"
    )
    stepped.wait(f"{shown} && {IN_SIGHT} >= 16")


def test_addresses_and_numbers_have_one_form(stepped: Tab) -> None:
    """Addresses start with 0x; the list of either pane chooses the numbers of both."""
    value = "one(\"[data-edit='set x12']\").firstChild.data"
    stepped.click("#one")  # li a2, -1
    stepped.wait(f"{value} === '-1'")
    assert stepped.run("one(\"[data-edit='setpc']\").textContent").startswith("0x100")
    assert stepped.run("one('#listing th[scope=row]').textContent") == "0x10000"
    stepped.choose("#form", "unsigned")
    stepped.wait(f"{value} === '18446744073709551615' && id('numbers').value === 'unsigned'")
    stepped.choose("#numbers", "hexadecimal")
    stepped.wait(f"{value} === '0xffffffffffffffff' && id('form').value === 'hexadecimal'")


def test_memory_at_label_in_each_size(stepped: Tab) -> None:
    """The words 65, 300, -2 and 4, least significant byte first."""
    from selenium.webdriver.common.keys import Keys

    stepped.run("id('show-memory').click()")
    first = "[...one(\"#bytes tr[data-address='11000']\").querySelectorAll('span')].map((each) => each.textContent).join(' ')"
    stepped.wait(f"{first} === '65 300 -2 4'")
    expected = {
        "8": "65 0 0 0 44 1",
        "16": "65 0 300 0 -2 -1 4 0",
        "64": f"{300 << 32 | 65} {(4 << 32) + (1 << 32) - 2}",
        "c": "A · · · ,",
    }
    for form, numbers in expected.items():
        stepped.run(
            "(id('memory-form').value = arguments[0], id('memory-form').dispatchEvent(new Event('change', { bubbles: true })))",
            form,
        )
        stepped.wait(f"{first}.startsWith(arguments[0])", numbers)
    stepped.keys("#memory-address", "0x11f80", Keys.ENTER)
    stepped.wait("one(\"#bytes tr[data-address='11f80']\")")
    assert stepped.run("one(\"#bytes tr[data-address='11f80'] th\").textContent") == "0x11f80"
    stepped.keys("#memory-address", Keys.CONTROL, "a", Keys.NULL, "nowhere", Keys.ENTER)
    assert not stepped.run("id('memory-address').validity.valid")


def test_past_keeps_grounds_of_panes(stepped: Tab) -> None:
    before = stepped.run(GROUND)
    stepped.click("#backward")
    stepped.wait("!id('says-past').hidden")
    assert stepped.run(GROUND) == before
    assert stepped.run("getComputedStyle(one('#vectors > .head')).backgroundColor") != before


def test_step_is_announced_and_cells_have_names(stepped: Tab) -> None:
    """Also after several steps, whose states may come one by one; a cell has its reason, as the line below the elements."""
    said = (
        r"/^Executed .*vle32\.v v8, \(a1\).*(4 elements changed in v8|v8 changed)\.$/.test(id('announced').textContent)"
    )
    stepped.wait(said)
    stepped.wait("one('#elements .after td:nth-of-type(3)')?.ariaLabel === 'element 2 of v8, after: −2, changed'")
    stepped.wait("one('#elements td[tabindex]').getAttribute('aria-describedby') === 'detail'")
    stepped.click("#one")
    stepped.wait("id('announced').textContent === 'Executed addi a2, zero, -1: a2 = -1.'")


def test_word_is_no_error_while_it_is_typed(stepped: Tab) -> None:
    """The mistake of another line is found meanwhile; that of the word once the caret leaves it."""
    from selenium.webdriver.common.keys import Keys

    listed = "all('#mistakes li').map((each) => each.textContent.split(':')[0]).join()"
    stepped.run("(code().focus(), code().setValue('        adi a0, a0, 1\\n        \\n'), code().setCursor(1, 8))")
    stepped.type("vad", Keys.ESCAPE)
    stepped.wait(f"{listed} === '1'")
    stepped.type(Keys.ARROW_UP)
    stepped.wait(f"{listed} === '1,2'")


def test_focus_stays_where_one_works(stepped: Tab) -> None:
    """After *Assemble* by a key the listing has it, in place of the source."""
    from selenium.webdriver.common.keys import Keys

    stepped.run("code().focus()")
    stepped.type(Keys.CONTROL, Keys.ENTER)
    stepped.wait("id('editor').hidden && document.activeElement.id === 'listing'")


def test_forced_colors_mark_lines_tabs_and_changes(stepped: Tab) -> None:
    """Grounds and shadows, which mark them otherwise, are none then."""
    browser = stepped.activate()
    forced = {"features": [{"name": "forced-colors", "value": "active"}]}
    browser.execute_cdp_cmd("Emulation.setEmulatedMedia", forced)
    try:
        stepped.wait("matchMedia('(forced-colors: active)').matches")
        styles = "['.lines .executed', '.lines .next'].map((each) => getComputedStyle(one(each)).outlineStyle)"
        assert stepped.run(styles) == ["solid", "dotted"]
        tabs = (
            "[true, false].map((each) => getComputedStyle(one(`[role=tab][aria-selected=${each}]`)).borderBottomColor)"
        )
        assert len(set(stepped.run(tabs))) == 2
        changed = "all('.lanes .changed, #registers .changed').map((each) => getComputedStyle(each).textDecorationLine)"
        assert set(stepped.run(changed)) == {"underline"}
    finally:
        browser.execute_cdp_cmd("Emulation.setEmulatedMedia", {"features": []})


def test_selected_text_has_the_colours_of_the_dark(stepped: Tab) -> None:
    """CodeMirror's own ground of a selection is light: #d7d4f0."""
    browser = stepped.activate()
    browser.execute_cdp_cmd(
        "Emulation.setEmulatedMedia", {"features": [{"name": "prefers-color-scheme", "value": "dark"}]}
    )
    try:
        ground = "getComputedStyle(one('.lines .CodeMirror-line > span'), '::selection').backgroundColor"
        stepped.wait(f"{ground} === 'rgb(58, 90, 128)'")  # #3a5a80, as in tokens.css
    finally:
        browser.execute_cdp_cmd("Emulation.setEmulatedMedia", {"features": []})


CUT = """all('button, [role=tab], label, summary, select, dt, h2, small')
    .filter((each) => each.checkVisibility({ visibilityProperty: true }) && each.scrollWidth > each.clientWidth + 1 && each.clientWidth)
    .map((each) => each.id || each.textContent)"""


def test_no_label_is_cut_at_360_pixels(stepped: Tab) -> None:
    browser = stepped.activate()
    resize(browser, Size(360, 740))
    for pane in ("show-source", "show-listing", "show-memory", "show-reference"):
        stepped.run("id(arguments[0]).click()", pane)
        assert stepped.run(CUT) == [] and stepped.run("document.documentElement.scrollWidth") <= 360
    style = "position: fixed; top: 0; left: 0; width: 1rem; padding: 0; overflow: hidden; white-space: nowrap"
    planted = "Object.assign(document.createElement('button'), { id: 'planted', textContent: 'a label', style: arguments[0] })"
    stepped.run(f"document.body.append({planted})", style)
    assert stepped.run(CUT) == ["planted"], "the check finds a label that is cut"
