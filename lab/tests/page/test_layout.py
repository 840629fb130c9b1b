"""The layout of pages at seven sizes, and what a reader does with panes: splitters, folding, tabs, and the size of fonts."""

import pathlib
import re
from typing import TYPE_CHECKING

import pytest

from support.class_pages import Explored, Served, Tab, look_at, press_key
from support.commands import Lab
from support.layouts import SIZES, faults_now, layout_faults, reset, resize
from support.page_states import SOURCE, STUDENT, step, write_pages
from vecmon_lab.compilers.compiler import Compiler

if TYPE_CHECKING:
    from selenium.webdriver import Chrome

FAULTY = """<!doctype html><body style="margin: 0; color: #777; background: #fff">
<p id="twice" style="width: 40px; overflow: hidden; color: #000; white-space: nowrap">A text that is cut</p>
<p id="twice">These letters are too pale.</p>
<button style="width: 100px; color: #000">One</button><button style="margin-left: -30px; width: 20px; color: #000">2</button>
<div style="width: 60px; height: 40px; overflow: hidden; color: #000"><button style="width: 90px; color: #000">Cut off</button></div>
<button style="position: absolute; top: 200px; color: #000">Hidden</button><div style="position: absolute; top: 200px; width: 100px;
  height: 40px; background: #fff"></div>
<select style="width: 40px; color: #000"><option>A long option</option></select>
<div class="pane" id="editor"><div class="lines" style="height: 159px"></div></div>"""
WIDTH = "Math.round(id('middle').getBoundingClientRect().width)"


def test_page_of_student_fits(tabs: "Chrome", course: Served, sandboxed_clang: Compiler) -> None:
    tab = Tab(tabs, course, "A1")
    for name, begin in STUDENT.items():
        begin(tab)
        assert (name, layout_faults(tab.activate())) == (name, {})
    assert "no vector operands" in tab.text(".card")  # of the state in C, the last one


def test_pages_of_teacher_and_wall_fit(tabs: "Chrome", course: Served) -> None:
    tab = Tab(tabs, course, "A2")
    tab.wait("!id('exercise').hidden")
    step(tab)
    teacher = Tab(tabs, course, "teacher")
    teacher.wait("one(\"tr[data-seat='A2']\")")
    look_at(teacher, "A2")
    assert layout_faults(teacher.activate()) == {}
    teacher.click("#on-wall")
    wall = Tab(tabs, course, "wall")
    wall.wait("one('#listing .told')")
    assert layout_faults(wall.activate()) == {}


def test_page_to_join_fits(tabs: "Chrome", served: Served) -> None:
    tabs.switch_to.new_window("tab")
    tabs.get(f"http://127.0.0.1:{served.port}/")
    assert tabs.find_element("id", "code").is_displayed()
    assert layout_faults(tabs) == {}


def test_page_of_explore_fits_and_has_no_words_of_classes(
    tabs: "Chrome", program: pathlib.Path, tmp_path: pathlib.Path
) -> None:
    (tmp_path / "halves.s").write_text(SOURCE)
    served = Explored(tmp_path / "explore", program, tmp_path / "halves.s")
    try:
        tab = Tab(tabs, served, "A1")
        step(tab)
        assert layout_faults(tab.activate()) == {}
        tab.run("id('show-source').click()")
        tab.open_menu("#versions")
        tab.wait("id('versions').checkVisibility()")
        own, button = tab.run("[id('versions').offsetWidth, id('save').offsetWidth]")  # of one menu
        resize(tab.activate(), SIZES["dark"])
        grounds = ["one('#source + .CodeMirror')", "one('#source + .CodeMirror .CodeMirror-scrollbar-filler')"]
        panel, corner = (tab.run(f"getComputedStyle({each}).backgroundColor") for each in grounds)
        assert (own, corner) == (button, panel)
        reset(tab.activate())
        tab.click("#menu summary")
        titles = "all('[title]').filter((each) => each.checkVisibility()).map(({title}) => title).join(' ')"
        words = tab.run(f"`${{document.body.innerText}} ${{{titles}}}`")
        assert re.findall(r"(?i).*\b(?:seat|teacher|hand|exercise)s?\b.*", words) == []
        assert tab.text("#who") == "halves.s"
    finally:
        served.end()


def test_pages_that_are_files_fit(browser: "Chrome", lab: Lab, program: pathlib.Path, tmp_path: pathlib.Path) -> None:
    for name, address in write_pages(lab, program, tmp_path).items():
        browser.get("about:blank")
        browser.get(address)
        assert (name, layout_faults(browser)) == (name, {})


def test_each_kind_of_fault_is_found(browser: "Chrome", tmp_path: pathlib.Path) -> None:
    (tmp_path / "faulty.html").write_text(FAULTY)
    browser.get((tmp_path / "faulty.html").as_uri())
    assert [re.sub(r": \d+ >.*|,[\d.]+$", "", fault) for fault in faults_now(browser)] == [
        "cut: twice A text that is cut",
        "cut: DIV Cut off",
        "cut: SELECT A long option: A long option",
        "cut off: BUTTON Cut off",
        "covered: BUTTON Hidden by DIV",
        "overlap: BUTTON One, BUTTON 2",
        "twice: twice",
        "low contrast: ,These letters are too pale.",
        "source: 159 px",
    ]


def test_splitters_move_are_kept_and_reset(tabs: "Chrome", served: Served) -> None:
    """By 16 px with an arrow key, by hand, back with Enter; a size of another version of the page is ignored."""
    from selenium.webdriver import ActionChains
    from selenium.webdriver.common.by import By
    from selenium.webdriver.common.keys import Keys

    tab = Tab(tabs, served, "A1")
    resize(tab.activate(), SIZES["screen"])
    try:
        first = tab.run(WIDTH)
        bar = tabs.find_element(By.ID, "split-middle")
        assert bar.get_attribute("role") == "separator" and bar.get_attribute("aria-valuenow") == f"{first}"
        bar.send_keys(Keys.ARROW_RIGHT, Keys.ARROW_RIGHT)
        tab.wait(f"{WIDTH} === arguments[0]", first + 32)
        ActionChains(tabs, duration=0).drag_and_drop_by_offset(bar, -60, 0).perform()
        tab.wait(f"Math.abs({WIDTH} - arguments[0]) < 3", first - 28)
        moved = tab.run(WIDTH)
        tabs.refresh()
        tab.wait(f"{WIDTH} === arguments[0]", moved)
        bar = tabs.find_element(By.ID, "split-middle")
        bar.send_keys(*[Keys.ARROW_LEFT] * 60)
        assert tab.run(WIDTH) == 340  # px: the least width of the source
        bar.send_keys(Keys.ENTER)
        tab.wait(f"{WIDTH} === arguments[0]", first)
        tab.run(
            'localStorage.setItem(\'vecmon-panes-student\', \'{"version": 0, "sizes": {"middle": 50}, "folded": 7}\')'
        )
        tabs.refresh()
        tab.wait(f"id('middle') && {WIDTH} === arguments[0]", first)
    finally:
        reset(tabs)
        tab.run("localStorage.clear()")


def test_type_has_size_that_reader_chooses(tabs: "Chrome", served: Served) -> None:
    """At 125 % letters are larger by a quarter, also after a reload; a larger window by itself changes none."""
    tab = Tab(tabs, served, "A2")
    size = "parseFloat(getComputedStyle(one('#registers, #vectors h2')).fontSize)"
    try:
        sizes = list[float]()
        for name in ("laptop", "screen"):
            resize(tab.activate(), SIZES[name])
            sizes.append(tab.run(size))
        tab.choose("#text-size", "125%")
        sizes.append(tab.run(size))
        tabs.refresh()
        tab.wait("id('text-size')?.value === '125%'")
        assert [*sizes, tab.run(size)] == [14, 14, pytest.approx(17.5), pytest.approx(17.5)]
    finally:
        reset(tabs)
        tab.run("localStorage.clear()")


def test_largest_letters_fit(tabs: "Chrome", course: Served) -> None:
    """At 150 % the exercise, the source and the elements are next to each other in the window of a laptop."""
    tab = Tab(tabs, course, "A2")
    try:
        resize(tab.activate(), SIZES["laptop"])
        tab.wait("id('exercise')?.checkVisibility()")
        tab.choose("#text-size", "150%")
        edges = "all('#exercise, #vectors').map((each) => [each.getBoundingClientRect().left, each.getBoundingClientRect().right])"
        (first, last), (left, right) = tab.run(edges)
        assert first == 0 and first < last < left < right <= tab.run("innerWidth")
    finally:
        reset(tabs)
        tab.run("localStorage.clear()")


def test_bar_of_phone_is_one_row(tabs: "Chrome", served: Served) -> None:
    """Its buttons have signs, and their names for readers; the past is in the pane of elements, and back in the bar."""
    tab = Tab(tabs, served, "A3")
    try:
        resize(tab.activate(), SIZES["phone"])
        tab.wait("one('#vectors #past')")
        assert tab.run("id('head').getBoundingClientRect().height") < 60
        shown = tab.run("all('#controls > button').filter((each) => each.checkVisibility())")
        assert [(button.accessible_name, button.size["width"] >= 38) for button in shown] == [
            (name, True) for name in ("Run", "Step", "Step over", "Stop", "Reset")
        ]
        tab.click("#one")
        tab.wait("id('run').textContent === 'Paused'")
        press_key(tab, "F7")
        tab.wait("!id('says-past').hidden && id('now').checkVisibility()")
        press_key(tab, "Escape")
        assert tab.run("id('says-past').hidden")
        tab.click("#tab-vectors")
        tab.choose("#view", "all 32 registers")
        tab.choose("#width", "8 bits")
        tab.wait("id('vectors').scrollHeight > id('vectors').clientHeight")
        assert tab.run("id('detail').scrollHeight <= id('detail').clientHeight")  # whole, below registers that scroll
        resize(tab.activate(), SIZES["laptop"])
        tab.wait("one('#head #past')")
    finally:
        reset(tabs)
