"""The vector types next to the lines of a source, in a seat's editor and in a lesson, in Chromium."""

import pathlib
from typing import TYPE_CHECKING, Any

from page.conftest import Sit
from support.accessibility import accessible_nodes
from support.class_pages import FRAME
from support.layouts import Size, reset, resize
from vecmon_lab.lessons.frames import make_frames
from vecmon_lab.lessons.page import lesson_page
from vecmon_lab.lessons.script import read_assembled

if TYPE_CHECKING:
    from selenium.webdriver import Chrome

SOURCE = """\
_start: li a0, 13
loop:   vsetvli t0, a0, e32, m1, ta, ma
        sub a0, a0, t0
        bnez a0, loop
        li a1, 1
        vsetvl t0, x0, a1
        beqz a1, 1f
        vsetivli x0, 4, e8, m1
1:      vadd.vv v2, v1, v1
        ebreak
"""
# By hand: VLEN 256 has 8 elements of 32 bits in a register; vtype 1 is e8,m2,tu,mu.
TYPES = ["e32 m1 · vl ≤ 8", "e8 m2 · vl 64", "e8 m1 · vl 4", "differs by the way here: e8 m1 or e8 m2"]
HELPERS = "const id = (name) => document.getElementById(name), all = (css) => [...document.querySelectorAll(css)];"
SHOWN = "all('.lines [data-type], #written [data-type]').map((each) => each.dataset.type)"
BELOW = "all('.lines .below, #written .below').map((each) => each.dataset.type)"
OUTSIDE = """all('#written [data-type]:not(.below)').filter((each) => each.offsetLeft + each.offsetWidth > id('written').clientWidth)
    .map((each) => each.dataset.type)"""
DRAWN = "all('[data-type]').map((each) => getComputedStyle(each, '::after').display)"


def test_types_are_beside_a_typed_source(sit: Sit) -> None:
    """They follow the text: a changed line loses its type until the server has read the source. They are no part of the text."""
    tab = sit("A1")
    tab.write(SOURCE)
    tab.wait(f"JSON.stringify({SHOWN}) === JSON.stringify(arguments[0])", TYPES)
    assert tab.run("text('source') === arguments[0]", SOURCE)
    tab.run("code().replaceRange('16', { line: 1, ch: 25 }, { line: 1, ch: 27 })")
    assert tab.run(SHOWN) == TYPES[1:]
    tab.wait(f"JSON.stringify({SHOWN}) === JSON.stringify(arguments[0])", ["e16 m1 · vl ≤ 16", *TYPES[1:]])
    tab.click("#assemble")  # which asks for nothing else
    tab.click("#show-source")
    assert tab.run(SHOWN) == ["e16 m1 · vl ≤ 16", *TYPES[1:]]


def test_run_right_after_typing_shows_types(sit: Sit) -> None:
    """Also if the source is built before the page has asked for its problems."""
    tab = sit("A2")
    tab.run("(id('show-source').click(), code().setValue(arguments[0]), id('one').click())", SOURCE)
    tab.wait("id('run').textContent === 'Paused'")
    tab.wait(f"JSON.stringify({SHOWN}) === JSON.stringify(arguments[0])", TYPES)


def test_narrow_editor_has_types_below_lines(sit: Sit) -> None:
    """At 360 px all of them are in sight, and a wide editor has them at the ends of the lines."""
    tab = sit("A3")
    try:
        tab.write(SOURCE)
        tab.wait(f"{SHOWN}.length === {len(TYPES)}")
        resize(tab.activate(), Size(360, 740, touch=True))
        tab.click("#tab-program")
        tab.wait(f"JSON.stringify({BELOW}) === JSON.stringify(arguments[0])", TYPES)
        resize(tab.activate(), Size(2400, 1000))
        tab.wait(f"{BELOW}.length === 0 && {SHOWN}.length === 4")
    finally:
        reset(tab.activate())


def test_switch_is_stored(sit: Sit) -> None:
    tab = sit("A4")
    try:
        tab.write(SOURCE)
        tab.wait(f"{SHOWN}.length === {len(TYPES)}")
        assert set(tab.run(DRAWN)) <= {"inline", "block"}
        tab.click("#line-types")
        assert set(tab.run(DRAWN)) == {"none"}
        tab.browser.refresh()
        tab.wait(f"{SHOWN}.length === {len(TYPES)}")
        assert set(tab.run(DRAWN)) == {"none"} and not tab.run("id('line-types').checked")
    finally:
        tab.run("localStorage.clear()")


def test_lesson_has_types(browser: "Chrome", program: pathlib.Path, tmp_path: pathlib.Path) -> None:
    """At every width; a screen reader doesn't read them, and the switch takes them away. A script without a source has none."""
    page = lesson_page(
        "Types", make_frames(read_assembled(SOURCE, "types.s"), program), read_assembled(SOURCE, "types.s")
    )
    (tmp_path / "lesson.html").write_text(page, "utf-8")
    browser.get((tmp_path / "lesson.html").as_uri())

    def run(script: str) -> Any:
        return browser.execute_script(f"{HELPERS} return {script}")

    try:
        for size, below in ((Size(360, 740, touch=True), [*TYPES[:1], *TYPES[2:]]), (Size(2400, 1000), [])):
            resize(browser, size)
            browser.execute_async_script(FRAME)
            assert (run(SHOWN), run(BELOW), run(OUTSIDE)) == (TYPES, below, [])
        assert run("all('#written .text').map((each) => each.textContent)") == SOURCE.splitlines()
        names = {node.name for node in accessible_nodes(browser)}
        assert "Vector types" in names and not any(each in name for each in TYPES for name in names)
        run("id('line-types').click()")
        assert set(run(DRAWN)) == {"none"}
    finally:
        browser.execute_script("localStorage.clear()")
        reset(browser)
