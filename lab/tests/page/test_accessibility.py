"""The pages for readers who use keys, a screen reader, or less motion: names, roles, the order of focus, and an exercise with only keys."""

import pathlib
from collections.abc import Callable
from typing import TYPE_CHECKING

from page.conftest import Sit
from support.accessibility import Node, accessible_nodes, nameless, tab_stops
from support.browser import media, press
from support.class_pages import Explored, Served, Tab, look_at
from support.commands import Lab
from support.page_states import SOURCE, fail_exercise, make_problems, step, write_pages
from vecmon_lab.exercises.exercise import OURS
from vecmon_lab.lessons.frames import make_frames
from vecmon_lab.lessons.page import lesson_page
from vecmon_lab.lessons.script import read_assembled

if TYPE_CHECKING:
    from selenium.webdriver import Chrome

FAULTY = """<!doctype html><main><p style="display: flex; flex-direction: row-reverse; justify-content: left">
<button>one</button><button></button></p><button>three</button><div tabindex="0">box</div></main>
<section style="display: grid"><button style="order: 2">four</button><button>five</button></section>"""
FADE = "getComputedStyle(one('#registers .changed')).animationName"


def check(browser: "Chrome", *controls: str) -> None:
    """Check a page: controls are some that it has, as `button Run`."""
    nodes, stops = accessible_nodes(browser), tab_stops(browser)
    assert nameless(nodes, stops) == []
    assert set(controls) - {" ".join(node) for node in nodes} == set()
    assert [node for node, goes_back in stops if goes_back] == []
    assert len(stops) >= len(controls)


def test_faults_are_found(browser: "Chrome", tmp_path: pathlib.Path) -> None:
    """On a page with a nameless button, a box with the focus that has no role, and buttons in another order than their places."""
    (tmp_path / "faulty.html").write_text(FAULTY)
    browser.get((tmp_path / "faulty.html").as_uri())
    nodes, stops = accessible_nodes(browser), tab_stops(browser)
    assert nameless(nodes, stops) == [Node("button", ""), Node("button", ""), Node("generic", "box")]
    assert [(node.name, goes_back) for node, goes_back in stops] == [
        ("one", False), ("", True), ("three", False), ("box", False), ("four", False), ("five", True)
    ]  # fmt: skip


def test_page_of_student_is_accessible(tabs: "Chrome", course: Served) -> None:
    tab = Tab(tabs, course, "A1")
    tab.wait("!id('exercise').hidden")
    check(tab.activate(), "button Run", "button Step", "button Raise hand", "textbox Assembler source", "tab Problems")
    states: tuple[Callable[[Tab], None], ...] = (make_problems, fail_exercise, step)
    for begin in states:
        begin(tab)
        check(tab.activate(), "separator Width of the source", "tab Listing")


def test_pages_of_teacher_and_wall_are_accessible(tabs: "Chrome", course: Served) -> None:
    student = Tab(tabs, course, "A1")
    step(student)
    teacher = Tab(tabs, course, "teacher")
    teacher.wait("one(\"tr[data-seat='A1']\")")
    look_at(teacher, "A1")
    check(
        teacher.activate(), "button Next who needs help", "checkbox Choose seat A1", "tab Answers", "radio all 32 seats"
    )
    teacher.click("#on-wall")
    wall = Tab(tabs, course, "wall")
    wall.wait("one('#listing .told')")
    check(wall.activate())


def test_other_pages_are_accessible(
    tabs: "Chrome", served: Served, program: pathlib.Path, tmp_path: pathlib.Path
) -> None:
    """The form to join, and the author's page."""
    tabs.switch_to.new_window("tab")
    tabs.get(f"http://127.0.0.1:{served.port}/")
    assert tabs.find_element("id", "code").is_displayed()
    check(tabs)
    (tmp_path / "halves.s").write_text(SOURCE)
    explored = Explored(tmp_path / "explore", program, tmp_path / "halves.s")
    try:
        tab = Tab(tabs, explored, "A1")
        step(tab)
        check(tab.activate(), "button Continue", "button Reset")
    finally:
        explored.end()


def test_pages_that_are_files_are_accessible(
    browser: "Chrome", lab: Lab, program: pathlib.Path, tmp_path: pathlib.Path
) -> None:
    of_lesson = ("slider Frame", "button First frame", "region Listing of the program")
    controls = {"lesson": of_lesson, "profile": ("button By ticks",)}
    for name, address in write_pages(lab, program, tmp_path).items():
        browser.get("about:blank")
        browser.get(address)
        check(browser, *controls.get(name, ()))


def test_lesson_of_source_is_accessible(browser: "Chrome", program: pathlib.Path, tmp_path: pathlib.Path) -> None:
    """Its source and its listing are panels of tabs, with names; so is what unfolds the registers that aren't in use."""
    script = read_assembled(SOURCE, "halves.s")
    page = tmp_path / "lesson.html"
    page.write_text(lesson_page("x", make_frames(script, program), script), "utf-8")
    browser.get(page.as_uri())
    fold = browser.find_element("css selector", "#unused-registers summary").text
    check(browser, "tab Source", "tab Listing", "tabpanel Source", f"DisclosureTriangle {fold}")
    browser.refresh()
    browser.find_element("css selector", "#unused-registers summary").click()
    browser.find_element("id", "show-listing").click()
    check(browser, "tab Source", "tab Listing", "tabpanel Listing of the program")


def focus(tab: Tab, selector: str) -> None:
    """Press Escape, which lets Tab leave the editor, and Tab until an element has the focus. Raises AssertionError if it doesn't get it."""
    from selenium.webdriver.common.keys import Keys

    press(tab.browser, Keys.ESCAPE)
    for _ in range(99):
        if tab.run("document.activeElement?.matches(arguments[0])", selector):
            return
        press(tab.browser, Keys.TAB)
    raise AssertionError(f"no focus at {selector}")


def test_exercise_is_solved_by_keys_alone(tabs: "Chrome", course: Served) -> None:
    """The code, the source, a check that fails, one that passes, and the next exercise: no pointer, and no script that acts."""
    from selenium.webdriver.common.keys import Keys

    tabs.switch_to.new_window("tab")
    tabs.get(f"http://127.0.0.1:{course.port}/")
    press(tabs, course.codes["B1"])  # the field of the code has the focus
    press(tabs, Keys.ENTER)
    tab = Tab.__new__(Tab)
    tab.browser, tab.handle, tab.who = tabs, tabs.current_window_handle, "B1"
    tab.wait("!id('exercise').hidden && text()")
    focus(tab, "#course-list li:first-child button")
    press(tabs, Keys.ENTER)
    tab.wait("id('check').checkVisibility()")
    answer = (OURS / "doubles" / "good.s").read_text()
    for source, verdict in (("ret", "It passes 1 of 5 cases."), (answer, "It passes all cases.")):
        focus(tab, ".CodeMirror-code")
        press(tabs, Keys.CONTROL, "a")
        press(tabs, source)
        press(tabs, Keys.CONTROL, Keys.SHIFT, Keys.ENTER)
        tab.wait("one('#exercise .verdict h3')?.textContent === arguments[0]", verdict)
    focus(tab, "#course-list li:nth-child(2) button")
    press(tabs, Keys.ENTER)
    tab.wait("text().includes('# bytes of this strip')")


def test_less_motion_stops_fade(sit: Sit) -> None:
    tab = sit("A1")
    for motion, name in (("no-preference", "appear"), ("reduce", "none")):
        media(tab.activate(), prefers_reduced_motion=motion)
        step(tab, 1)
        tab.wait("one('#registers .changed')")
        assert tab.run(FADE) == name
    media(tab.browser)
