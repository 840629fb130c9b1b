"""Exercises in the pages of a class, in Chromium: a seat's panel, and the teacher's table."""

import pathlib
import re
from collections.abc import Iterator
from typing import TYPE_CHECKING

import pytest

from support.browser import CONTRAST
from support.class_pages import SIGNS, Served, Tab, look_at
from support.layouts import SIZES, reset, resize
from vecmon_lab.classes.core.progress import is_unsigned
from vecmon_lab.compilers.compiler import Compiler
from vecmon_lab.exercises.exercise import OURS, read_exercise
from vecmon_lab.tables.table import read_table

if TYPE_CHECKING:
    from selenium.webdriver import Chrome

COURSE = [name for name, _ in read_table("course")]
VERDICT = "one('#exercise .verdict h3')?.textContent"
TYPE = "code().setValue(arguments[0])"
IN_SIGHT = """((panel, shown) => shown.every(({ top, bottom }) => top >= panel.top && bottom <= panel.bottom))(
    id("reading").getBoundingClientRect(),
    [one("#verdict h3"), ...all("#verdict .strip"), one("#verdict button")].slice(0, 5).map((each) => each.getBoundingClientRect()))"""
NEXT_IN_SIGHT = """((box, line) => line && line.top >= box.top && line.bottom <= box.bottom)(
    id("source").nextSibling.getBoundingClientRect(), one("#editor .next")?.getBoundingClientRect())"""
BOXES = "[...one(arguments[0]).querySelectorAll('.strip span[title]')].map((box) => box.firstChild.data)"

KEEP_REQUESTS = """const requests = [], send = WebSocket.prototype.send;
    WebSocket.prototype.send = function (text) { requests.push(JSON.parse(text)); return send.call(this, text); };"""
OPENED = "requests.filter(({ ask }) => ask === 'open').map(({ exercise }) => exercise)"  # which pages have asked the server to open
ANSWER = "[id('answer-title').textContent, id('answer').checkVisibility()]"
ANSWERS = "#seats [data-seat='A3'] button[value='doubles']"


@pytest.fixture(scope="module")
def course(program: pathlib.Path, tmp_path_factory: pytest.TempPathFactory) -> Iterator[Served]:
    """A class of thirty-two with all exercises of the course."""
    folder = tmp_path_factory.mktemp("course") / "class"
    served = Served(folder, program, "--machines", "4", "--course", takes_c=True)
    yield served
    served.end()


def check(tab: Tab, source: str, verdict: str) -> None:
    """Check a source, and wait for the result."""
    tab.run(TYPE, source)
    tries = tab.text("#try-count")
    tab.click("#check")
    tab.wait("!id('check').disabled && id('try-count').textContent !== arguments[0]", tries)
    assert tab.run(VERDICT) == verdict, tab.text("#exercise")


def choose(tab: Tab, name: str) -> None:
    """Open an exercise, and wait until it is."""
    button = f"#course-list li:nth-child({COURSE.index(name) + 1}) button"
    tab.wait("one(arguments[0])?.checkVisibility()", button)
    if tab.run("one(arguments[0]).ariaCurrent", button) != "true":
        tab.click(button)
        tab.wait("one(arguments[0]).ariaCurrent === 'true' && !id('course-list').inert", button)


def test_first_visit_starts_with_a_step(tabs: "Chrome", course: Served) -> None:
    """The exercises are listed next to a sample; cards have the elements' place until the first step, and come back by Help."""
    tab = Tab(tabs, course, "B1", before=KEEP_REQUESTS)
    tab.wait("id('welcome').checkVisibility()")
    assert tab.run("text()").startswith("# Doubles of the numbers 0 to 7.")
    assert tab.run("all('#welcome li').length") == 4 and not tab.run("one('#vectors .missing').checkVisibility()")
    titles = tab.run("all('#course-list button').map((each) => each.textContent)")
    assert len(titles) == 12 and titles[0] == "1Doubles" and titles[11] == "12Prefix sums"
    assert not tab.run("id('check').checkVisibility()") and tab.activate().execute_script(CONTRAST) == []
    tab.click("#step-once")
    tab.wait("id('step').textContent.includes('vsetivli zero, 8, e32') && !id('welcome').checkVisibility()")
    assert tab.run("id('elements').checkVisibility() && !id('check').checkVisibility()") and tab.run(OPENED) == []
    assert tab.run("id('vectors').matches('.shown')"), "the pane that a phone shows"
    tab.click("#show-reference")
    tab.click("#show-welcome")
    assert tab.run("id('welcome').checkVisibility() && !id('elements').checkVisibility()")
    tab.click("#open-first")
    tab.wait("text().includes('a0: address of the doubles')")
    assert tab.text("#exercise-text h3") == "1 Doubles" and tab.run("id('check').checkVisibility()")
    assert tab.run(OPENED) == ["doubles"], "the server counts the time at it from now on"
    tab.click("#one")
    tab.wait("!id('welcome').checkVisibility() && id('step').textContent.includes('ret')")


def test_numbers_have_the_sign_of_the_cases(tabs: "Chrome", course: Served) -> None:
    """Those of an exercise whose cases have unsigned numbers only, and those of another one; a chosen form stays."""
    signs = {name: is_unsigned(read_exercise(OURS / name)) for name in COURSE}
    signed, unsigned = ([name for name in COURSE if signs[name] == wanted][0] for wanted in (False, True))
    tab = Tab(tabs, course, "B5")
    for name, form in ((unsigned, "unsigned"), (signed, "signed"), (unsigned, "unsigned")):
        choose(tab, name)
        tab.wait(f"id('form').value === '{form}'")
    tab.choose("#form", "hexadecimal")
    choose(tab, signed)
    assert tab.run("id('form').value") == "hexadecimal"


def test_other_exercise_leaves_machine(tabs: "Chrome", course: Served) -> None:
    """Elements, registers and listing of the source before go; on a phone the exercise stays in sight."""
    tab = Tab(tabs, course, "B4")
    shown = "['elements', 'registers', 'listing', 'welcome'].map((name) => id(name).checkVisibility())"
    choose(tab, "doubles")
    try:
        for name, size in (("strip_mined_copy", "laptop"), ("clamped_magnitude", "phone")):
            tab.run(TYPE, "vsetivli zero, 8, e32, m1, ta, ma\nvid.v v1\nret")
            tab.run("id('one').click()")
            tab.wait("id('step').textContent.includes('vsetivli zero, 8, e32')")
            resize(tab.activate(), SIZES[size])
            tab.run("id('tab-exercise').click()")
            choose(tab, name)
            tab.wait("id('run').textContent === 'Not begun'")
            assert tab.run("id('exercise').checkVisibility()") and tab.text("#stop") == ""
            resize(tab.activate(), SIZES["laptop"])
            tab.click("#show-listing")
            assert tab.run(shown) == [False, False, False, False]
            assert tab.run("one('#vectors .missing').innerText").startswith("There is no machine yet.")
            tab.click("#show-source")
    finally:
        reset(tab.activate())


def test_case_is_tried_before_first_check(tabs: "Chrome", course: Served) -> None:
    """Each case has what it gives and expects, in the exercise's file, and starts the source with that; hidden ones have numbers."""
    tab = Tab(tabs, course, "B2")
    choose(tab, "clamped_magnitude")
    rows = "all('#cases tbody tr').map((row) => row.cells[0].textContent)"
    names = [
        "eight",
        "every other one, and the bytes after",
        "the least number",
        "case 4, hidden",
        "more than a group",
        "case 6, hidden",
    ]
    assert tab.run(rows) == names
    cells = "all('#cases tr:nth-child(2) td').map((cell) => cell.innerText.replace(/\\s+/g, ' '))"
    given, expected, _ = tab.run(cells)
    assert given.startswith(
        "a0 = 0x20000, a1 = 0x30000, a2 = 7, a3 = 50 i32 at 0x20000 -60 -60 -70 -70 80 80 -1 -33 … 1 more"
    )
    assert expected == "i32 at 0x20000 -60 50 -70 50 80 50 -1 -33 … 1 more"
    assert tab.run("all('#cases tbody button').length") == 4
    tab.click("#cases tr:nth-child(2) button")
    tab.wait("id('log').textContent.includes('> set x13 32') && id('run').textContent === 'Ready'")
    assert tab.text("[data-edit='set x12']") == "7" and tab.text("#try-count") == ""


def test_case_is_tried_in_source(tabs: "Chrome", course: Served) -> None:
    """*Try* shows the source with its next line, also if that was out of sight and is the same one as before."""
    tab = Tab(tabs, course, "B5")
    choose(tab, "doubles")
    tab.run(TYPE, "# a comment\n" * 60 + "ret")
    for case, count in ((0, "8"), (1, "3")):
        tab.run("code().scrollTo(0, 0)")
        tab.run("all('#cases tbody button')[arguments[0]].click()", case)
        tab.wait("one(\"[data-edit='set x12']\")?.textContent === arguments[0]", count)
        tab.wait(f"!id('editor').hidden && {SIGNS} === '▶61' && {NEXT_IN_SIGHT}")


def test_check_by_key_unfolds_exercise(tabs: "Chrome", course: Served) -> None:
    """Ctrl Shift Enter does nothing while no exercise is open; it checks while one is folded, and its result is in sight then."""
    from selenium.webdriver.common.keys import Keys

    tab = Tab(tabs, course, "B3")
    tab.type(Keys.CONTROL, Keys.SHIFT, Keys.ENTER)
    tab.wait("id('key-says').textContent.startsWith('Check the source in all cases')")
    choose(tab, "doubles")
    tab.click("#fold-exercise")
    tab.type(Keys.CONTROL, Keys.SHIFT, Keys.ENTER)
    tab.wait("id('try-count').textContent === '1 try, best 1 of 5'")
    tab.wait(IN_SIGHT)
    tab.run("localStorage.clear()")


def test_exercise_is_solved(tabs: "Chrome", course: Served) -> None:
    """As a student does who sees only its text: with its first source, a mistake, hints, a lesson and an answer."""
    tab = Tab(tabs, course, "A1")
    choose(tab, "doubles")
    assert "Double a2 numbers of 32 bits" in tab.text("#exercise .text")
    assert tab.run("all('#exercise .text li').length") == 3 and not tab.run("one('#exercise .hints h3')")
    tab.wait("text()")
    assert "a0: address of the doubles" in tab.run("text()")  # and not a sample of something else
    tab.run(TYPE, "")
    tab.click("#start-over")
    tab.wait("text()")
    assert "a0: address of the doubles" in tab.run("text()") and not tab.run("id('editor').hidden")
    tab.run(TYPE, "ret\nvadd.vv v1, v2")
    tab.run("id('check').click()")
    tab.wait(
        "one('#mistakes button')?.textContent.startsWith('2:15: an operand is missing at the end; the form is vadd.vv vd')"
    )
    tab.wait(f"{VERDICT} === 'The source has problems.'")
    assert not tab.run("id('editor').hidden")
    assert tab.text("#try-count") == "" and not tab.run("one('#exercise .hints h3')")
    tab.click("#mistakes button")
    assert tab.run("code().indexFromPos(code().getCursor('from'))") == 18
    tab.run(TYPE, "ret")
    assert tab.text("#mistakes") == ""
    wrong = (OURS / "doubles" / "wrong" / "always_eight.s").read_text()
    check(tab, wrong, "It passes 2 of 5 cases.")
    assert tab.run("all('#exercise .hints li').length") == 1 and tab.run(IN_SIGHT)
    assert tab.run("all('#cases tbody tr').map((row) => row.className)") == [
        "passes", "fails", "fails", "passes", "fails"
    ]  # fmt: skip
    assert "element 3, i32 at 0x2010c: expected -1, found 80" in tab.text("#exercise .said")
    assert "All other registers have arbitrary values." in tab.text("#exercise .verdict")
    assert tab.run(BOXES, "#verdict .strip") == ["20", "-40", "60", "-1", "77", "88"]  # expected, and then found
    assert tab.run(BOXES, "#verdict .strip + .strip") == ["20", "-40", "60", "80", "100", "0"]
    assert tab.run("all('#verdict .wrong').map((box) => box.firstChild.data)") == ["80", "100", "0"]
    assert tab.text("#try-count") == "1 try, best 2 of 5" and tab.run("one('#course-list button').className") == "tried"
    assert tab.run("one('#cases [aria-current=true]').rowIndex") == 2
    assert tab.activate().execute_script(CONTRAST) == []
    tab.click("#exercise .verdict a")
    tab.browser.switch_to.window(tab.browser.window_handles[-1])
    lesson = tab.browser
    assert "always eight" not in lesson.title and "expected -1, found 80" in lesson.find_element("id", "sentence").text
    for _ in range(4):
        lesson.find_element("id", "next").click()
    assert "vse32.v v8, (a0)" in lesson.find_element("id", "step").text
    lesson.close()
    lesson.switch_to.window(tab.handle)


def test_problem_is_in_sight_after_check(tabs: "Chrome", course: Served) -> None:
    """On a tablet, which shows either the source or the list of problems."""
    tab = Tab(tabs, course, "B3")
    choose(tab, "doubles")
    try:
        resize(tab.activate(), SIZES["tablet"])
        tab.run(TYPE, "ret\n" * 40 + "vadd.vv v1, v2")
        tab.run("code().setCursor(0, 0), id('check').click()")
        tab.wait("one('.problems-below')?.checkVisibility()")
        assert "an operand is missing at the end; the form is vadd.vv vd" in tab.text(".problems-below")
        bottoms = "all('#editor .CodeMirror, .problems-below').map((each) => each.getBoundingClientRect().bottom)"
        editor, message = tab.run(bottoms)
        assert message <= editor
    finally:
        reset(tab.activate())


def test_exercise_is_solved_in_c(tabs: "Chrome", course: Served, sandboxed_clang: Compiler) -> None:
    """A choice of C gives another source to begin with; a mistake, a wrong answer at the desk, and a right one."""
    tab = Tab(tabs, course, "A6")
    choose(tab, "saturating_sum")
    tab.choose("#language", "C, O2")
    start = tab.run("text()")
    assert "void answer(int16_t *sums, const int16_t *first," in start
    tab.choose("#language", "C, O0")
    assert tab.run("text()") == start and tab.run("id('language').value") == "C, O0"
    tab.choose("#language", "C, O2")
    good = (OURS / "saturating_sum" / "good.c").read_text()
    tab.run(TYPE, good.replace("(first, vl)", "(frist, vl)"))
    tab.run("id('check').click()")
    tab.wait("one('#mistakes button')?.textContent.startsWith('7:48: use of undeclared identifier')")
    tab.wait(f"{VERDICT} === 'The source has problems.'")
    assert tab.text("#try-count") == "" and tab.text("#editor .problem") == "frist"
    check(tab, good.replace("vsadd", "vadd"), "It passes 2 of 5 cases.")
    assert "no room: element 0, i16 at 0x20200: expected 32767, found -32768" in tab.text("#exercise .said")
    tab.click("#exercise .verdict button")
    tab.wait("id('log').textContent.includes('> set x13 6')")
    assert "vl = __riscv_vsetvl_e16m8(count);" in tab.text("#machine")
    assert tab.text("#run") == "Ready" and tab.text("#step") == ""  # at the function's first instruction
    assert not tab.run("one('#registers .changed, #elements .changed')")  # by what sets up the case
    check(tab, good, "It passes all cases.")
    assert " instructions, and a good answer " in tab.text("#exercise .verdict")
    assert tab.activate().execute_script(CONTRAST) == []
    choose(tab, "strlen")
    assert "size_t answer(const uint8_t *text)" in tab.run("text()")


def test_passed_cases_are_shown(tabs: "Chrome", course: Served) -> None:
    """At the seat, where each exercise has a source of its own, and to the teacher, with each try."""
    tab = Tab(tabs, course, "A3")
    choose(tab, "doubles")
    wrong = (OURS / "doubles" / "wrong" / "always_eight.s").read_text()
    check(tab, wrong, "It passes 2 of 5 cases.")
    check(tab, (OURS / "doubles" / "good.s").read_text(), "It passes all cases.")
    assert "your answer executes 10 instructions, and a good answer 10." in tab.text("#exercise .verdict")
    tab.click("#verdict button")
    tab.wait(
        "id('exercise-text').firstChild.textContent === '2 Strip-mined copy with a tail' && !id('verdict').textContent"
    )
    assert "# bytes of this strip" in tab.run("text()")
    choose(tab, "doubles")
    assert "vadd.vv" in tab.run("text()")
    tab.choose("#exercise [aria-label='Earlier answers']", "try 1")
    tab.wait("text() === arguments[0]", wrong)
    assert tab.run("id('versions').options[1].textContent").endswith(" typed, Doubles")
    tab = Tab(tabs, course, "A3")  # a new one shows what was there
    tab.wait("text() === arguments[0]", wrong)
    choose(tab, "strip_mined_copy")
    assert "# bytes of this strip" in tab.run("text()")
    assert tab.run("one('#course-list .passed').textContent") == "1Doubles✓"
    other, teacher = Tab(tabs, course, "A7"), Tab(tabs, course, "teacher")
    choose(other, "doubles")
    check(other, "# A7's\nret", "It passes 1 of 5 cases.")
    teacher.wait("one(arguments[0])?.textContent === '✓2'", ANSWERS)
    teacher.click(ANSWERS)  # which looks at the seat
    teacher.wait("id('answer').textContent.includes('vadd.vv') && id('shoulder-title').textContent === 'seat A3'")
    assert teacher.run(ANSWER) == ["seat A3: Doubles", True]
    for seat, reason in (("A7", True), ("A8", False)):  # of the seat that is looked at, or none
        look_at(teacher, seat)
        teacher.wait("id('answer-title').textContent === arguments[0]", f"seat {seat}: Doubles")
        assert "vadd.vv" not in teacher.text("#answer") and bool(teacher.text("#answer-says")) == reason
    assert teacher.text("#answer") == "No answer was checked yet." and teacher.run("id('answer-try').hidden")
    look_at(teacher, "A3")
    teacher.wait("id('answer').textContent.includes('vadd.vv')")
    teacher.choose("#answer-try", "try 1")
    teacher.wait("id('answer').textContent.includes('vsetivli zero, 8')")
    assert teacher.activate().execute_script(CONTRAST) == []


def test_all_exercises_are_solved(tabs: "Chrome", course: Served) -> None:
    tab = Tab(tabs, course, "A2")
    for name in COURSE:
        choose(tab, name)
        check(tab, (OURS / name / "good.s").read_text(), "It passes all cases.")
    # after the last one
    assert tab.run("all('#course-list .passed').length") == 12 and not tab.run("one('#verdict button')")


def test_endless_answer_blocks_no_other_seat(tabs: "Chrome", course: Served) -> None:
    """Neither the others nor its own seat wait: its machine steps meanwhile; the seat gets the error."""
    tab, other = Tab(tabs, course, "A4"), Tab(tabs, course, "A5")
    for each in (tab, other):
        each.begin("addi x5, x5, 1", "jal x0, -4")
    choose(tab, "doubles")
    tab.run("code().setValue('next: j next')")
    tab.run("id('check').click()")
    for each in (tab, other):
        each.command("step 1")  # the button would load the changed source
        each.wait("id('step').textContent.includes('addi t0, t0, 1')")
    tab.wait(f"{VERDICT} === 'It passes 0 of 5 cases.'")
    assert tab.text("#exercise .said") == (
        "eight: it hasn't ended after 2,000 ticks (an instruction takes at least one); it is at line 1"
    )


def test_panel_can_be_closed(tabs: "Chrome", course: Served) -> None:
    """It has a place next to the program; folded to a rail, the program has its width, and the browser keeps that."""
    tab = Tab(tabs, course, "A3")
    width = "id('program').getBoundingClientRect().width"
    tab.wait("!id('exercise').hidden")
    narrow = tab.run(width)
    tab.click("#fold-exercise")
    assert tab.run("!id('exercise').checkVisibility()") and tab.run(width) > narrow + 50
    tab.activate().refresh()
    tab.wait("!id('exercise').hidden && id('unfold-exercise').checkVisibility()")
    tab.click("#unfold-exercise")
    assert (
        tab.run("id('exercise').checkVisibility() && !id('unfold-exercise').checkVisibility()")
        and tab.run(width) == narrow
    )


def test_class_without_exercises_shows_none(tabs: "Chrome", served: Served) -> None:
    tab = Tab(tabs, served, "A1")
    assert tab.run("id('exercise').hidden") and not re.search("Exercise", tab.run("id('head').innerText"))
    teacher = Tab(tabs, served, "teacher")
    assert teacher.run("all('#columns button').length") == 0
