"""Main states of the pages, for tests that look at all of them: those of a student's page, and pages that are files."""

import pathlib
from collections.abc import Callable, Mapping

from support.class_pages import Tab
from support.commands import Lab
from support.places import SUM
from vecmon_lab.exercises.course import CourseEntry, course_page
from vecmon_lab.exercises.exercise import OURS, read_exercise
from vecmon_lab.lessons.listings import CompiledListing, listings_page
from vecmon_lab.lessons.series import make_series
from vecmon_lab.lessons.tour import tour_page, tours

SOURCE = """# Half of the numbers below 0.
        la      a1, numbers             # a comment that is so long that it is wider than the pane of the source is on any screen
        vsetvli t0, zero, e32, m2, ta, mu
        vle32.v v8, (a1)
        vmslt.vx v0, v8, zero
        vsra.vi v8, v8, 1, v0.t
        vse32.v v8, (a1)
        ebreak
        .data
numbers: .word 100, -100, 7, -7, 0, -1, 250, -64, 100000, -2147483648, 3, -3, 12, 14, -14, 1
"""
PROBLEMS = """        vsetvli t0, a2, e32
        vaddd.vv v1, v2, v3
        vadd.vv v1, v2
        j nowhere
"""
TYPE = "code().setValue(arguments[0])"
NEW_PROGRAM = "one('#listing .next') && !one('#listing .told') && !id('many').disabled"  # before its first instruction
VERDICT = "one('#exercise .verdict h3')?.textContent"


def step(tab: Tab, steps: int = 6) -> None:
    """Assemble the source, and execute instructions of it."""
    tab.run(TYPE, SOURCE)
    tab.run("id('assemble').click()")
    tab.wait(NEW_PROGRAM)
    tab.run("(id('number').value = arguments[0], id('many').click())", steps)
    tab.wait("one('#listing .told')")


def wait_for_exercises(tab: Tab) -> None:
    """Wait until the page shows the exercises of the class."""
    tab.wait("!id('exercise').hidden")


def make_problems(tab: Tab) -> None:
    """Assemble a source with mistakes."""
    tab.run(TYPE, PROBLEMS)
    tab.run("id('assemble').click()")
    tab.wait("all('#mistakes li').length > 2")


def open_first_exercise(tab: Tab) -> None:
    """Open the first exercise of the course, which is *Doubles*."""
    button = "#course-list li:first-child button"
    tab.wait("one(arguments[0])?.checkVisibility()", button)
    if tab.run("one(arguments[0]).ariaCurrent", button) != "true":
        tab.run("one(arguments[0]).click()", button)
        tab.wait("one(arguments[0]).ariaCurrent === 'true' && id('check').checkVisibility()", button)


def fail_exercise(tab: Tab) -> None:
    """Check an answer that fails some cases."""
    open_first_exercise(tab)
    tab.run(TYPE, (OURS / "doubles" / "wrong" / "always_eight.s").read_text())
    tab.run("id('check').click()")
    tab.wait(f"{VERDICT} === 'It passes 2 of 5 cases.'")


def step_in_c(tab: Tab) -> None:
    """Compile a source in C, and execute lines of it."""
    tab.run(
        "((list) => (list.value = 'C, O0', list.onchange?.(), list.dispatchEvent(new Event('change'))))(id('language'))"
    )
    tab.run(TYPE, "int sum = 0;\nint main() {\n  for (int at = 1; at < 4; at++) sum += at;\n  return sum;\n}\n")
    tab.run("id('assemble').click()")
    tab.wait(f"{NEW_PROGRAM} && id('listing').textContent.includes('sum += at')")
    tab.run("(id('number').value = 3, id('many').click())")
    tab.wait("one('#listing .told')")


# States of one tab, in this order.
STUDENT: Mapping[str, Callable[[Tab], None]] = {
    "first": wait_for_exercises,
    "problems": make_problems,
    "failed cases": fail_exercise,
    "stepped": step,
    "C": step_in_c,
}


def write_pages(lab: Lab, program: pathlib.Path, folder: pathlib.Path) -> dict[str, str]:
    """Write a lesson, indexes of a tour and a course, listings and a profile as files, and return the address of each state by name."""
    script = tours()["masks_and_tails"]
    pages, entries = make_series("tour", program, {"masks_and_tails": (script, "What masks and tails do.")})
    exercise = read_exercise(OURS / "doubles")
    listing = CompiledListing("C, O2", ["4 instructions"], [("10", 1, "f", "vadd.vv v1, v2, v3", 3, 12, 6, 6)])
    texts = {
        "lesson": pages[0][2],
        "tour": tour_page("A tour", entries),
        "course": course_page("A course", [CourseEntry(exercise, "10", entries[0])], ""),
        "listings": listings_page("Side by side", "a = 1;\nb();\n", [listing, listing]),
    }
    for name, text in texts.items():
        (folder / f"{name}.html").write_text(text, "utf-8")
    assert lab("profile", "-o", folder / "profile.html", SUM)[0] == 0
    addresses = {name: (folder / f"{name}.html").as_uri() for name in (*texts, "profile")}
    return addresses | {"instruction of a lesson": f"{addresses['lesson']}#9"}
