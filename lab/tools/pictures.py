"""The pictures of the pages: `python lab/tools/pictures.py docs/pictures`, with VECMON as for the lab.

Writes steps.gif, lesson.png, listings.png, student.png, teacher.png, wall.png, exercise.png, kernel.png and explore.png to
the folder: Chromium's pictures of a lesson, of listings side by side and of classes, in light colours, 1280 pixels wide.
steps.gif steps through six instructions of the lesson, with its masked one. In one class six students work at exercises and
programs, and the teacher looks over the shoulder of the third, whose seat is on the wall as well. In another one a student
tries the case in which an answer fails, and in a third one, and on a page of `explore`, sources in C are stepped.
"""

import base64
import io
import pathlib
import subprocess
import sys
import tempfile
from typing import TYPE_CHECKING

from support.browser import browser_with
from support.class_pages import FRAME, Explored, Served, Tab, look_at
from support.places import EXAMPLES, TOP
from vecmon_lab.exercises.exercise import OURS
from vecmon_lab.machine.program import find_program

if TYPE_CHECKING:
    from selenium.webdriver import Chrome

WIDTH, HEIGHT, TALL, WALL_HEIGHT, LISTINGS_HEIGHT = 1280, 800, 880, 720, 1100
EXAMPLE = EXAMPLES / "strip_mined.s"
MASKED = 22  # of the example's instructions, the masked one in the loop's second round
STEPS = range(MASKED - 3, MASKED + 3)  # frames of the lesson: from the round's vsetvli to its store
STEP_TIME, MASKED_TIME = 1500, 4000  # of a frame of steps.gif, in milliseconds
GREY = EXAMPLES / "kernels" / "grey.c"
COUNT_UP = ["addi x5, x5, 1", "jal x0, -4"]
EXERCISE, WRONG = "clamped_magnitude", OURS / "clamped_magnitude" / "wrong" / "without_the_mask.s"
COURSE = ["doubles", "strip_mined_copy", "saturating_sum", EXERCISE]  # of the class with a teacher
ANSWERS = ["doubles/good.s", "strip_mined_copy/wrong/one_round.s", "strip_mined_copy/good.s"]  # checked in this order
ANSWERED = [2, 3, 2, 0, 1, 3]  # of these by each student
MESSAGE = "Elements 1 and 3 keep their values. Which bits of v0 decide that?"
ODD_GROUP = ["vsetivli x0, 8, e32, m2, ta, ma", "vadd.vv v3, v2, v4"]


def give_room(browser: "Chrome", height: int) -> None:
    """Makes the page before all others as wide as the pictures, and so high."""
    size = {"width": WIDTH, "height": height, "deviceScaleFactor": 1, "mobile": False}
    browser.execute_cdp_cmd("Emulation.setDeviceMetricsOverride", size)


def screenshot(browser: "Chrome", height: int) -> bytes:
    """Return a PNG of the upper part of the foremost page, `height` pixels high."""
    away = {"type": "mouseMoved", "x": 1, "y": 1}
    browser.execute_cdp_cmd("Input.dispatchMouseEvent", away)  # so that the pointer marks nothing
    browser.execute_script("document.activeElement.blur()")
    browser.execute_async_script(FRAME)
    clip = {"x": 0, "y": 0, "width": WIDTH, "height": height, "scale": 1}
    capture = browser.execute_cdp_cmd("Page.captureScreenshot", {"clip": clip})
    return base64.b64decode(capture["data"])


def save(browser: "Chrome", path: pathlib.Path, height: int) -> None:
    """A picture of the upper part of the page before all others."""
    path.write_bytes(screenshot(browser, height))


def open_page(browser: "Chrome", folder: pathlib.Path, *words: str | pathlib.Path, place: str = "") -> None:
    """The page that `vecmon-lab lesson` makes by words."""
    page = folder / "lesson.html"
    subprocess.run([sys.executable, "-m", "vecmon_lab", "lesson", *words, "-o", page], check=True, cwd=TOP)
    browser.get("about:blank")
    browser.get(f"{page.as_uri()}{place}")


def picture_steps(browser: "Chrome", path: pathlib.Path) -> None:
    """Write an animated GIF of the open lesson, which shows each frame of STEPS in turn."""
    from PIL import Image

    frames, page = [], browser.current_url.partition("#")[0]
    for number in STEPS:
        browser.get("about:blank")
        browser.get(f"{page}#{number}")
        frame = Image.open(io.BytesIO(screenshot(browser, HEIGHT))).convert("RGB")
        frames.append(frame.quantize(256, dither=Image.Dither.NONE))
    times = [MASKED_TIME if number == MASKED + 1 else STEP_TIME for number in STEPS]
    frames[0].save(path, save_all=True, append_images=frames[1:], duration=times, loop=0, optimize=False)


def drag(tab: Tab, name: str, pixels: int) -> None:
    """Move the bar between two panes by keys. pixels: to the right or down; a multiple of 16"""
    from selenium.webdriver.common.keys import Keys

    is_column = tab.run("id(arguments[0]).ariaOrientation === 'vertical'", name)
    towards = (Keys.ARROW_LEFT, Keys.ARROW_RIGHT) if is_column else (Keys.ARROW_UP, Keys.ARROW_DOWN)
    tab.keys(f"#{name}", towards[pixels > 0] * (abs(pixels) // 16))


def check_answer(tab: Tab, answer: str) -> None:
    """Check an answer to an exercise of COURSE, and wait for the result."""
    exercise, _, name = answer.partition("/")
    button = f"#course-list li:nth-child({COURSE.index(exercise) + 1}) button"
    tab.click(button)
    tab.wait("one(arguments[0]).ariaCurrent === 'true' && !id('course-list').inert", button)
    tab.write((OURS / answer).read_text("utf-8"))
    tab.click("#check")
    tab.wait("one(arguments[0]).className === arguments[1]", button, "passed" if name == "good.s" else "tried")


def seat_students(browser: "Chrome", served: Served) -> Tab:
    """A program that counts, one that has ended, a masked instruction, an illegal one, an EBREAK, a text with a mistake."""
    tabs = [Tab(browser, served, f"A{number}") for number in range(1, 7)]
    for tab, count in zip(tabs, ANSWERED):
        give_room(tab.activate(), HEIGHT)
        for answer in ANSWERS[:count]:
            check_answer(tab, answer)
    programs: list[list[str]] = [COUNT_UP, [], [], ODD_GROUP, ["vid.v v1", "ebreak"], ["vid.v v1"]]
    for tab, program, name in zip(tabs, programs, ["Ada", "Bela", "Chiara", "", "Emil", "Fatma"]):
        tab.click("#menu summary")
        tab.keys("#name", f"{name}\n")
        tab.begin(*program)
    tabs[0].command("go")
    tabs[1].command("load sum", "go")
    tabs[2].run("(code().setValue(arguments[0]), id('assemble').click())", EXAMPLE.read_text("utf-8"))
    tabs[2].wait("id('listing').textContent.includes('next:') && !id('listing').hidden")
    tabs[2].command(f"step {MASKED - 1}", "asm 10044 vadd.vv v1, v2")
    tabs[3].command("step 2")
    tabs[4].command("setpc 10004", "step 1")
    tabs[4].click("#hand")
    tabs[5].command("set x0 1")
    return tabs[2]


def picture_class(browser: "Chrome", served: Served, folder: pathlib.Path) -> None:
    """The pages of the third student, of the teacher, who looked on while that student stepped, and of the wall."""
    student = seat_students(browser, served)
    student.click("#fold-exercise")
    drag(student, "split-state", -64)  # so that all registers are in sight
    drag(student, "split-dock", -64)
    teacher = Tab(browser, served, "teacher")
    give_room(browser, HEIGHT)
    look_at(teacher, "A3")
    teacher.click("#on-wall")
    wall = Tab(browser, served, "wall")
    give_room(browser, WALL_HEIGHT)
    browser.refresh()  # so that the rows in sight are whole
    wall.wait("id('who').textContent === 'Seat A3'")
    student.command("step 1")
    save(student.activate(), folder / "student.png", HEIGHT)
    teacher.wait("id('step').textContent.includes('v0.t')")
    teacher.keys("#words", MESSAGE)
    save(browser, folder / "teacher.png", HEIGHT)
    wall.wait("id('step').textContent.includes('v0.t')")
    save(browser, folder / "wall.png", WALL_HEIGHT)


def picture_exercise(browser: "Chrome", served: Served, folder: pathlib.Path) -> None:
    """The page of a student whose answer fails, and who steps it with what the failed case gives."""
    tab = Tab(browser, served, "A1")
    give_room(browser, TALL)  # so that the numbers of the failed case are in sight
    drag(tab, "split-exercise", 96)
    tab.click("#course-list button")
    tab.wait("id('check').checkVisibility()")
    tab.run("(code().setValue(arguments[0]), id('assemble').click())", WRONG.read_text("utf-8"))
    tab.wait("id('listing').textContent.includes('vminu') && !id('listing').hidden")
    tab.click("#show-source")
    tab.click("#check")
    tab.wait("one('#verdict .wrong')")
    tab.click("#verdict button.main")
    tab.wait("/131072|20000/.test(id('registers').textContent)")
    tab.command("step 7", "step 1")
    save(browser, folder / "exercise.png", TALL)


def picture_kernels(browser: "Chrome", served: Served, own: Served, folder: pathlib.Path) -> None:
    """A student's page and a private page: in C the instructions next to their lines, and the line in the source."""
    for page, kernel, mark, name in (
        (served, "saxpy", "__riscv_vmacc", "kernel"),
        (own, GREY.stem, "vwmaccu", "explore"),
    ):
        text = (GREY.parent / f"{kernel}.c").read_text("ascii")
        tab = Tab(browser, page, "A2" if page is served else "A1")
        give_room(browser, TALL)
        tab.choose("#language", "C, O2")
        tab.run("(code().setValue(arguments[0]), id('assemble').click())", text)
        tab.wait("id('editor').hidden && one('#listing .next')")
        line = next(number for number, each in enumerate(text.split("\n"), 1) if mark in each)
        address = tab.run(
            "all('#listing tr').find((row) => row.textContent.includes(arguments[0])).dataset.address", f"{line}  "
        )
        tab.command(f"break {address}", "go")
        tab.wait("one('#run').textContent === 'Paused'")
        tab.command("step 1")
        drag(tab, "split-middle", 160)
        drag(tab, "split-state", 32 if name == "explore" else -32)  # all elements, or all variables, are in sight
        tab.click("#fold-dock")
        if name == "explore":
            tab.choose("#form", "unsigned")
        else:
            tab.command("step 1")
            tab.click("#show-variables")
        save(browser, folder / f"{name}.png", TALL)


def main(folder: pathlib.Path) -> None:
    with browser_with("hide-scrollbars", "force-prefers-reduced-motion") as browser:
        give_room(browser, HEIGHT)
        make(browser, folder)


def make(browser: "Chrome", folder: pathlib.Path) -> None:
    """Make all pictures in a folder."""
    with tempfile.TemporaryDirectory() as room:
        open_page(browser, pathlib.Path(room), EXAMPLE, place=f"#{MASKED + 1}")  # at its masked instruction
        save(browser, folder / "lesson.png", HEIGHT)
        picture_steps(browser, folder / "steps.gif")
        open_page(browser, pathlib.Path(room), EXAMPLES / "kernels" / "plain_sum.c", "--against", "O2-scalar")
        give_room(browser, LISTINGS_HEIGHT)
        save(browser, folder / "listings.png", LISTINGS_HEIGHT)
        exercises = [word for name in COURSE for word in ("--exercise", name)]
        served = Served(pathlib.Path(room) / "monday", find_program(), *exercises, clock=True)
        course = Served(
            pathlib.Path(room) / "course", find_program(), "--cc", "clang-19", "--exercise", EXERCISE, takes_c=True
        )
        own = Explored(pathlib.Path(room) / "own", find_program(), GREY, "--cc", "clang-19")
        kernels = Served(pathlib.Path(room) / "kernels", find_program(), "--cc", "clang-19", clock=True, takes_c=True)
        try:
            picture_kernels(browser, kernels, own, folder)
            picture_exercise(browser, course, folder)
            picture_class(browser, served, folder)
        finally:
            served.end()
            course.end()
            own.end()
            kernels.end()


if __name__ == "__main__":
    main(pathlib.Path(sys.argv[1]))
