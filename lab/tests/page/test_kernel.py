"""Lessons in C, in Chromium: the tour's kernel from line to line, and its variables; and listings side by side."""

import pathlib
from dataclasses import replace
from typing import TYPE_CHECKING

import pytest

from support.browser import CONTRAST, media, press
from support.tour_kernel import KERNEL
from vecmon_lab.instructions.table import ABI_NAMES
from vecmon_lab.lessons.frames import make_frames
from vecmon_lab.lessons.listings import CompiledListing, listings_page
from vecmon_lab.lessons.page import lesson_page
from vecmon_lab.lessons.tour import tours

if TYPE_CHECKING:
    from selenium.webdriver import Chrome

VARIABLES = """return Object.fromEntries([...document.querySelectorAll("#variables tr")].map((row) =>
    [row.children[0].innerText, [row.children[1].innerText, row.children[2].innerText]]))"""
MEMORY = """return [...document.querySelectorAll("#bytes tr")].map((row) =>
    [...row.children].map((cell) => cell.innerText.trim()))"""


@pytest.fixture
def kernel(browser: "Chrome", program: pathlib.Path, tmp_path: pathlib.Path) -> "Chrome":
    """The lesson of the tour's kernel."""
    script = tours()[KERNEL]
    frames = make_frames(script, program)
    page = lesson_page("x", frames, script)
    return opened(browser, tmp_path, page)


def opened(browser: "Chrome", folder: pathlib.Path, page: str) -> "Chrome":
    """Open a page; earlier messages of the browser's console are dropped."""
    (folder / "page.html").write_text(page, "utf-8")
    browser.get("about:blank")
    browser.get_log("browser")
    browser.get((folder / "page.html").as_uri())
    return browser


def line_shown(browser: "Chrome") -> int:
    """The number of the line that is marked."""
    text: str = browser.execute_script("return document.querySelector('#listing .here .source').textContent")
    return int(text.split()[0])


def test_numbers_have_the_sign_of_the_c_types(browser: "Chrome", program: pathlib.Path, tmp_path: pathlib.Path) -> None:
    """Those of the kernel, int32_t, and others in their place."""
    script = tours()[KERNEL]
    page = lesson_page("x", make_frames(replace(script, steps=script.steps[:2]), program), script)
    assert '"element":"i32"' in page
    for element, form in (("i32", "signed"), ("u32", "unsigned")):
        opened(browser, tmp_path, page.replace('"element":"i32"', f'"element":"{element}"'))
        assert browser.execute_script("return document.querySelector('#form').value") == form


def test_kernel_steps_by_line(kernel: "Chrome") -> None:
    """The lesson starts at the first vector instruction: two rounds of the loop, of 8 and of 2 elements."""
    from selenium.webdriver.common.keys import Keys

    lines = []
    count = "return document.querySelector('#count').textContent"
    while (before := kernel.execute_script(count)) is not None:
        press(kernel, Keys.ARROW_DOWN)
        if kernel.execute_script(count) == before:
            break
        lines.append(line_shown(kernel))
    assert lines[0] == 9 and not {17, 18, 19, 20} & {*lines}
    assert [line for line in lines if line in (9, 10, 11, 12)] == 2 * [9, 10, 11, 12] and lines[-1] == 24
    for line in reversed(lines[:-1]):
        press(kernel, Keys.ARROW_UP)
        assert line_shown(kernel) == line
    kernel.find_element("id", "line-next").click()
    kernel.find_element("id", "line-back").click()
    assert line_shown(kernel) == lines[0]
    kernel.find_element("id", "line-next").click()
    kernel.find_element("id", "next").click()
    assert "10  vint32m1_t sum = " in kernel.execute_script("return document.querySelector('#step').textContent")
    assert kernel.get_log("browser") == []


def test_variables_follow_current_line(kernel: "Chrome") -> None:
    """Before a round stores, by hand: 3 times x is added to y from 0 on, and from 8 on."""
    from selenium.webdriver.support.select import Select

    Select(kernel.find_element("id", "line")).select_by_value("12")
    y = int(next(address for address, names in tours()[KERNEL].labels.items() if names == ["y"]), 16)
    for count, length, at in ((10, 8, y), (2, 2, y + 32)):
        kernel.find_element("id", "line-go").click()
        assert line_shown(kernel) == 12
        shown = kernel.execute_script(VARIABLES)
        assert shown["size_t count"][0] == f"{count}" and shown["size_t count"][1] in ABI_NAMES.values()
        assert shown["size_t length"][0] == f"{length}" and shown["int32_t *to"][0] == f"0x{at:x}"
        assert shown["vint32m1_t sum"] == shown["int32_t factor"] == ["", "optimized out"]
        assert shown["int32_t y[10]"] == ["", f"at 0x{y:x}"]
    kernel.find_element("id", "line-go").click()
    assert kernel.execute_script(VARIABLES)["size_t count"][0] == "10"
    kernel.find_element("id", "last").click()
    rows = kernel.execute_script(MEMORY)
    place = rows.index(["int32_t y[10]:"])
    numbers = [number for row in rows[place + 1 :] for cell in row[1:-1] for number in cell.split()]
    first = numbers.index("100")
    assert numbers[first : first + 10] == [f"{number}" for number in range(100, 120, 2)]
    assert "size_t count" not in kernel.execute_script(VARIABLES)


@pytest.mark.parametrize("scheme", ["light", "dark"])
def test_kernel_page_has_contrast_and_width(kernel: "Chrome", scheme: str) -> None:
    media(kernel, prefers_color_scheme=scheme, prefers_reduced_motion="reduce")
    for _ in range(3):
        kernel.find_element("id", "line-go").click()
        assert kernel.execute_script(CONTRAST) == []
    for width in (1280, 800, 640):
        size = {"width": width, "height": 800, "deviceScaleFactor": 1, "mobile": False}
        kernel.execute_cdp_cmd("Emulation.setDeviceMetricsOverride", size)
        assert kernel.execute_script("return document.documentElement.scrollWidth") <= width
    kernel.execute_cdp_cmd("Emulation.clearDeviceMetricsOverride", {})
    media(kernel)


def test_listings_are_side_by_side(browser: "Chrome", tmp_path: pathlib.Path) -> None:
    one = CompiledListing(
        "one <b>",
        ["4 instructions in 4 ticks"],
        [("10", 1, "", "addi x1, x0, 1", 1, 0, 0, 0), ("18", 1, "f", "vadd.vv v1, v2, v3", 3, 12, 6, 6)],
    )
    other = CompiledListing("other", [], [("20", 2, "", "ecall", 0, 0, 0, 0)])
    opened(browser, tmp_path, listings_page("<i>", "a = 1; // <u>\nb();\n", [one, other]))
    rows = browser.execute_script(
        "return [...document.querySelectorAll('#rows > tbody > tr')].map((row) => row.innerText)"
    )
    assert [row.split() for row in rows] == [
        ["1", "a", "=", "1;", "//", "<u>"],
        ["Instructions", "1", "10", "addi", "x1,", "x0,", "1", "⋯", "3", "18", "vadd.vv", "v1,", "v2,", "v3", "f"],
        ["2", "b();"],
        ["Instructions", "0", "20", "ecall"],
        ["3"],
    ]
    shares = (
        "return [...document.querySelectorAll('.elements span')].map((span) => [span.className, span.style.flexBasis])"
    )
    assert browser.execute_script(shares) == [["active", "50%"], ["masked", "25%"], ["tail", "25%"]]
    assert browser.execute_script(CONTRAST) == [] and browser.get_log("browser") == []
