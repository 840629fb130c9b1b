"""The wall, and codes on the teacher's page, in Chromium."""

import base64
import pathlib
from collections.abc import Iterator
from typing import TYPE_CHECKING

import pytest

from page.conftest import Sit
from support.browser import CONTRAST, media
from support.class_pages import PANES, Served, Tab, dialog, look_at

if TYPE_CHECKING:
    from selenium.webdriver import Chrome

ADDRESS = "http://class.school.example/"
PAGE = "document.documentElement.outerHTML"
# Keeps all frames of the page's sockets, and counts what is stored.
KEEP = """window.told = []; window.WebSocket = class extends WebSocket {
    constructor(...words) { super(...words); this.addEventListener("message", ({ data }) => told.push(data)); }
    send(data) { told.push(data); super.send(data); } };"""


@pytest.fixture(scope="module")
def served(program: pathlib.Path, tmp_path_factory: pytest.TempPathFactory) -> Iterator[Served]:
    """A class that knows where students reach it."""
    served = Served(tmp_path_factory.mktemp("class") / "class", program, "--address", ADDRESS)
    yield served
    served.end()


def test_codes_are_shown_and_printed(sit: Sit, served: Served) -> None:
    """The teacher's page shows codes on request: one, all, or on a sheet to print, with pictures."""
    teacher, codes = sit("teacher"), served.codes
    teacher_code = codes.pop("teacher")
    seats = [f"A{number}" for number in range(1, 9)]

    def seen() -> list[str]:
        page = teacher.run(PAGE)
        return [name for name, code in codes.items() if code in page]

    assert seen() == []
    teacher.click("[data-dialog='join-class']")
    for _ in range(2):
        teacher.click("[aria-label='Code for seat A3']")
        teacher.wait("one(\"[data-code='A3'] a\")?.href === arguments[0]", f"{ADDRESS}#{codes['A3']}")
        assert seen() == ["A3"]
        teacher.click("[aria-label='Code for seat A3']")
        assert seen() == []
    teacher.click("#show-codes")
    teacher.wait("one('[data-code=wall]').textContent.includes(arguments[0])", codes["wall"])
    assert teacher.run("all('#codes a').map((link) => link.textContent)") == [codes[seat] for seat in [*seats, "wall"]]
    teacher.click("#show-codes")
    assert seen() == []
    teacher.click("#open-sheet")
    teacher.wait("all('#slips img').length === 8 && all('#slips img').every((image) => image.complete)")
    assert teacher.run("all('#slips img').every((image) => image.naturalWidth > 0 && image.offsetWidth > 100)")
    slips = teacher.run("all('#slips li').map((slip) => slip.innerText.split(/\\s*\\n\\s*/))")
    assert slips == [[f"Seat {seat}", ADDRESS, codes[seat]] for seat in seats]
    assert teacher.run("!id('teacher').checkVisibility() && !id('sheet-says').checkVisibility()")
    reply = teacher.browser.execute_cdp_cmd("Page.printToPDF", {"paperWidth": 8.27, "paperHeight": 11.69})["data"]
    assert base64.b64decode(reply).count(b"/Type /Page\n") == 1
    assert seen() == seats and teacher_code not in teacher.run(PAGE)
    teacher.click("#close-sheet")
    assert seen() == [] and teacher.run("id('teacher').checkVisibility()")
    stored = teacher.run("Object.entries({ ...sessionStorage, ...localStorage })")
    assert [value for name, value in stored if name != PANES] == [teacher_code]


def _check_layout(wall: Tab) -> None:
    """Six lines and the vectors fill each screen, in large letters and with contrast."""
    rows = """((box) => all('#listing tr[data-address]').filter((row) => row.getBoundingClientRect().top >= box.top - 2 &&
        row.getBoundingClientRect().bottom <= box.bottom + 2))(id('listing').getBoundingClientRect())"""
    try:
        for width, height, letters in ((1920, 1080, 25), (1024, 768, 15), (1280, 800, 19), (3840, 2160, 51)):
            size = {"width": width, "height": height, "deviceScaleFactor": 1, "mobile": False}
            wall.activate().execute_cdp_cmd("Emulation.setDeviceMetricsOverride", size)
            wall.wait("innerWidth === arguments[0] && innerHeight === arguments[1]", width, height)
            wall.wait(
                f"{rows}.length === 6 && {rows}.filter((row) => /^100(2c|30)$/.test(row.dataset.address)).length === 2"
            )
            for box in ("#elements", "#listing"):
                where = wall.run("one(arguments[0]).getBoundingClientRect().toJSON()", box)
                assert 0 <= where["top"] < where["bottom"] <= height and 0 <= where["left"] < where["right"] <= width
                assert float(wall.run("getComputedStyle(one(`${arguments[0]} table`)).fontSize", box)[:-2]) >= letters
            assert wall.run("id('elements').scrollWidth <= id('elements').clientWidth")
            assert not wall.run("all('.status, .detail, .state, .dock').some((each) => each.checkVisibility())")
        for scheme in ("light", "dark"):
            media(wall.browser, prefers_color_scheme=scheme, prefers_reduced_motion="reduce")
            assert wall.browser.execute_script(CONTRAST) == []
    finally:
        media(wall.browser)
        wall.browser.execute_cdp_cmd("Emulation.clearDeviceMetricsOverride", {})


def test_wall_shows_seat_without_codes(tabs: "Chrome", served: Served) -> None:
    """It fills the screen with vectors and six lines; no other code is in its page, state, frames or address."""
    codes = served.codes
    tab, teacher = Tab(tabs, served, "A7"), Tab(tabs, served, "teacher")
    wall = Tab(tabs, served, "wall", KEEP)
    assert "shows no seat" in wall.text("#who") and not wall.run("id('desk').checkVisibility()")
    assert (
        wall.run("all('#machine .missing').map((each) => each.textContent).join('')") == "This seat has no machine yet."
    )
    tab.begin("vsetivli x0, 8, e16, m2, ta, ma", *["vadd.vi v2, v2, 3"] * 20)
    look_at(teacher, "A7")
    teacher.click("#on-wall")
    wall.wait("id('who').textContent === 'Seat A7' && id('desk').checkVisibility()")
    tab.run("id('number').value = 12")
    tab.click("#many")
    wall.wait("one('#listing .told')?.dataset.address === '1002c'")
    _check_layout(wall)
    with dialog(teacher, "join-class"):
        teacher.click("#show-codes")
        teacher.click("[aria-label='New code for seat A2']")
        teacher.click("#yes")
        shown = "one(\"[data-code='A2'] a\")?.hash"
        teacher.wait(f"{shown} && {shown} !== '#' + arguments[0]", codes["A2"])
    tab.click("#one")
    wall.wait("one('#listing .told')?.dataset.address === '10030'")
    everywhere = [*wall.run("told"), wall.run(PAGE), *wall.run("[location.href, document.cookie, document.referrer]")]
    everywhere += wall.run("Object.values({ ...sessionStorage, ...localStorage, ...history.state })")
    others = {code for name, code in (*codes.items(), *served.codes.items()) if name != "wall"}
    assert len(others) == 10 and len(everywhere) > 8
    assert not [code for code in others for text in everywhere if code in text]
    assert not wall.run("all('button, input, textarea').some((each) => each.checkVisibility())")
    teacher.click("#on-wall")
    wall.wait("!id('desk').checkVisibility()")
    with dialog(teacher, "join-class"):
        teacher.click("#show-codes")


def test_wall_reconnects_to_new_server(tabs: "Chrome", own_class: Served) -> None:
    """It goes on without a reload, since the teacher's page says again what it shows."""
    tab, teacher, wall = (Tab(tabs, own_class, role) for role in ("A1", "teacher", "wall"))
    tab.begin("vid.v v1")
    look_at(teacher, "A1")
    teacher.click("#on-wall")
    wall.wait("id('who').textContent === 'Seat A1'")
    own_class.kill()
    wall.wait("id('gone').textContent.includes('is gone')")
    own_class.begin()
    teacher.wait("id('gone').hidden && id('on-wall').ariaPressed === 'true'")
    wall.wait("id('gone').hidden && id('who').textContent === 'Seat A1' && id('listing').textContent.includes('vid.v')")
    teacher.click("#on-wall")
    wall.wait("id('who').textContent.includes('no seat')")
