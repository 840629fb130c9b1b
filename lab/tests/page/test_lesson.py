"""Lessons in Chromium: forwards and backwards, compared with the machine's answers to the same steps."""

import json
import pathlib
import re
from collections.abc import Callable
from typing import TYPE_CHECKING

import pytest

from support.browser import CONTRAST, media, press
from support.busy_host import PATIENCE
from support.lesson_follower import PICTURE, Follower
from support.places import EXAMPLES
from vecmon_lab.exercises.answer import settled
from vecmon_lab.exercises.check import lesson
from vecmon_lab.exercises.exercise import OURS, read_exercise
from vecmon_lab.lessons.frames import make_frames
from vecmon_lab.lessons.page import lesson_page
from vecmon_lab.lessons.script import read_assembled, read_script
from vecmon_lab.lessons.series import Entry
from vecmon_lab.lessons.series_links import Series
from vecmon_lab.lessons.strip import Strip
from vecmon_lab.lessons.tour import tour_page, tours
from vecmon_lab.machine.session import Session

if TYPE_CHECKING:
    from selenium.webdriver import Chrome


@pytest.fixture
def opened(browser: "Chrome", tmp_path: pathlib.Path) -> Callable[[str], "Chrome"]:
    """Open a page; earlier messages of the browser's console are dropped."""

    def show(page: str) -> "Chrome":
        (tmp_path / "page.html").write_text(page, "utf-8")
        browser.get("about:blank")
        browser.get_log("browser")
        browser.get((tmp_path / "page.html").as_uri())
        return browser

    return show


def text_of(browser: "Chrome", selector: str) -> str:
    """The text of the first element that a selector names."""
    text: str = browser.execute_script("return document.querySelector(arguments[0]).textContent", selector)
    return text


@pytest.mark.parametrize("name", [*tours(), "strip_mined"])
def test_lesson_steps_forwards_and_backwards(
    opened: Callable[[str], "Chrome"], session: Session, program: pathlib.Path, name: str, tmp_path: pathlib.Path
) -> None:
    from selenium.webdriver.common.keys import Keys

    source = EXAMPLES / f"{name}.s"
    script = read_assembled(source.read_text("utf-8"), "x") if name == "strip_mined" else tours()[name]
    browser = opened(lesson_page(name, make_frames(script, program)))
    frames = json.loads(text_of(browser, "#lesson"))["frames"]
    follower, pictures, masked = Follower(session), [], 0
    for number, frame in enumerate(frames, 1):
        count, picture, groups, shown = browser.execute_async_script(PICTURE)
        assert count == f"{number} of {len(frames)}"
        pictures.append(picture)
        reply = follower.state_after(frame)
        if reply:
            for register, group in groups.items() if not reply.is_partial else []:
                assert group["cells"] >= reply.vlmax or not group["isResult"]  # others are as an earlier type has them
                assert group["tail"] == max(0, group["cells"] - reply.vl)
                assert group["prestart"] == min(reply.vstart, reply.vl)
                assert group["masked"] == reply.masked.get(int(register), 0)
                assert group["active"] == group["cells"] - group["tail"] - group["prestart"] - group["masked"]
            assert reply.masked.keys() <= {int(register) for register in groups}
            assert shown == {name: reply.has_changed(name) for name in shown}
            assert {name for name in reply.changed if name[0] == "x"} <= shown.keys()
            masked += sum(reply.masked.values())
        press(browser, Keys.ARROW_RIGHT)
    assert text_of(browser, "#count") == f"{len(frames)} of {len(frames)}"
    assert (masked > 0) == (name in ("masks_and_tails", "masked_instructions", "strip_mined"))
    assert browser.save_screenshot(str(tmp_path / f"{name}.png")) and (tmp_path / f"{name}.png").stat().st_size > 10_000
    for picture in reversed(pictures):
        assert browser.execute_async_script(PICTURE)[1] == picture
        press(browser, Keys.ARROW_LEFT)
    assert text_of(browser, "#count").startswith("1 of ")
    assert browser.get_log("browser") == []


def test_lesson_is_navigated_by_keys_and_clicks(opened: Callable[[str], "Chrome"], program: pathlib.Path) -> None:
    from selenium.webdriver.common.by import By
    from selenium.webdriver.common.keys import Keys
    from selenium.webdriver.support.select import Select
    from selenium.webdriver.support.wait import WebDriverWait

    browser = opened(lesson_page("x", make_frames(tours()["masks_and_tails"], program)))
    press(browser, Keys.SHIFT, Keys.ARROW_RIGHT)
    assert text_of(browser, "#sentence").startswith("The numbers 0 to 5")
    press(browser, Keys.ARROW_RIGHT)
    assert text_of(browser, "#sentence").startswith("The numbers 0 to 5")
    place = text_of(browser, "#count")
    press(browser, Keys.END)
    assert text_of(browser, "#count") == "17 of 17"
    assert not browser.find_element(By.ID, "next").is_enabled()
    press(browser, Keys.SHIFT, Keys.ARROW_LEFT)
    assert text_of(browser, "#sentence").startswith("With tu, mu")
    press(browser, Keys.HOME)
    assert text_of(browser, "#count") == "1 of 17"
    for button in ("next", "next", "back", "last", "first"):
        browser.find_element(By.ID, button).click()
    browser.find_element(By.ID, "place").send_keys(Keys.ARROW_RIGHT)
    assert text_of(browser, "#count") == "2 of 17"
    WebDriverWait(browser, PATIENCE).until(lambda browser: browser.current_url.endswith("#2"))
    browser.get(browser.current_url.partition("#")[0] + f"#{place.split()[0]}")
    browser.refresh()
    assert text_of(browser, "#count") == place
    Select(browser.find_element(By.ID, "names")).select_by_visible_text("x10")
    assert "vsetivli x0, 6" in text_of(browser, "#listing") and "x27 s11" in text_of(browser, "#registers")
    browser.find_element(By.ID, "names").send_keys(Keys.ARROW_UP)
    assert text_of(browser, "#count") == place and "vsetivli zero, 6" in text_of(browser, "#listing")


def test_element_formats_can_be_chosen(opened: Callable[[str], "Chrome"], program: pathlib.Path) -> None:
    from selenium.webdriver.common.by import By
    from selenium.webdriver.common.keys import Keys
    from selenium.webdriver.support.select import Select

    lines = [
        "1 enter",
        "1 map 0 1 rwx",
        "1 asm 0 vsetivli x0, 9, e16, m2, ta, ma",
        "1 asm 4 vadd.vv v2, v4, v4",
        "1 step 1",
    ]
    lines += ["1 vset v2 " + "0180ff7f".ljust(64, "0"), "1 vset v3 " + "feff".ljust(64, "0")]
    browser = opened(lesson_page("x", make_frames(read_script("\n".join(lines)), program)))
    press(browser, Keys.END)

    def row(register: int, place: int) -> list[str]:
        script = """const row = [...document.querySelectorAll(`#elements tr[data-register='${arguments[0]}']`)][arguments[1]];
            return [row.querySelector("th").textContent.trim(), ...[...row.querySelectorAll("td")].map((cell) => cell.firstChild?.data)]"""
        texts: list[str] = browser.execute_script(script, register, place)
        return texts

    def choose(name: str, text: str) -> None:
        Select(browser.find_element(By.ID, name)).select_by_visible_text(text)

    # 8 have room, and 16 of the others
    assert row(2, 0)[:3] == ["v2", "−32767", "32767"] and row(2, 2)[:2] == ["v3", "−2"]
    choose("form", "unsigned")
    assert row(2, 0)[1:3] == ["32769", "32767"] and row(2, 2)[1] == "65534"
    choose("form", "hexadecimal")
    assert row(2, 0)[1:3] == ["8001", "7fff"] and row(2, 2)[1] == "fffe"
    choose("view", "all 32 registers")
    assert row(2, 0)[1:3] == ["8001", "7fff"] and row(31, 0)[1:] == ["0000"] * 8
    choose("width", "32 bits")
    assert row(2, 0)[1] == "7fff8001" and row(3, 0)[:2] == ["v3", "0000fffe"]
    choose("width", "mask bits")
    assert row(2, 0)[1:] == [*"1000000000000001"] and row(2, 1)[1:] == [*"1111111111111110"]
    choose("width", "64 bits")
    choose("form", "signed")
    assert row(2, 0)[1] == f"{0x7FFF8001}" and row(31, 0)[1:] == ["0"] * 4


def test_every_user_has_tab(opened: Callable[[str], "Chrome"], program: pathlib.Path) -> None:
    from selenium.webdriver.common.by import By
    from selenium.webdriver.common.keys import Keys

    browser = opened(lesson_page("x", make_frames(tours()["class_of_three"], program)))
    press(browser, Keys.END)
    assert "user 2: stopped" in text_of(browser, "#users")
    assert "3 step 1" in text_of(browser, "#step") and "x5" in text_of(browser, "#registers")
    browser.find_element(By.CSS_SELECTOR, "#users [value='2']").click()
    assert "addi t0, t0, 1" in text_of(browser, "#listing") and "200" in text_of(browser, "#registers")
    press(browser, Keys.ARROW_LEFT)
    assert "addi t0, t0, 1" in text_of(browser, "#listing")


def test_text_is_never_markup(opened: Callable[[str], "Chrome"], program: pathlib.Path) -> None:
    from selenium.webdriver.common.by import By
    from selenium.webdriver.common.keys import Keys

    tag = "<img src=x onerror='document.title=1'>"
    output = f"{tag}</script><!--\n\x01é".encode("utf-8")
    lines = [f"## {tag}", f"# {tag} `{tag}` </script><script>document.title=2</script>", "1 enter", f"1 {tag}"]
    lines += ["1 map 10000 2 rwx", f"1 poke 11000 {output.hex()}", f"1 set x12 {len(output):x}", "1 set x10 1"]
    lines += ["1 set x11 11000", "1 set x17 40", "1 asm 10000 ecall", "1 setpc 10000", "1 step 1", "1 out", "# The end"]
    script = read_script("\n".join(lines))
    browser = opened(lesson_page(script.title, make_frames(script, program)))
    assert text_of(browser, "#sentence") == f"{tag} {tag} </script><script>document.title=2</script>"
    press(browser, Keys.END)
    assert text_of(browser, "#output") == f"{tag}</script><!--\n␁é"
    assert f"> 1 {tag}" in text_of(browser, "#log")
    assert "> 1 setpc 10000" in text_of(browser, "#log") and "1 out " in text_of(browser, "#log")
    assert browser.find_elements(By.TAG_NAME, "img") == [] and browser.title == tag
    assert browser.get_log("browser") == []


def test_only_page_script_runs(opened: Callable[[str], "Chrome"], program: pathlib.Path) -> None:
    browser = opened(lesson_page("x", make_frames(read_script("1 enter"), program)))
    script = """const script = document.createElement("script");
        script.textContent = "window.ran = 1";
        document.body.append(script);
        document.body.setAttribute("onclick", "window.ran = 2");
        document.body.click();
        return window.ran"""
    assert browser.execute_script(script) is None and text_of(browser, "#count") == "1 of 1"
    assert ["Content Security Policy" in entry["message"] for entry in browser.get_log("browser")] == [True, True]


def test_stops_and_refusals_are_explained(opened: Callable[[str], "Chrome"], program: pathlib.Path) -> None:
    from selenium.webdriver.common.keys import Keys

    browser = opened(
        lesson_page(
            "x",
            make_frames(
                read_script(
                    "1 enter\n1 peek 0 1\n1 enter\n1 step 1\n1 map 0 1 rwx\n1 asm 0 li x1, 1\n1 step 300\n9 x\n"
                ),
                program,
            ),
        )
    )
    assert browser.execute_script("return document.querySelector('#stop').ariaLive") == "polite"
    expected = []
    for _ in range(7):
        expected.append(text_of(browser, "#stop"))
        press(browser, Keys.ARROW_RIGHT)
    assert expected[0].startswith("1 peek 0 1: E11: ") and expected[1].startswith("E06: ")
    assert "0x0" in expected[2] and expected[6].startswith("Not sent: ")
    assert expected[4] == "li x1, 1\n^\nE15: li is a pseudo-instruction, which only a source has"
    assert expected[5] == "E04: 300 isn't from 1 to 256; the form is step N"
    browser = opened(lesson_page("x", make_frames(tours()["assembling"], program)))
    press(browser, Keys.END)
    lines = text_of(browser, "#stop").split("\n")
    assert lines[:2] == ["vadd.vv v1, v2", "^".rjust(15)]
    assert lines[3:6] == ["1 asm 1000c addi x1, x0, 4096:", "addi x1, x0, 4096", "^".rjust(14)]


@pytest.mark.parametrize("scheme", ["light", "dark"])
def test_lesson_page_has_contrast_and_width(
    opened: Callable[[str], "Chrome"], program: pathlib.Path, scheme: str
) -> None:
    from selenium.webdriver.common.keys import Keys

    script = read_assembled((EXAMPLES / "strip_mined.s").read_text("utf-8"), "x")
    pages = [
        make_frames(script, program),
        *(make_frames(tours()[n], program) for n in ("fault_and_resumption", "class_of_three")),
    ]
    for frames in pages:
        browser = opened(lesson_page("x", frames))
        media(browser, prefers_color_scheme=scheme, prefers_reduced_motion="reduce")
        for _ in frames:
            assert browser.execute_script(CONTRAST) == []
            press(browser, Keys.ARROW_RIGHT)
        assert browser.execute_script("return document.getAnimations().length") == 0
        for width in (1280, 800, 640):
            size = {"width": width, "height": 800, "deviceScaleFactor": 1, "mobile": False}
            browser.execute_cdp_cmd("Emulation.setDeviceMetricsOverride", size)
            assert browser.execute_script("return document.documentElement.scrollWidth") <= width
            assert browser.execute_script("return document.getElementById('log').clientHeight") > 60  # three lines
        browser.execute_cdp_cmd("Emulation.clearDeviceMetricsOverride", {})
    media(browser)


def test_focus_is_visible_on_all_controls(opened: Callable[[str], "Chrome"], program: pathlib.Path) -> None:
    from selenium.webdriver.common.keys import Keys

    browser = opened(lesson_page("x", make_frames(tours()["class_of_three"], program)))
    press(browser, Keys.ARROW_RIGHT)  # to a frame with elements
    look = """const e = document.activeElement;
        return [e === document.body ? "" : e.id || (e.getAttribute("role") ?? e.textContent), getComputedStyle(e).outlineStyle]"""
    seen = dict[str, str]()
    for _ in range(40):
        press(browser, Keys.TAB)
        name, style = browser.execute_script(look)
        if name:
            seen[name] = style
    assert set(seen.values()) == {"solid"}
    assert {
        "next",
        "place",
        "names",
        "form",
        "view",
        "gridcell",
        "numbers",
        "listing",
        "log",
    } <= seen.keys()
    assert any(name.startswith("user 2") for name in seen)


def test_tour_starts_with_introduction(opened: Callable[[str], "Chrome"], tmp_path: pathlib.Path) -> None:
    """Its links lead to the lessons in its folder; each has a sentence and a picture, which a screen reader names."""
    strip: Strip = {"name": "v1", "text": "", "cells": [("0a", "active"), ("ff", "tail")]}
    titles = {"one": "Masks & tails", "two": "A <class>"}
    entries = [Entry(name=name, title=title, sentence="Uses `v1`.", strip=strip) for name, title in titles.items()]
    browser = opened(tour_page("A tour", entries))
    assert text_of(browser, "li p") == "Uses v1."
    label = browser.find_element("css selector", "li [role=img]").get_dom_attribute("aria-label")
    assert label == "v1: 0a active, ff tail"
    links = browser.find_elements("css selector", "li a")
    assert [link.text for link in links] == ["Masks & tails", "A <class>"] and not browser.get_log("browser")
    (tmp_path / "two.html").write_text("<title>here</title>")
    links[1].click()
    assert browser.title == "here"


SERIES: Series = {
    "name": "tour",
    "lessons": [{"name": name, "title": name.title()} for name in ("one", "page", "two")],
    "place": 1,
}


def test_lesson_links_to_other_lessons(
    opened: Callable[[str], "Chrome"], program: pathlib.Path, tmp_path: pathlib.Path
) -> None:
    """Links of a lesson of a tour, reached by Tab and pressed by Enter; a lesson of its own has none."""
    from selenium.webdriver.common.keys import Keys

    frames = make_frames(read_script("1 enter\n"), program)
    browser = opened(lesson_page("x", frames))
    assert not browser.find_element("css selector", "#links").is_displayed()
    browser = opened(lesson_page("x", frames, series=SERIES))
    assert text_of(browser, "#series-place") == "lesson 2 of 3"
    links = browser.find_elements("css selector", "#links > a")
    assert [link.text for link in links] == ["All lessons", "Previous lesson", "Next lesson"]
    assert [link.get_dom_attribute("title") for link in links] == [None, "One", "Two"]
    (tmp_path / "two.html").write_text("<title>two</title>")
    browser.execute_script("arguments[0].focus()", links[1])
    press(browser, Keys.TAB)
    press(browser, Keys.ENTER)
    assert browser.title == "two" and not browser.get_log("browser")


def test_source_is_shown_as_it_was_written(opened: Callable[[str], "Chrome"], program: pathlib.Path) -> None:
    """With the line that was executed and the next one; `la` has two instructions. A script has only its listing."""
    text = (EXAMPLES / "strip_mined.s").read_text("utf-8")
    script = read_assembled(text, "x")
    browser = opened(lesson_page("x", make_frames(script, program), script))
    lines = "return [...document.querySelectorAll(arguments[0])].map((line) => line.textContent)"
    assert browser.execute_script(lines, "#written li .text") == text.removesuffix("\n").split("\n")
    for executed, following in (("li a0, 13", "la a1, x"), ("la a1, x", "la a1, x"), ("la a1, x", "la a2, y")):
        browser.find_element("id", "next").click()
        marked = [browser.execute_script(lines, f"#written .{kind} .text") for kind in ("executed", "next")]
        assert marked == [[f"        {executed}"], [f"        {following}"]]
    shown = (
        """return ["show-source", "written", "listing"].map((id) => document.getElementById(id).checkVisibility())"""
    )
    assert browser.execute_script(shown) == [True, True, False]
    browser.find_element("id", "show-listing").click()
    assert browser.execute_script(shown) == [True, False, True]
    browser = opened(lesson_page("x", make_frames(read_script("1 enter\n"), program)))
    assert browser.execute_script(shown) == [False, False, True]


def test_source_has_tab_stops_and_signs(opened: Callable[[str], "Chrome"], program: pathlib.Path) -> None:
    """A tab ends at column 8, whatever is before the text. The next line and one with a breakpoint have the editor's signs."""
    text = "#> break loop\n        nop\n\tnop\nloop:\tnop\n\tebreak\n"
    script = read_assembled(text, "x")
    browser = opened(lesson_page("x", make_frames(script, program), script))
    left = """return [...document.querySelectorAll("#written li")].slice(1).map((line) => {
        const [letters, word] = [(line.querySelector(".text") ?? line).lastChild, document.createRange()];
        word.setStart(letters, letters.data.search(/nop|ebreak/));
        return Math.round(word.getBoundingClientRect().left);
    })"""
    assert len(set(browser.execute_script(left))) == 1
    signs = """return [...document.querySelectorAll("#written li")].map((line) =>
        [[...line.querySelectorAll(".breakpoint, .arrow")].map((sign) => sign.textContent).join(""), line.ariaCurrent])"""
    browser.find_element("id", "last").click()  # step 256 has stopped at the breakpoint
    expected = [["", None], ["", None], ["", None], ["●▶", "step"], ["", None]]
    assert browser.execute_script(signs) == expected


def test_registers_in_use_come_first(opened: Callable[[str], "Chrome"], program: pathlib.Path) -> None:
    """Of a failed answer, whose case fills all registers; the others unfold. A lesson without the data has all that aren't zero."""
    exercise = settled(program, read_exercise(OURS / "doubles"))
    page = lesson(
        program, exercise, 0, "vsetvli t0, a2, e32, m1, ta, ma\nvle32.v v8, (a1)\nvmv.v.v v9, v8\nret\n", None
    )
    names = """return [...document.querySelectorAll(arguments[0])].filter((each) => each.checkVisibility())
        .map((each) => each.textContent.trim())"""
    rows, registers = "#elements tbody:first-of-type b", "#registers dt"
    browser = opened(page)
    assert browser.execute_script(names, rows) == ["v8", "v9"]
    shown = ["pc", "ra x1", "t0 x5", "a0 x10", "a1 x11", "a2 x12"]
    assert browser.execute_script(names, registers) == shown
    assert text_of(browser, "#unused-registers summary") == "27 registers not in use"
    browser.find_element("css selector", "#unused-registers summary").click()
    browser.find_element("id", "next").click()
    unfolded = browser.execute_script(names, registers)
    assert unfolded[:8] == [*shown, "zero x0", "sp x2"] and len(unfolded) == 33
    head, data, tail = re.split('(?<=id="lesson">)(.*?)(?=</script>)', page, maxsplit=1)
    old = json.loads(data)
    del old["used"]
    browser = opened(head + json.dumps(old) + tail)
    assert browser.execute_script(names, rows) == [f"v{number}" for number in range(32)]
    assert len(browser.execute_script(names, registers)) == 33
    assert not browser.find_element("id", "unused-registers").is_displayed() and not browser.get_log("browser")


def test_first_frame_introduces_lesson(opened: Callable[[str], "Chrome"], program: pathlib.Path) -> None:
    """It shows points and data in place of elements, and Start leads to the next frame; a lesson without them has elements."""
    script = read_assembled((EXAMPLES / "strip_mined.s").read_text("utf-8"), "x")
    browser = opened(lesson_page("x", make_frames(script, program), script))
    shown = """return ["introduction", "vectors"].map((id) =>
        document.getElementById(id).checkVisibility({ visibilityProperty: true }))"""
    assert browser.execute_script(shown) == [True, False]
    assert text_of(browser, "#points").startswith("vl is the number of 32-bit elements of this iteration")
    assert text_of(browser, "#in-memory").startswith("x: 13 numbers of 32 bits: 9, 2, 7, 1, 8, 3, 6, 4, 5, 1, 12, 3, …")
    browser.find_element("id", "begin").click()
    assert browser.execute_script(shown) == [False, True] and text_of(browser, "#count").startswith("2 of ")
    browser.find_element("id", "first").click()
    assert browser.execute_script(shown) == [True, False]
    browser = opened(lesson_page("x", make_frames(read_script("1 enter\n"), program)))
    assert browser.execute_script(shown) == [False, True]


def test_lessons_read_to_end_are_marked(
    opened: Callable[[str], "Chrome"], program: pathlib.Path, tmp_path: pathlib.Path
) -> None:
    """At the last frame the browser keeps that a lesson was read; its mark and the index show it later."""
    from selenium.webdriver.common.keys import Keys

    strip: Strip = {"name": "v1", "text": "", "cells": [("0a", "active")]}
    lessons = [(lesson["name"], lesson["title"]) for lesson in SERIES["lessons"]]
    entries = [Entry(name=name, title=title, sentence="It is short.", strip=strip) for name, title in lessons]
    lesson = lesson_page("x", make_frames(read_script("1 enter\n1 map 0 1 rw\n"), program), series=SERIES)
    marks = "return [...document.querySelectorAll('#progress a')].map((mark) => mark.textContent)"
    browser = opened(lesson)
    browser.execute_script("localStorage.clear()")
    for is_read in ("", ", read"):
        browser = opened(lesson)
        assert browser.execute_script(marks) == ["Lesson 1: One", f"Lesson 2: Page{is_read}", "Lesson 3: Two"]
        current = browser.find_element("css selector", "#progress [aria-current=page]")
        assert current.get_dom_attribute("title") == "Page" and "2: Page" in text_of(
            browser, "#progress [aria-current]"
        )
        press(browser, Keys.ARROW_RIGHT)
    (tmp_path / "index.html").write_text(tour_page("A tour", entries), "utf-8")
    browser.find_element("link text", "All lessons").click()
    items = [item.text.split("\n")[0] for item in browser.find_elements("css selector", "#lessons li")]
    assert items == ["One", "Page ✓ read", "Two"]
    browser.execute_script("localStorage.setItem('vecmon-lessons-read', '{')")
    assert "read" not in opened(lesson).find_element("id", "progress").text and not browser.get_log("browser")
    browser.execute_script("localStorage.clear()")
