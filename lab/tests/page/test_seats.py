"""The teacher's page in Chromium: the list of seats, names, messages, offers, keys, and the start of a class."""

import pathlib
from collections.abc import Iterator
from typing import TYPE_CHECKING

import pytest

from support.class_pages import Served, Tab, look_at, press_key

if TYPE_CHECKING:
    from selenium.webdriver import Chrome


SEATS = "all('#seats tr').map((row) => row.dataset.seat)"


@pytest.fixture(scope="module")
def served(program: pathlib.Path, tmp_path_factory: pytest.TempPathFactory) -> Iterator[Served]:
    """A class of 32 seats."""
    served = Served(tmp_path_factory.mktemp("class") / "class", program, "--machines", "4")
    yield served
    served.end()


def test_typed_name_is_shown(tabs: "Chrome", served: Served) -> None:
    """With the code, at the top of the page, and by the teacher; in the list, over the shoulder, and on the sheet."""
    tab, teacher = Tab(tabs, served, "A2"), Tab(tabs, served, "teacher")
    tab.click("#menu summary")
    tab.click("#forget")
    tab.click("#yes")
    tab.wait("!id('join').hidden")
    tab.keys("#called", "Bo")
    tab.keys("#code", served.codes["A2"] + "\n")
    tab.wait("id('who').textContent === 'Seat A2' && id('name').value === 'Bo'")
    teacher.wait("one(\"#seats [data-seat='A2'] .look\").textContent === 'A2 Bo'")
    tab.click("#menu summary")
    tab.keys("#name", " <b>\n")
    tab.wait("id('stop').textContent.includes('a name begins with a letter') && !one('b:not(#help-count)')")
    tab.run("id('name').value = ''")
    tab.keys("#name", "Zoë O'Brien\n")
    teacher.wait('one("#seats [data-seat=\'A2\'] .look").textContent === "A2 Zoë O\'Brien"')
    teacher.click("[data-dialog='join-class']")
    teacher.keys("[data-code='D8'] input", "Ada L.\n")
    teacher.click("#join-class .done")
    look_at(teacher, "A2")
    assert teacher.text("#shoulder-title") == "Zoë O'Brien (A2)"
    empty = "all('#machine .missing').filter((each) => each.checkVisibility()).map((each) => each.textContent)"
    assert set(teacher.run(empty)) == {"No program has been loaded at this seat yet."}
    teacher.click("[data-dialog='join-class']")
    teacher.click("#open-sheet")
    teacher.wait("all('#slips h2').length === 32")
    heads = teacher.run("all('#slips h2').map((head) => head.textContent)")
    assert (heads[0], heads[1], heads[31]) == ("Seat A1", "Seat A2, Zoë O'Brien", "Seat D8, Ada L.")
    teacher.click("#close-sheet")


def test_stuck_students_are_listed_first(tabs: "Chrome", served: Served) -> None:
    """Of 32 seats, whose rows are all in sight; N goes to the one that has waited longest, and a message reaches that one."""
    tab, other, teacher = Tab(tabs, served, "D7"), Tab(tabs, served, "B1"), Tab(tabs, served, "teacher")
    teacher.wait(f"{SEATS}.length === 32")
    assert teacher.run("all('#seats tr').every((row) => row.offsetHeight < 24)")
    assert teacher.run("((box) => box.scrollWidth <= box.clientWidth)(one('#roster .scroll'))")
    tab.begin("vle32.v v1, (x1)")
    other.begin("addi x5, x5, 1")
    tab.click("#one")
    teacher.wait(f"{SEATS}[0] === 'D7'")
    assert teacher.text("[data-seat='D7'] .condition") == "↯fault: vle32.v"
    # where it is cut
    assert teacher.run("one(\"[data-seat='D7'] .condition :last-child\").title").startswith("fault: vle32.v\n")
    assert teacher.text("[data-seat='D7'] .minutes").endswith(" s")
    assert teacher.text("[data-seat='B1'] .condition") == "•paused: addi"
    assert teacher.run(f"{SEATS}[1]") == "B1"  # at work, before those that are empty
    press_key(teacher, "N")
    teacher.wait("id('shoulder-title').textContent === 'seat D7' && document.activeElement.textContent === 'D7 '")
    press_key(teacher, "M")
    teacher.wait("document.activeElement.id === 'words'")
    teacher.keys("#words", "Nobody sets a vector type <i>first</i>.")  # letters are letters in a field
    assert teacher.run("[id('send-it'), id('preview')].map((each) => each.textContent)") == [
        "Send to seat D7",
        "seat D7 will see it above the source until it is closed.",
    ]
    teacher.click("#send-it")
    tab.wait("id('log').textContent.includes('The teacher: Nobody sets a vector type <i>first</i>.')")
    teacher.wait("id('words').value === '' && one('#sent li')?.textContent.includes('read by 0 of 1')")
    assert "vector type" not in other.text("#log") + other.text("#notices")
    assert "The teacher: Nobody sets a vector type <i>first</i>." in tab.text("#notices")
    tab.click("#notices button")
    tab.wait("!one('#notices li')")
    teacher.wait("one('#sent li').textContent.includes('read by 1 of 1') && !one('#sent button')")
    teacher.click("#reset")
    teacher.click("#yes")
    tab.wait("id('run').textContent === 'Not begun' && id('log').textContent.includes('taken this machine away')")
    teacher.wait("one(\"[data-seat='D7'] .condition\").textContent === 'not begun'")


def test_newer_hand_comes_before_students_looked_at(tabs: "Chrome", served: Served) -> None:
    """N goes to the first student in the list whom the teacher hasn't looked at since; then on through the list."""
    names = ("A5", "A6", "A7")
    students, teacher = [Tab(tabs, served, name) for name in names], Tab(tabs, served, "teacher")
    for name, tab in zip(names, students):
        tab.command("enter", "step 1")  # a fault; each at another second, which orders them
        teacher.wait(f"one(\"[data-seat='{name}']\").matches('.help')")
        teacher.wait(f"one(\"[data-seat='{name}'] .minutes\").textContent !== '0 s'")

    def press_n(name: str, key: str = "N") -> None:
        press_key(teacher, key)
        teacher.wait("one('#seats [aria-current=true]')?.dataset.seat === arguments[0]", name)

    assert teacher.run(f"{SEATS}.slice(0, 3)") == [*names]
    press_n("A5")
    press_n("A6")
    students[0].click("#hand")
    teacher.wait("one(\"[data-seat='A5']\").matches('.hand')")
    for name in ("A5", "A7", "A5", "A6", "A7"):  # the new hand, the one not yet looked at, and all again
        press_n(name)
    press_n("A6", "Shift+N")
    for tab in students:
        tab.command("leave")
    students[0].click("#hand")
    teacher.wait("!all('#seats :is(.hand, .help)').length")


def test_shown_codes_move_no_button(tabs: "Chrome", served: Served) -> None:
    """A second click at the place of *All codes* hits the same button, in wide and narrow windows."""
    teacher = Tab(tabs, served, "teacher")
    places = """['show-codes', 'open-sheet'].map((name) => id(name).getBoundingClientRect()).map(({ left, top }) => [left, top])"""
    for width in (1280, 390):
        size = {"width": width, "height": 800, "deviceScaleFactor": 1, "mobile": False}
        teacher.activate().execute_cdp_cmd("Emulation.setDeviceMetricsOverride", size)
        teacher.click("[data-dialog='join-class']")
        before = teacher.run(places)
        teacher.click("#show-codes")
        teacher.wait("all('#codes a').length === 33")
        assert teacher.run(places) == before
        teacher.click("#show-codes")
        teacher.wait("!one('#codes a')")
        teacher.click("#join-class .done")
    teacher.activate().execute_cdp_cmd("Emulation.clearDeviceMetricsOverride", {})


def test_second_click_on_row_repeats_no_line(tabs: "Chrome", served: Served) -> None:
    """The console of the seat that is looked at stays as it is."""
    tab, teacher = Tab(tabs, served, "A8"), Tab(tabs, served, "teacher")
    tab.command("enter", "peek 0 1")
    look_at(teacher, "A8")
    teacher.wait("id('log').textContent.includes('> peek 0 1')")
    lines = teacher.run("all('#log li').length")
    look_at(teacher, "A8")
    tab.command("leave")
    teacher.wait("id('log').textContent.includes('> leave')")
    assert teacher.run("all('#log li').length") == lines + 2


def test_source_is_offered_to_chosen_seats(tabs: "Chrome", served: Served) -> None:
    """Ticked rows are chosen; who opens the offer is counted; it is taken back from the one who hasn't read it."""
    tab, other, teacher = Tab(tabs, served, "C4"), Tab(tabs, served, "C5"), Tab(tabs, served, "teacher")
    before = tab.run("text()")
    press_key(teacher, "G")
    teacher.wait("!id('gift').hidden && id('send-it').disabled")
    teacher.run("code('given').setValue('addi x6, x6, 2')")
    for seat in ("C4", "C5"):
        teacher.click(f"#seats [data-seat='{seat}'] input")
    teacher.keys("#gift-title", "A <i>start</i>")
    assert teacher.text("#send-it") == "Offer to 2 students" and "seat C4, seat C5" in teacher.text("#preview")
    teacher.click("#send-it")
    for each in (tab, other):
        each.wait("all('#notices button').length === 2")
    assert "The teacher offers a source: A <i>start</i>" in tab.text("#notices") and tab.run("text()") == before
    tab.click("#notices button")
    tab.wait("text() === 'addi x6, x6, 2' && !one('#notices li')")
    teacher.wait("one('#sent li').textContent.includes('read by 1 of 2, opened by 1')")
    teacher.click("#sent button")
    other.wait("!one('#notices li')")
    teacher.wait("id('sent-says').textContent === 'Taken back. Read before by seat C4.'")
    assert other.run("text()") == before and "opened the teacher's source" in tab.text("#log")


def test_keys_of_letters_can_be_off(tabs: "Chrome", served: Served) -> None:
    """In the menu; the browser keeps it. F1 lists the keys."""
    teacher = Tab(tabs, served, "teacher")
    press_key(teacher, "G")
    assert not teacher.run("id('gift').hidden")
    press_key(teacher, "F1")
    assert teacher.run("id('key-list').open && id('teacher-keys').textContent.includes('Shift N')")
    assert not teacher.run(
        "id('teacher-keys').textContent.includes('Ctrl Shift Enter')"
    ), "only a student checks an exercise"
    teacher.click("#key-list .done")
    teacher.click("#show-keys")  # in the menu, which closes
    assert teacher.run("id('key-list').open && !id('menu').open")
    teacher.click("#key-list .done")
    teacher.click("#letters")
    press_key(teacher, "Escape")
    assert teacher.run("!id('menu').open && document.activeElement === one('#menu summary')")
    press_key(teacher, "M")
    assert teacher.run("id('message').hidden")
    teacher.activate().refresh()
    teacher.wait("id('letters') && !id('letters').checked && id('seats').childElementCount === 32")
    teacher.run("localStorage.clear()")


def test_start_page_leads_in(tabs: "Chrome", program: pathlib.Path, tmp_path: pathlib.Path) -> None:
    """It has the address, exercises to turn on, and a message for all; the list comes with the first student."""
    served = Served(tmp_path / "class", program, "--exercise", "doubles", "--address", "http://192.168.1.20:24108/")
    try:
        teacher = Tab(tabs, served, "teacher")
        teacher.wait("!id('opening').hidden && !id('roster').checkVisibility()")
        teacher.wait("one('#opening .address').textContent === 'http://192.168.1.20:24108/'")  # with its QR code
        assert teacher.run("all('#opening .course :checked').map(({ name }) => name)") == ["doubles"]
        teacher.click("#opening [name=filter]")
        teacher.wait("all('#opening .course :checked').map(({ name }) => name).join() === 'doubles,filter'")
        teacher.keys("#words", "Welcome.")
        assert teacher.text("#send-it") == "Send to 8 students"
        teacher.click("#send-it")
        teacher.wait("one('#sent li')")
        tab = Tab(tabs, served, "A3")
        tab.wait("id('notices').textContent.includes('Welcome.')")
        tab.wait("id('exercise').textContent.includes('A filter')")
        teacher.wait(
            "id('opening').hidden && id('roster').checkVisibility() && one('[name=to]:checked').value === 'one'"
        )
        assert teacher.text("#summary-says") == "1 of 8 seats · programs wait: the clock is off"
    finally:
        served.end()
