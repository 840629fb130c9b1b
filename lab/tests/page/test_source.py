"""The source of a seat: its editor, and how tabs, the class and the teacher share it, in Chromium."""

import pathlib
from typing import TYPE_CHECKING

from page.conftest import Sit
from support.class_pages import PIECES, Served, Tab, look_at

if TYPE_CHECKING:
    from selenium.webdriver import Chrome

COUNTS = "loop:   addi t0, t0, 1   # counts\n        li a0, 0x12345   # two words\n        vid.v v1\n        j loop\n"
TEXT = "text()"
ABOVE = """((menu, button) => Math.abs(button.top - menu.bottom) < 8 && menu.left < button.right && button.left < menu.right)(
    ...["file", "show-file"].map((name) => id(name).getBoundingClientRect()))"""
PASTE = """((data) => (data.setData("text/plain", arguments[0]), code().getInputField().dispatchEvent(
    new ClipboardEvent("paste", { clipboardData: data, bubbles: true, cancelable: true }))))(new DataTransfer())"""
TYPE_ON = """(window.later = setTimeout, window.setTimeout = (call, pause) => pause === 700 ? 0 : later(call, pause),
    code().replaceRange(' behind', { line: 1e9, ch: 0 }))"""  # which isn't sent before `later` is there again
SILENT = "(WebSocket.prototype.send = () => {}, 0)"  # what is typed isn't sent
AHEAD = "code().replaceRange(' ahead', { line: 1e9, ch: 0 })"  # at once, so that it is sent as a whole
TYPED = "loop: vadd.vx v1, v2, x5\n        j loop\n        nop     # it's an add\n        fro"


def empty(tab: Tab, field: str = "source") -> None:
    """Empties a source by keys."""
    from selenium.webdriver.common.keys import Keys

    tab.type(Keys.CONTROL, "a", Keys.NULL, Keys.DELETE, field=field)


def start_line(tab: Tab) -> None:
    """Type the beginning of a name, for which the page then offers several."""
    empty(tab)
    tab.type("loop: vadd.v")


def type_on(tab: Tab) -> None:
    """Takes the last name that is offered, and types the rest of a text."""
    from selenium.webdriver.common.keys import Keys

    tab.type(*[Keys.ARROW_DOWN] * 3, Keys.ENTER)
    assert tab.run(TEXT) == "loop: vadd.vx" and not tab.run("one('.CodeMirror-hints')")
    tab.type(" v1, v2, x5", Keys.ENTER, "j lo", Keys.TAB, Keys.ENTER)
    tab.type("nop", Keys.TAB, "# it's an add", Keys.ENTER, "fro")
    assert tab.run(TEXT) == TYPED


def test_editor_completes_and_highlights(sit: Sit) -> None:
    tab = sit("A1")
    start_line(tab)
    offered = "all('.CodeMirror-hints li').map((item) => item.textContent)"
    assert tab.run(offered) == [
        f"vadd.v{kind} vd, vs2, {last}[, v0.t]" for kind, last in (("i", "imm"), ("v", "vs1"), ("x", "rs1"))
    ]
    type_on(tab)
    assert tab.run("all('#editor .CodeMirror-linenumber').map((each) => each.textContent)")[-4:] == ["1", "2", "3", "4"]
    assert tab.run(PIECES) == [
        *("def loop", "keyword vadd.vx", "variable-2 v1", "variable-2 v2", "variable-2 x5", "keyword j"),
        *("keyword nop", "comment # it's an add", "error fro"),
    ]


def test_tab_indents_and_undo_survives_write(sit: Sit) -> None:
    from selenium.webdriver.common.keys import Keys

    tab = sit("A7")
    start_line(tab)
    type_on(tab)
    tab.type(Keys.SHIFT, Keys.TAB)
    assert tab.run(TEXT).endswith("\nfro")
    tab.type(Keys.CONTROL, "a", Keys.NULL, Keys.TAB)
    assert tab.run(TEXT).splitlines()[1] == " " * 16 + "j loop"
    tab.type(Keys.CONTROL, "z", Keys.NULL, Keys.CONTROL, "z", Keys.NULL)
    assert tab.run(TEXT) == TYPED
    tab.type(Keys.CONTROL, "y", Keys.NULL)
    assert tab.run(TEXT).endswith("\nfro")
    tab.type(Keys.CONTROL, Keys.END, Keys.NULL, *[Keys.BACKSPACE] * 3, Keys.CONTROL, Keys.ENTER)
    tab.wait("id('editor').hidden && one('#listing .next')")
    tab.command("set x5 1")
    tab.click("#show-source")
    tab.type(Keys.CONTROL, "z", Keys.NULL)
    assert tab.run(TEXT).endswith("\nfro")
    for _ in range(30):
        tab.type(Keys.CONTROL, "z", Keys.NULL)
    assert tab.run(TEXT).startswith("# Doubles")


def test_label_goes_to_the_start_of_its_line(sit: Sit) -> None:
    """Once it has its colon; the next line is indented again."""
    from selenium.webdriver.common.keys import Keys

    tab = sit("A7")
    empty(tab)
    tab.type("a: .word 1", Keys.ENTER, "b:", " .word 2", Keys.ENTER, "nop")
    assert tab.run(TEXT) == "a: .word 1\nb: .word 2\n        nop"


def test_every_paste_is_undone_separately(sit: Sit) -> None:
    from selenium.webdriver.common.keys import Keys

    tab = sit("A8")
    tab.click("#editor .CodeMirror-code")
    for paste in ("# one\n", "# two\n"):
        tab.run(PASTE, paste)
    tab.type("# three", Keys.CONTROL, "z", Keys.NULL, Keys.CONTROL, "z", Keys.NULL)
    assert "# one" in tab.run(TEXT) and "# two" not in tab.run(TEXT)
    tab.type(Keys.ESCAPE, Keys.TAB)
    assert tab.run("document.activeElement.id") == "assemble"


def test_visible_part_of_long_source_is_highlighted(sit: Sit) -> None:
    """Of 4,000 lines those in sight are painted, and the last one is at the end."""
    tab = sit("A5")
    tab.run(
        "code().setValue(arguments[0])",
        "nop # one\n" * 4000 + "last: ret",
    )
    tab.click("#show-source")
    tab.run("code().scrollTo(0, 1e9)")
    tab.wait(f"{PIECES}.includes('def last')")
    assert tab.run("all('#editor .CodeMirror-line').length") < 200
    last = tab.run("all('#editor .cm-def').at(-1).getBoundingClientRect().bottom")
    assert abs(tab.run("one('#editor .CodeMirror-scroll').getBoundingClientRect().bottom") - last) < 90
    tab.run("code().setValue('nop')")


def test_source_is_shared_by_tabs_of_seat(sit: Sit) -> None:
    """What is typed is in another tab of the seat, after a reload, and before the teacher; nobody else has it."""
    from selenium.webdriver.common.keys import Keys

    tab, other, outsider, teacher = sit("A2"), sit("A2"), sit("A3"), sit("teacher")
    look_at(teacher, "A2")
    teacher.click("#show-source")
    tab.type(Keys.CONTROL, Keys.END, Keys.NULL, "# mine")
    for page in (other, teacher):
        page.wait(f"{TEXT}.endsWith('# mine')")
    tab.type(" and more")
    tab.activate().refresh()  # before it is sent by itself
    tab.wait(f"id('who').textContent === 'Seat A2' && {TEXT}.endsWith('# mine and more')")
    other.wait(f"{TEXT}.endsWith('# mine and more')")
    other.type(Keys.CONTROL, "z", Keys.NULL)
    tab.wait(f"{TEXT}.endsWith('# mine')")
    tab.type(Keys.CONTROL, Keys.END, Keys.NULL, " again")
    other.wait(f"{TEXT}.endsWith('# mine again')")
    other.type(Keys.CONTROL, "z", Keys.NULL)
    tab.wait(f"{TEXT}.endsWith('# mine')")
    other.type(Keys.CONTROL, "y", Keys.NULL)
    tab.wait(f"{TEXT}.endsWith('# mine again')")
    other.type(Keys.CONTROL, "z", Keys.NULL)
    tab.wait(f"{TEXT}.endsWith('# mine')")
    assert "mine" not in outsider.run(TEXT)
    teacher.type("x")
    assert teacher.run(f"{TEXT}.endsWith('# mine')")


def test_text_that_was_not_sent_survives_reload(sit: Sit) -> None:
    """The tab keeps it. If another window has changed the source meanwhile, it becomes a version."""
    tab = sit("A4")
    tab.run(SILENT)
    tab.run("code().replaceRange('# unsent', { line: 1e9, ch: 0 })")
    tab.activate().refresh()
    tab.wait(f"id('who').textContent === 'Seat A4' && {TEXT}.endsWith('# unsent')")
    other = sit("A4")
    other.wait(f"{TEXT}.endsWith('# unsent')")  # so that the server has it
    versions = tab.run("[...id('versions').options].length")
    tab.run(SILENT)
    tab.run("code().replaceRange(' of this window', { line: 1e9, ch: 0 })")
    other.run("code().replaceRange(' of the other', { line: 1e9, ch: 0 })")
    tab.wait(f"id('versions').options.length > {versions} || !id('use-own').hidden")
    tab.activate().refresh()
    tab.wait(f"id('who').textContent === 'Seat A4' && {TEXT}.endsWith('# unsent of the other')")
    tab.wait(f"[...id('versions').options].length > {versions}")


def test_two_windows_of_a_seat_type_at_once(sit: Sit) -> None:
    """Each keeps its text, both say that there are two, and the text of each is the seat's or a version."""
    from selenium.webdriver.common.keys import Keys

    ahead, behind = sit("A6"), sit("A6")
    ahead.type(Keys.CONTROL, Keys.END, Keys.NULL, "# both")
    behind.wait(f"{TEXT}.endsWith('# both')")
    behind.run(TYPE_ON)
    ahead.run(AHEAD)
    behind.wait("[...id('versions').options].length > 1 || text().includes('ahead') || id('use-own')?.hidden === false")
    assert behind.run(TEXT).endswith("# both behind")
    behind.wait("id('windows-say').textContent.includes('kept as a version') && !id('use-own').hidden")
    ahead.wait("id('windows-say').textContent === 'This seat is open in 2 windows.' && id('use-own').hidden")
    behind.run("(window.setTimeout = later, 0)")
    behind.type(" of it")
    kept = behind.run(TEXT)
    assert kept.endswith(" of it") and ahead.run(TEXT).endswith("# both ahead")
    behind.click("#show-other")
    behind.wait(f"{TEXT}.endsWith('# both ahead') && id('use-own').hidden")
    behind.type(Keys.CONTROL, "z", Keys.NULL)  # which nobody else changes
    ahead.wait(f"{TEXT} === arguments[0]", kept)
    behind.click("#show-file")
    assert behind.run("[...id('versions').options].length") > 1
    ahead.activate().close()
    ahead.browser.switch_to.window(behind.handle)
    behind.wait("id('windows').hidden")


def test_window_makes_its_text_the_seats(sit: Sit) -> None:
    """The other window shows it then, since nothing was typed there; its text becomes a version."""
    ahead, behind = sit("A7"), sit("A7")
    behind.wait("!id('windows').hidden")
    versions = behind.run("[...id('versions').options].length")  # of other tests of this seat
    behind.run(TYPE_ON)
    ahead.run(AHEAD)
    behind.wait("!id('use-own').hidden")
    behind.run("(window.setTimeout = later, 0)")
    behind.click("#use-own")
    for each in (ahead, behind):
        each.wait(f"{TEXT}.endsWith(' behind') && id('use-own').hidden")
    behind.wait("[...id('versions').options].length > arguments[0]", versions)


def test_given_source_is_offered(sit: Sit, tmp_path: pathlib.Path) -> None:
    """The teacher copies, changes and gives a source; it opens at the seat, whose own is an undo and a version away."""
    from selenium.webdriver.common.keys import Keys

    tab, other, teacher = sit("A3"), sit("A4"), sit("teacher")
    empty(tab)
    tab.type("nop # mine", Keys.CONTROL, Keys.ENTER)
    tab.wait("id('editor').hidden && one('#listing .next')")
    look_at(teacher, "A3")
    teacher.wait(f"{TEXT} === 'nop # mine'")
    teacher.click("#show-source")
    teacher.click("#show-file")
    assert teacher.run(ABOVE)
    teacher.run("id('file').hidePopover()")
    teacher.click("#take")
    assert teacher.run("text('given')") == "nop # mine"
    teacher.type(Keys.CONTROL, Keys.HOME, Keys.NULL, "# theirs", Keys.ENTER, field="given")
    assert teacher.text("#send-it") == "Offer to seat A3"  # the seat that is looked at
    teacher.click("[name=how][value=replace]")
    teacher.click("#send-it")
    tab.wait(f"{TEXT} === '# theirs\\nnop # mine' && !id('editor').hidden")
    assert "The teacher gave a source" in tab.text("#log") and "theirs" not in other.run(TEXT)
    tab.type(Keys.CONTROL, "z", Keys.NULL)
    assert tab.run(TEXT) == "nop # mine"
    teacher.wait(f"{TEXT} === 'nop # mine'")
    assert [
        each.split(" ", 1)[1] for each in tab.run("[...id('versions').options].map((each) => each.textContent)")
    ] == [*("…", "given", "assembled")]
    tab.run("(id('versions').selectedIndex = 1, id('versions').dispatchEvent(new Event('change')))")
    tab.wait(f"{TEXT}.startsWith('# theirs')")
    teacher.wait(f"{TEXT}.startsWith('# theirs')")  # the server has it
    _give_to_all(teacher, tab, other)
    assert tab.save("#save", tmp_path / "A3.s").decode("utf-8") == tab.run(TEXT)
    _take_back(teacher, tab)


def _give_to_all(teacher: Tab, tab: Tab, other: Tab) -> None:
    """The teacher gives every seat a source, while the source of one is too long for a version."""
    teacher.click("[name=to][value=all]")
    teacher.type("# all ", field="given")
    assert teacher.text("#send-it") == "Replace for 8 students"
    replace = f"(code().setValue(arguments[0]), {TEXT}.length)"
    assert tab.run(replace, "#" * 65537) == 65537  # which can't become a version
    assert "the page doesn't save it, and nothing replaces it" in tab.text("#left")
    teacher.click("#send-it")
    tab.wait("id('log').textContent.split('The teacher gave a source').length === 3")
    assert tab.run(f"{TEXT}.length") == 65537
    tab.run(replace, "# short")
    for page in (tab, other):
        page.wait(f"{TEXT}.includes('# all')")
    assert tab.text("#versions option:nth-child(2)").endswith(" typed") and tab.text("#left") == ""


def _take_back(teacher: Tab, tab: Tab) -> None:
    """The teacher takes the source back; to no seat nothing can be given."""
    teacher.wait("one('#sent .given')?.textContent.startsWith('Given to all seats: ')")
    # other tests wrote at seats, too
    numbers = teacher.run("/\\d of 8 editors/.exec(one('#sent .given').textContent)[0]")
    teacher.click("#sent .given button")
    tab.wait(f"{TEXT}.startsWith('# theirs')")
    teacher.wait(
        "!one('#sent .given') && id('sent-says').textContent.startsWith(arguments[0])", f"Taken back: {numbers} "
    )
    assert teacher.run("code('given').hasFocus()")  # in place of the button, which is gone
    teacher.click("[name=to][value=chosen]")
    assert teacher.run("id('send-it').disabled") and teacher.text("#preview").startswith("Choose a student")
    teacher.activate().refresh()
    teacher.wait("document.title === 'Teacher – vecmon' && text('given').includes('# all')")


def test_listing_shows_source_lines(sit: Sit) -> None:
    """A word has its source line next to it if that differs, or its comment; of one line's words, the first has it."""
    tab = sit("A6")
    tab.run("code().setValue(arguments[0])", COUNTS)
    tab.click("#assemble")
    tab.wait("one('#listing .next')")
    beside = "all('#listing tr[data-address]').map((row) => [row.dataset.address, row.lastChild.textContent.trim(), row.lastChild.title])"
    assert tab.run(beside) == [
        ["10000", "# counts", "addi t0, t0, 1   # counts"],
        ["10004", "li a0, 0x12345   # two words", "li a0, 0x12345   # two words"],
        ["10008", "", ""],
        ["1000c", "", "vid.v v1"],
        ["10010", "j loop", "j loop"],
        ["10014", "", ""],  # the ebreak after the last instruction
    ]
    assert tab.run("id('listing').scrollWidth <= id('listing').clientWidth")
    tab.command("asm 1000c vsetvli x5, x10, e32, m1, ta, mu", "step 1")
    over = "((text, source) => [text.scrollWidth - text.clientWidth > 0, source.textContent])(...all(arguments[0]))"
    place = "#listing tr[data-address='1000c']"
    assert tab.run(over, f"{place} .text, {place} .source") == [True, " " * 12 + "vid.v v1"]


def test_source_survives_server_restart(tabs: "Chrome", own_class: Served) -> None:
    """What is typed while the server is gone, and what it hadn't kept yet, is there when it is back."""
    from selenium.webdriver.common.keys import Keys

    tab = Tab(tabs, own_class, "A1")
    tab.type(Keys.CONTROL, Keys.END, Keys.NULL, "# typed")
    own_class.kill()
    tab.wait("id('gone').textContent.includes('is gone')")
    tab.type(" on")
    own_class.begin()
    tab.wait("id('gone').hidden")
    other = Tab(tabs, own_class, "A1")
    other.wait(f"{TEXT}.endsWith('# typed on')")
    assert tab.run(f"{TEXT}.endsWith('# typed on')")
