"""The pages of a class in Chromium: eight tabs at seats, and the teacher's."""

import io
import os
import pathlib
import signal
import zipfile
from typing import TYPE_CHECKING

import pytest

from support.browser import CONTRAST, media, press
from page.conftest import Sit
from support.class_pages import PANES, Served, Tab, dialog, digest_of, look_at
from support.places import EXAMPLES

if TYPE_CHECKING:
    from selenium.webdriver import Chrome

COUNT_UP = ["addi x5, x5, 1", "jal x0, -4"]


def test_eight_tabs_are_independent(tabs: "Chrome", own_class: Served) -> None:
    """Eight students step at once; each sees an own machine; a reload keeps seat, machine and log."""
    students = [Tab(tabs, own_class, f"A{number}") for number in range(1, 9)]
    for number, tab in enumerate(students, 1):
        tab.begin("vsetivli x0, 8, e32, m1, ta, ma", "vid.v v1", "vadd.vx v2, v1, x10")
        tab.command(f"set x10 {number}0")
    for tab in students:
        tab.run("id('number').value = 3")
        tab.click("#many")
    for tab in students * 2:
        own = [f"{0x10 * int(tab.who[1]) + element}" for element in range(8)]
        tab.wait("id('step').textContent.includes('vadd.vx v2, v1, a0')")
        cells = "all(\"#elements .after[data-register='2'] td\").map((cell) => cell.firstChild.data)"
        assert tab.run(cells) == own
        assert "stepped 1 pc=000000000001000c" in tab.text("#log")
        tab.activate().refresh()
        tab.wait("id('elements').textContent.includes(arguments[0])", own[7])
        assert tab.text("#who") == f"Seat {tab.who}" and "> set x10" in tab.text("#log")
        assert tab.run("location.href") == f"http://127.0.0.1:{own_class.port}/"
    students[2].command("2 leave", "* list")
    assert students[2].run("all('#log li').slice(-4).map((item) => item.firstChild.data)") == [
        "> 2 leave", "E03", "> * list", "E03"
    ]  # fmt: skip
    teacher = Tab(tabs, own_class, "teacher")
    assert teacher.run("all('#seats .condition').map((cell) => cell.textContent)") == ["•paused: .word"] * 8
    script = own_class.check_replay(digest_of(teacher)).decode().splitlines()
    steps = sorted(f"{number} step {count}" for number in range(1, 9) for count in (1, 2))
    assert sorted(line for line in script if "step" in line) == steps  # the last of three steps is single


def test_source_is_stepped(sit: Sit) -> None:
    """A source becomes a listing; a click sets a breakpoint, and elements are masked off and tail as vl and v0 say."""
    tab, teacher = sit("A1"), sit("teacher")
    source = (EXAMPLES / "strip_mined.s").read_text("utf-8")
    tab.click("#show-source")
    tab.run("code().setValue(arguments[0])", source)
    tab.click("#assemble")
    tab.wait("id('listing').textContent.includes('next:') && !id('listing').hidden")
    tab.run("all('#listing tr[data-edit]').find((row) => row.textContent.includes('vse32.v')).scrollIntoView()")
    place = tab.run("all('#listing tr[data-edit]').find((row) => row.textContent.includes('vse32.v')).dataset.address")
    tab.click(f"#listing tr[data-address='{place}'] .text")
    tab.wait("one('#listing .breakpoint')?.closest('tr').dataset.address === arguments[0]", place)
    teacher.run("one('[name=ms]').value = 20")
    with dialog(teacher, "settings"):
        teacher.click("[name=on]")
    tab.click("#go")
    tab.wait("id('run').textContent === 'Paused' && id('stop').textContent.includes('breakpoint')")
    count = "all(`#elements .after[data-register='9'] ${arguments[0]}`).length"
    x = [9, 2, 7, 1, 8, 3, 6, 4, 5, 1, 12, 3, 20]  # the example's numbers: those up to 4 are masked off, 8 go at a time
    assert "vl8 of 8" in tab.text("#facts") and "vmacc.vx v9, t1, v8, v0.t" in tab.text("#step")
    assert [tab.run(count, kind) for kind in (".masked", ".tail")] == [sum(each <= 4 for each in x[:8]), 0]
    tab.click("#one")
    tab.wait("all('#bytes .changed').length > 0")
    tab.click("#go")
    tab.wait("id('facts').textContent.includes('vl5 of 8')")
    assert [tab.run(count, kind) for kind in (".masked", ".tail")] == [sum(each <= 4 for each in x[8:]), 3]
    with dialog(teacher, "settings"):
        teacher.click("[name=on]")
        teacher.wait("!one('[name=on]').checked")


def test_mistake_links_to_source_location(sit: Sit) -> None:
    tab = sit("A2")
    tab.click("#show-source")
    tab.run("code().setValue('here: nop\\n  vadd.vv v1, v2\\n  j nowhere\\n')")
    tab.click("#assemble")
    tab.wait("all('#mistakes button').length")
    assert tab.text("#mistakes").startswith("2:17: an operand is missing at the end")
    assert "3:5: nowhere is no register that fits here" in tab.text("#mistakes")
    tab.click("#mistakes button")
    start = tab.run("code().indexFromPos(code().getCursor('from'))")
    assert start == len("here: nop\n  vadd.vv v1, v2")
    assert tab.run("document.activeElement === code().getInputField()")


def _paste_long_sources(tab: Tab) -> None:
    """Sources above the limit are refused."""
    tab.click("#show-source")
    for text in ("nop\n" * 16384 + "#", "#" * 6_000_000):  # the second one has no room in the tab's storage
        tab.run("code().setValue(arguments[0])", text)
        tab.click("#assemble")
        refused = f"This source has {len(text):,} characters, and 65,536 are the most: nothing was sent."
        assert refused in tab.text("#stop")


def _paste_longest_source(tab: Tab) -> None:
    """A source at the limit is assembled."""
    tab.run("code().setValue(arguments[0])", "nop\n" * 1000 + "#" * 61536)
    assert tab.run("text().length") == 65536
    tab.click("#assemble")
    tab.wait("!id('listing').hidden && id('listing').textContent.includes('10000')")


def test_pasted_text_is_taken_or_refused(sit: Sit, served: Served) -> None:
    """A source and lines are taken as they are, or refused in a sentence before anything is sent."""
    from selenium.webdriver.common.keys import Keys

    tab, teacher = sit("A8"), sit("teacher")
    paste = "(id(arguments[0]).focus(), document.execCommand('insertText', false, arguments[1]))"
    put = "((field) => (field.setRangeText(arguments[1]), field.dispatchEvent(new Event('input'))))(id(arguments[0]))"
    lines = [
        "# three lines",
        "enter",
        "map 10000 1 rwx",
        "",
        "map 10000 1 rwx",
        *(f"set x5 {n:x}" for n in range(1, 99)),
    ]
    tab.run(paste, "line", "\r\n".join(lines))
    rows = "Math.round(id('line').clientHeight / parseFloat(getComputedStyle(id('line')).lineHeight))"
    assert tab.run(rows) == 8 and tab.run("id('log').childElementCount") == 0
    tab.keys("#line", Keys.ENTER)
    tab.wait("one(\"[data-edit='set x5']\")?.textContent === '98'")
    asked = tab.run("all('#log .asked').map((item) => item.textContent.slice(2))")
    assert asked == [line for line in lines if line and line[0] != "#"]
    assert "a page is already mapped" in tab.text("#stop")
    script = served.fetch("A/script")
    refused = {
        "regs\nset x5 \u00e9": "Character 8 of line 2, \u00e9, isn't printable ASCII: nothing was sent.",
        "set x5 1\n" * 4097: "These are 4097 lines, and at most 4096 go at once: nothing was sent.",
        "asm 10000 " + "x" * 1013: "1023 characters are in line 1, and at most 1022 may be: nothing was sent.",
    }
    for text, expected in refused.items():
        tab.run(put, "line", text)
        tab.keys("#line", Keys.ENTER)
        assert tab.text("#stop") == expected
        with dialog(teacher, "settings"):
            teacher.run(put, "operator-line", text)
            teacher.keys("#operator-line", Keys.ENTER)
            assert teacher.text("#operator-log li:last-child").replace("`", "") == expected
    _paste_long_sources(tab)
    assert served.fetch("A/script") == script
    _paste_longest_source(tab)


def _check_help(tab: Tab) -> None:
    """`help` describes a command or an instruction only in the browser; a line that is typed has a hint."""
    from selenium.webdriver.common.keys import Keys

    tab.keys("#line", "help peek\n")
    assert tab.text("#stop") == "peek ADDR N: prints 1 to 256 bytes from ADDR"
    assert tab.run("!id('reference').hidden && one('#entries code').textContent") == "peek ADDR N"
    assert tab.run("document.activeElement.id") == "find"
    tab.click("#show-console")
    tab.keys("#line", "help vadd.vi\n")
    sentence = "Adds the immediate to the elements of vs2; the sums wrap around."
    expected = f"{sentence} vd[i] = vs2[i] + vs1[i], where vs1[i] is the immediate"
    assert tab.text("#stop") == f"vadd.vi vd, vs2, imm[, v0.t]: {expected}"
    tab.click("#show-console")
    tab.keys("#line", "help vfadd.vv\n")
    assert tab.text("#stop").startswith("vfadd.vv: Floating point isn't supported")
    tab.click("#show-console")
    tab.keys("#line", "help saturating add\n")
    assert tab.text("#stop") == "" and "vsadd.vv vd, vs2, vs1[, v0.t]" in tab.text("#entries")
    tab.click("#show-console")
    tab.keys("#line", "help dance\n")
    assert "no command and no instruction dance" in tab.text("#stop")
    tab.click("#show-console")
    tab.keys("#line", "pe")
    assert tab.text("#hint") == ""
    tab.keys("#line", "ek 10000")
    tab.keys("#line", Keys.HOME)
    tab.wait("id('hint').textContent.startsWith('peek ADDR N')")
    tab.keys("#line", Keys.CONTROL, "a", Keys.NULL, Keys.DELETE, Keys.F1)
    tab.wait("all('#entries code').length > 700 && all('#entries h3').length === 9")
    _check_search(tab)
    assert "help" not in tab.text("#log")


def _check_search(tab: Tab) -> None:
    """Exactly this name comes first, everyday words find instructions, and F1 shows the entry at the caret."""
    from selenium.webdriver.common.keys import Keys

    names = "all('#entries li > code:first-child').map((each) => each.textContent.split(' ')[0])"
    for name in ("li", "la", "vl", "j", "mv", "ret", "stack", "tail", "reduce", "shuffle"):
        tab.run("id('find').value = ''")
        tab.keys("#find", name)
        tab.wait(f"{names}[0] === arguments[0]", name)
    for words, name in (
        ("load word", "lw"),
        ("multiply signed unsigned widening", "vwmulsu.vv"),
        ("tail agnostic", "ta"),
    ):
        tab.run("id('find').value = ''")
        tab.keys("#find", words)
        tab.wait("id('entries').textContent.includes(arguments[0])", name)
    tab.click("#show-source")
    tab.run("(code().focus(), code().setCursor(2, 10))")
    tab.type(Keys.F1)
    tab.wait(f"id('find').value === {names}[0] && document.activeElement.id === 'find'")


def test_first_view_and_keys_work(sit: Sit) -> None:
    """The source is open; keys are enough to write, step and change it; names have explanations."""
    from selenium.webdriver.common.keys import Keys

    tab = sit("A6")
    assert tab.run("!id('editor').hidden && id('listing').hidden") and "Write a program" in tab.text("#vectors")
    tab.type(Keys.CONTROL, Keys.HOME, Keys.NULL, *[Keys.ARROW_DOWN] * 3, *[Keys.ARROW_RIGHT] * 10)
    tab.wait("id('entry').textContent.startsWith('vadd.vv vd, vs2, vs1')")
    tab.type(Keys.CONTROL, Keys.ENTER)
    tab.wait("id('editor').hidden && !id('listing').hidden && one('#listing .next')")
    tab.keys("#listing", Keys.ARROW_DOWN, Keys.ARROW_DOWN, Keys.ENTER)
    tab.wait("one('#listing .breakpoint')?.closest('tr').dataset.address === '10004'")
    tab.keys("#listing", Keys.F5)
    tab.wait("id('run').textContent === 'Running'")
    tab.keys("#listing", Keys.SHIFT, Keys.F5)
    tab.wait("id('run').textContent === 'Paused'")
    tab.keys("#listing", Keys.F11)
    tab.wait("one('#listing .next').dataset.address === '10004'")
    tab.choose("#view", "all 32 registers")
    for box, keys, place, text in (
        ("registers", [Keys.ARROW_DOWN, Keys.ARROW_RIGHT], "set x1", "0x5"),  # ra has an address
        ("elements", [Keys.ARROW_DOWN, *[Keys.ARROW_RIGHT] * 7], "vset v1 32 7 signed", "5"),
    ):
        tab.keys(f"#{box}", *keys, Keys.ENTER)
        tab.wait("id('edit').open")
        tab.keys("#value", Keys.CONTROL, "a", Keys.NULL, "5", Keys.ENTER)
        tab.wait("one(`[data-edit='${arguments[0]}']`).firstChild.data === arguments[1]", place, text)
        assert tab.run("(one(`#at-${arguments[0]}`) ?? document.activeElement).dataset.edit", box) == place
        assert tab.run("id(arguments[0]).contains(document.activeElement)", box)
    tab.choose("#view", "by element")
    _check_help(tab)


def test_source_fits_low_window(sit: Sit) -> None:
    """Of a laptop's 768 pixels a browser leaves some 650 to a page: what is below a source is in sight there."""
    tab = sit("A4")
    size = {"width": 1366, "height": 650, "deviceScaleFactor": 1, "mobile": False}
    tab.activate().execute_cdp_cmd("Emulation.setDeviceMetricsOverride", size)
    try:
        tab.wait("innerHeight === 650")
        tab.click("#assemble")
        tab.wait("one('#listing .next')")
    finally:
        tab.activate().execute_cdp_cmd("Emulation.clearDeviceMetricsOverride", {})


def test_hidden_rows_are_not_created(tabs: "Chrome", own_class: Served) -> None:
    """A listing of 3,900 rows is as high as if it had all; the next instruction comes into sight, and what is scrolled to."""
    tab = Tab(tabs, own_class, "A1")
    source = "vid.v v1\n" + "addi a0, a0, 1\n" * 3898 + "last: ebreak\n"
    tab.run("(code().setValue(arguments[0]), id('assemble').click())", source)
    tab.wait("!id('listing').hidden && id('registers').textContent.includes('pc0x10000')")
    seen = """((row, box) => row && row.top >= box.top - 2 && row.bottom <= box.bottom + 2)(
        one(`#listing [data-address='${arguments[0]}']`)?.getBoundingClientRect(), id('listing').getBoundingClientRect())"""
    for address in ("10000", "13ce8", "12000"):
        tab.keys("#line", f"setpc {address}\n")
        tab.wait(f"one('#listing .next')?.dataset.address === arguments[0] && {seen}", address)
        assert 40 < tab.run("all('#listing [data-address]').length") < 150
        rows = tab.run("one('#listing table').getBoundingClientRect().height / one('#listing .next').offsetHeight")
        assert rows == pytest.approx(3901, abs=3)
    tab.click("#one")
    tab.wait("one('#listing .told')?.dataset.address === '12000' && one('#listing .next')?.dataset.address === '12004'")
    tab.run("id('listing').scrollTop = 1e9")
    tab.wait(seen, "13cec")
    assert "last:" in tab.text("#listing")
    tab.click("#listing [data-address='13cec'] .text")
    tab.wait("one('#listing .breakpoint')?.closest('tr').dataset.address === '13cec'")
    tab.run("id('listing').scrollTop = 0")
    tab.wait(seen, "10000")


def test_values_are_edited_by_clicks_and_keys(sit: Sit) -> None:
    from selenium.webdriver.common.keys import Keys

    tab = sit("A3")
    tab.begin("vsetivli x0, 8, e32, m1, ta, ma", "vadd.vv v2, v1, v1")
    tab.click("#one")
    tab.wait("id('facts').textContent.includes('vl8 of 8')")

    def change(selector: str, text: str) -> None:
        before = tab.run("all('#log .asked').length")
        tab.click(selector)
        tab.wait("id('edit').open")
        tab.keys("#value", Keys.CONTROL, "a", Keys.NULL, text, Keys.ENTER)
        tab.wait("all('#log .asked').length > arguments[0] && !one('#log > li:last-child').matches('.asked')", before)

    change("[data-edit='set x10']", "31")
    assert tab.text("[data-edit='set x10']") == "31"
    change("[data-edit='setpc']", "10004")
    assert tab.text("[data-edit='setpc']") == "0x10004"
    tab.command("peek 20000 16", "vset v1 " + "00" * 32)
    tab.click("#show-memory")
    change("[data-edit='poke 20002']", "0aff")
    assert tab.text("tr[data-address='20000']").startswith("0x2000000 00 0a ff00")
    tab.choose("#form", "hexadecimal")
    tab.choose("#view", "all 32 registers")
    change("[data-edit='vset v1 32 3 hexadecimal']", "89abcdef")
    assert tab.text("[data-edit='vset v1 32 3 hexadecimal']").startswith("89abcdef")
    tab.choose("#form", "signed")
    change("[data-edit='vset v1 32 0 signed']", "-2")
    tab.choose("#form", "hexadecimal")
    assert tab.text("[data-edit='vset v1 32 0 hexadecimal']").startswith("fffffffe")
    assert tab.text("[data-edit='vset v1 32 3 hexadecimal']").startswith("89abcdef")
    tab.click("#show-registers")
    tab.click("[data-edit='set x10']")
    tab.keys("#value", Keys.CONTROL, "a", Keys.NULL, "-g", Keys.ENTER)
    tab.wait("id('stop').textContent.startsWith(arguments[0])", "-g isn't a hexadecimal number of 64 bits")
    assert not tab.run("id('edit').open")
    tab.click("[data-edit='vset v1 32 3 hexadecimal']")
    tab.keys("#value", Keys.CONTROL, "a", Keys.NULL, "1ffffffff", Keys.ENTER)
    tab.wait("id('stop').textContent.startsWith(arguments[0])", "1ffffffff isn't a hexadecimal number of 32 bits")
    assert "1ffffffff" not in tab.text("#log")


def test_earlier_lines_and_refusals_are_shown(sit: Sit) -> None:
    from selenium.webdriver.common.keys import Keys

    tab = sit("A4")
    tag = "<img src=x onerror=document.title=1>"
    tab.command("enter", "map 10000 1 rwx", "map 10000 1 rwx", tag)
    assert "E03: there is no command <img" in tab.text("#stop") and tag in tab.text("#stop")
    assert "a page is already mapped" in tab.text("#log") and f"> {tag}" in tab.text("#log")
    tab.keys("#line", Keys.ARROW_UP)
    assert tab.run("id('line').value") == tag
    tab.keys("#line", Keys.ARROW_UP)
    assert tab.run("id('line').value") == "map 10000 1 rwx"
    tab.keys("#line", Keys.ARROW_DOWN, Keys.ARROW_DOWN)
    assert tab.run("id('line').value") == ""
    tab.command("asm 10000 vle32.v v1, (x1)", "setpc 10000", "step 1")
    assert "vill" in tab.text("#stop") and tab.text("#run") == "Fault"
    tab.keys("#line", "é\n")
    refusal = "Character 1 of line 1, é, isn't printable ASCII: nothing was sent."
    tab.wait(
        "id('stop').textContent === arguments[0]", refusal
    )  # and not the stop as well, which is in the status line
    assert "vill" in tab.text("#step") and "vle32.v" in tab.text("#step")
    tab.command("step 1")
    tab.wait("id('stop').textContent.includes('vill') && !id('step').textContent.includes('vill')")
    tab.run("id('show-source')?.click()")  # the listing hides the button
    tab.copied_link()
    assert "vill" in tab.text("#step")
    teacher = sit("teacher")
    look_at(teacher, "A4")
    teacher.wait("id('log').textContent.includes(arguments[0])", tag)
    assert "vill" in teacher.text("#stop") and "vle32.v" in teacher.text("#listing")
    with dialog(teacher, "settings"):
        teacher.keys("#operator-line", f"{tag}\n")
        teacher.wait("id('operator-log').textContent.includes('E03there is no command <img') && !one('img')")
        teacher.keys("#operator-line", "slices 0\n")
        teacher.wait("id('operator-log').textContent.includes(\"0 isn't from 1 to 1,000; the form is * slices N\")")
    assert teacher.run("document.title") == "Teacher – vecmon" and tab.run("!one('img') && document.title").startswith(
        "Seat"
    )
    tab.command("asm 10000 addi x1, x0, 4096")
    marked = "addi x1, x0, 4096\n             ^"  # each column as wide as the other ones
    for box in ("#stop", "#log"):
        assert marked in tab.text(box) and "4096 doesn't fit here" in tab.text(box)
        assert tab.run(f"getComputedStyle(one('{box} code:last-of-type')).fontFamily").endswith("monospace")


def test_teacher_page_changes_settings(sit: Sit, tmp_path: pathlib.Path, served: Served) -> None:
    """The teacher's page has a student's stop; rights, operator's lines, a new code, downloads, files to take home."""
    tab, teacher = sit("A5"), sit("teacher")
    status = "one(\"#seats [data-seat='A5'] .condition\").textContent"
    tab.begin(*COUNT_UP)
    tab.command("break 10004")
    tab.click("#go")
    teacher.wait(f"{status} === '▶running'")
    look_at(teacher, "A5")
    teacher.click("[data-dialog='settings']")
    teacher.keys("#operator-line", "run 5\n")
    teacher.wait(f"{status} === '•at a breakpoint'")
    teacher.wait("id('operator-log').textContent.includes('granted 1') && id('listing').querySelector('.breakpoint')")
    tab.wait("id('run').textContent === 'Paused'")
    teacher.click("[name=own]")
    tab.wait("id('slice').hidden")
    teacher.click("[name=own]")
    tab.wait("!id('slice').hidden")
    tab.click("#go")
    tab.wait("!id('slice').disabled")
    tab.click("#slice")
    tab.wait("all('#log li').at(-1).textContent.startsWith('break')")
    for name in ("script", "transcript"):
        expected = served.fetch(f"A/{name}")
        saved = teacher.save(f"[name={name}]", tmp_path / f"A.{name}.txt", lambda data: len(data) >= len(expected))
        assert saved == expected
    tab.click("#menu summary")
    tab.save("#home", tmp_path / "A5.zip", lambda data: zipfile.is_zipfile(io.BytesIO(data)))
    with zipfile.ZipFile(tmp_path / "A5.zip") as packed:
        assert packed.namelist() == ["A5/A5.script", "A5/A5.html", "A5/playground.json"]
        assert b"5 break 10004\n" in packed.read("A5/A5.script")
    tab.wait("!id('home').disabled && !id('hint').textContent")
    old = served.codes["A5"]
    teacher.click("#settings .done")
    teacher.click("[data-dialog='join-class']")
    teacher.click("[aria-label='New code for seat A5']")
    teacher.click("#yes")
    tab.wait("!id('join').hidden && id('head').hidden")
    assert "isn't valid" in tab.text("#join-says") and tab.run("sessionStorage.getItem('code')") is None
    assert served.codes["A5"] != old
    teacher.wait("one(\"[data-code='A5'] a\")?.hash === '#' + arguments[0]", served.codes["A5"])
    tab.keys("#code", served.codes["A5"] + "\n")
    tab.wait("id('who').textContent === 'Seat A5'")
    served.check_replay(digest_of(teacher))


def test_code_is_stored_for_tab_only(sit: Sit, served: Served) -> None:
    tab = sit("A6")
    code = served.codes["A6"]
    assert tab.run("sessionStorage.getItem('code')") == code
    assert tab.run("location.hash + document.cookie + Object.keys(localStorage).join() + history.length")[:-1] == PANES
    assert code not in tab.run("document.documentElement.outerHTML")
    tab.click("#menu summary")
    tab.click("#forget")
    assert "forgets its code" in tab.text("#question")
    tab.click("#yes")
    tab.wait("!id('join').hidden")
    assert tab.run("sessionStorage.length") == 0
    tab.keys("#code", "wrong\n")
    tab.wait("id('join-says').textContent.includes(\"isn't valid\")")
    tab.activate().get(served.address("A7"))
    tab.wait("id('who').textContent === 'Seat A7'")
    tab.activate().get(served.address("A6"))  # another code in the same tab
    tab.wait("id('who').textContent === 'Seat A6' && location.hash === ''")


def test_tab_reconnects_after_server_restart(tabs: "Chrome", own_class: Served) -> None:
    """Tabs go on without a reload: a request under way is reported and not sent again, and those that wait are sent."""
    tab, teacher = Tab(tabs, own_class, "A1"), Tab(tabs, own_class, "teacher")
    tab.begin(*COUNT_UP)
    tab.click("#one")
    tab.wait("id('step').textContent.includes('addi t0')")
    tab.run("window.marked = 1")
    look_at(teacher, "A1")
    (machine,) = own_class.programs()
    os.kill(machine, signal.SIGSTOP)
    tab.click("#one")
    tab.keys("#line", "set x7 1\nset x8 2\n")
    own_class.kill()
    os.kill(machine, signal.SIGKILL)
    tab.wait("id('gone').textContent.includes('is gone')")
    assert tab.text("#gone").endswith("Waiting: a step, set x7 1, set x8 2.")
    tab.click("#one")
    assert tab.text("#run") == "No connection" and tab.run("id('one').disabled")
    own_class.begin()
    tab.wait("id('gone').textContent.startsWith('The server is there again.')")
    assert "a step was under way" in tab.text("#gone")
    tab.wait("one(\"[data-edit='set x8']\").textContent === '2'")
    steps = tab.run("all('#log .asked').filter((item) => item.textContent === '> step 1').length")
    assert steps in (1, 2)
    tab.command("set x9 9")
    tab.wait("one(\"[data-edit='set x9']\").textContent === '9' && one(\"[data-edit='set x7']\").textContent === '1'")
    assert tab.run("window.marked === 1 && id('gone').hidden")
    tab.click("#backward")
    tab.wait("id('says-past').textContent.includes('past: step')")  # which the script of the server before has
    assert tab.text("[data-edit='set x9']") == "0"
    tab.run("(id('moment').value = 0, id('moment').dispatchEvent(new Event('input')))")
    tab.wait("id('says-past').textContent.includes('step 0 of')")
    assert "executed" not in tab.text("#step")
    tab.click("#now")
    teacher.wait("id('gone').hidden && !id('desk').hidden && id('log').textContent.includes('set x9 9')")
    script = own_class.check_replay(digest_of(teacher)).decode().splitlines()
    assert script.count("1 step 1") == steps and script.count("1 set x7 1") == script.count("1 set x8 2") == 1


def test_teacher_controls_two_machines(program: pathlib.Path, tmp_path: pathlib.Path, tabs: "Chrome") -> None:
    """The teacher sees both, and says which one an operator's line is for."""
    served = Served(tmp_path / "class", program, "--machines", "2")
    tab, teacher = Tab(tabs, served, "B8"), Tab(tabs, served, "teacher")
    tab.begin(*COUNT_UP)
    assert teacher.run("all('#machines h3').map((head) => head.textContent).join()") == "Machine A,Machine B"
    teacher.wait("one(\"[data-seat='B8'] .condition\").textContent === '•paused: addi'")
    assert teacher.run("all('#seats .work').length") == 1
    teacher.click("[data-dialog='settings']")
    teacher.run("id('operated').value = 'B'")
    teacher.keys("#operator-line", "list\n")
    teacher.wait("id('operator-log').textContent.includes('B * list 1:- 2:- 3:- 4:- 5:- 6:- 7:- 8:stopped')")
    served.end()


def test_tab_shows_killed_and_hanging_program(program: pathlib.Path, tmp_path: pathlib.Path, tabs: "Chrome") -> None:
    """Students see nothing but a delay, and the replay is the same."""
    served = Served(tmp_path / "class", program, "--patience", "3")
    tab, teacher = Tab(tabs, served, "A1"), Tab(tabs, served, "teacher")
    tab.begin(*COUNT_UP)
    for sign, place, count in ((signal.SIGKILL, "10004", "4"), (signal.SIGSTOP, "10000", "7")):
        (machine,) = served.programs()
        os.kill(machine, sign)
        tab.command("step 7")
        assert tab.text("#log > li:last-child") == f"stepped 7 pc=00000000000{place}"
        assert tab.text("[data-edit='set x5']") == count
        teacher.wait("one('.figures').textContent.includes('Processes replaced')")
        served.check_replay(digest_of(teacher))
    served.end()


def test_pages_have_contrast_and_fit_narrow_windows(sit: Sit) -> None:
    tab, teacher = sit("A8"), sit("teacher")
    tab.begin("vsetivli x0, 5, e16, mf2, tu, mu", "vadd.vi v2, v1, 1, v0.t", *COUNT_UP)
    tab.run("id('number').value = 2")
    tab.click("#many")
    tab.command("dance")
    look_at(teacher, "A8")
    teacher.wait("id('listing').textContent.includes('vadd.vi')")
    for page in (tab, teacher):
        page.activate()
        for scheme in ("light", "dark"):
            media(page.browser, prefers_color_scheme=scheme, prefers_reduced_motion="reduce")
            assert page.browser.execute_script(CONTRAST) == []
        for width in (1280, 800):
            size = {"width": width, "height": 800, "deviceScaleFactor": 1, "mobile": False}
            page.browser.execute_cdp_cmd("Emulation.setDeviceMetricsOverride", size)
            assert page.run("document.documentElement.scrollWidth") <= width
        page.browser.execute_cdp_cmd("Emulation.clearDeviceMetricsOverride", {})
        media(page.browser)


def test_focus_is_visible_and_controls_have_names(sit: Sit) -> None:
    from selenium.webdriver.common.keys import Keys

    tab, teacher = sit("A7"), sit("teacher")
    tab.begin(*COUNT_UP)
    look = """[document.activeElement, getComputedStyle(document.activeElement).outlineStyle].map((each) =>
        typeof each === 'string' ? each : each === document.body ? '' : each.id || each.ariaLabel || each.textContent)"""
    for page, expected in (
        (
            tab,
            {"one", "go", "More steps", "Menu", "line", "show-listing", "listing", "form", "view", "log"},
        ),
        (teacher, {"next-help", "open-join", "Choose seat A7", "A7 ", "show-message", "words"}),
    ):
        page.activate()
        seen = dict[str, str]()
        for _ in range(60):
            press(page.browser, Keys.TAB)
            name, style = page.run(look)
            if name:
                seen[name] = style
        assert set(seen.values()) == {"solid"} and expected <= seen.keys()
        nameless = """all('button, input, select, textarea').filter((each) => each.checkVisibility()
            && !each.ariaLabel && !each.labels?.length && !each.textContent.trim()).map((each) => each.id || each.name)"""
        assert page.run(nameless) == []
    assert tab.run("id('log').ariaLive + id('stop').ariaLive") == "politepolite"
