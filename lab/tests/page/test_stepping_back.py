"""A class's page goes back through the instructions of its program, and asks where something would be lost."""

from page.conftest import Sit
from support.class_pages import Tab, dialog, look_at

SHOWN_ADDRESS = "one('#listing .told')?.dataset.address"
V1 = "all(\"#elements .after[data-register='1'] td\").map((cell) => cell.firstChild.data).join(' ')"
FAULTING = "li t0, 5\nli t1, 0x50000\nloop: addi t0, t0, -1\nbnez t0, loop\nsw t0, 0(t1)\nebreak\n"
DOUBLES = "vsetivli zero, 8, e32, m1, ta, ma\nvid.v v1\nvadd.vv v2, v1, v1\nli a0, 7\nebreak\n"


def _enter(tab: Tab, line: str) -> None:
    """Type a command of the page, which is no line of the machine."""
    tab.run("(id('line').value = arguments[0], id('command').requestSubmit())", line)


def _check_read_only(tab: Tab) -> None:
    """An earlier state can't be changed."""
    asked = tab.run("all('#log .asked').length")
    for button in ("step-over", "step-out", "again", "new"):
        assert tab.run("id(arguments[0]).matches(':disabled')", button)
    tab.click("#listing [data-address='10008'] .text")
    tab.click("[data-edit='set x10']")
    assert tab.run("all('#log .asked').length") == asked and not tab.run("id('edit').open || one('.breakpoint')")


def _step_thrice(tab: Tab, teacher: Tab) -> None:
    """Step a source at a seat that the teacher watches."""
    tab.run("code().setValue(arguments[0])", DOUBLES)
    tab.click("#assemble")
    tab.wait("one('#listing .next')")
    look_at(teacher, "A1")
    teacher.wait("one('#listing .next')")
    teacher.click("#tab-vectors")
    for address in ("10000", "10004", "10008"):
        tab.click("#one")
        tab.wait(f"{SHOWN_ADDRESS} === arguments[0]", address)
        teacher.wait(f"{SHOWN_ADDRESS} === arguments[0]", address)


def test_steps_back_and_forth(sit: Sit) -> None:
    """An earlier state is shown, marked as the past, and can't be changed; Now returns to the present, and so does a line."""
    from selenium.webdriver.common.keys import Keys

    tab, teacher = sit("A1"), sit("teacher")
    _step_thrice(tab, teacher)
    for page in (tab, teacher):
        assert page.run("[id('forth').disabled, id('now').disabled, id('says-past').hidden]") == [True, True, True]
        page.click("#backward")
        page.wait(f"{SHOWN_ADDRESS} === '10004'")
        assert page.text("#says-past") == "This is the past: step 2 of 3."
    tab.keys("#listing", Keys.F7)
    tab.wait(f"{SHOWN_ADDRESS} === '10000'")
    assert "step 1 of 3" in tab.text("#says-past")
    assert "vsetivli" in tab.text("#step") and tab.run("id('facts').textContent.includes('vl8 of 8')")
    tab.keys("#listing", Keys.SHIFT, Keys.F7, Keys.NULL)
    tab.wait(f"{SHOWN_ADDRESS} === '10004'")
    assert tab.run(V1) == "0 1 2 3 4 5 6 7"
    _check_read_only(tab)
    tab.keys("#listing", Keys.ESCAPE)
    assert (
        tab.run(SHOWN_ADDRESS) == "10008"
        and tab.run("id('says-past').hidden")
        and not tab.run("id('one').matches(':disabled')")
    )
    tab.run("(id('moment').value = 0, id('moment').dispatchEvent(new Event('input')))")
    tab.wait("id('says-past').textContent.includes('step 0 of 3')")
    assert tab.run(SHOWN_ADDRESS) is None and tab.run("id('backward').disabled")
    tab.command("step 1")
    assert (
        tab.run(SHOWN_ADDRESS) == "1000c"
        and tab.text("[data-edit='set x10']") == "7"
        and tab.run("id('says-past').hidden")
    )
    # who stays in the past
    assert teacher.run(SHOWN_ADDRESS) == "10004" and "step 2 of 4" in teacher.text("#says-past")
    teacher.click("#now")
    assert teacher.run(SHOWN_ADDRESS) == "1000c"


def test_steps_come_back_with_the_page(sit: Sit) -> None:
    """The server has them: a page that is opened after a step goes back to the start."""
    tab = sit("A4")
    tab.write(DOUBLES)
    assert tab.text("#moment-count") == "step 0, now"
    tab.click("#one")
    tab.wait(f"{SHOWN_ADDRESS} === '10000'")
    tab.browser.refresh()
    tab.wait(f"{SHOWN_ADDRESS} === '10000'")
    assert tab.text("#moment-count") == "step 1, now"
    tab.click("#backward")
    tab.wait("id('moment-count').textContent === 'step 0 of 1'")
    assert tab.run("id('backward').disabled") and tab.text("#run") == "Ready"
    tab.click("#now")


def test_steps_back_over_run(sit: Sit) -> None:
    """A program that was stopped after 300 ticks goes back by instructions: 150 additions, and 149 two instructions before."""
    tab, teacher = sit("A2"), sit("teacher")
    tab.begin("addi x5, x5, 1", "jal x0, -4")
    tab.command("set x5 0", "go")
    tab.wait("id('run').textContent === 'Running'")
    with dialog(teacher, "settings"):
        teacher.keys("#operator-line", "slices 3\n")
    tab.wait("id('registers').textContent.includes('x5')")
    tab.command("stop")
    tab.wait("id('run').textContent === 'Paused' && one(\"[data-edit='set x5']\").textContent !== '0'")
    tab.wait("id('moment-count').textContent === 'step 300, now'")
    assert tab.text("[data-edit='set x5']") == "150"
    tab.click("#backward")
    tab.wait("id('moment-count').textContent === 'step 299 of 300'")
    assert tab.text("[data-edit='set x5']") == "150"
    _enter(tab, "back")
    tab.wait("id('moment-count').textContent === 'step 298 of 300'")
    assert tab.text("[data-edit='set x5']") == "149"
    tab.click("#now")


def test_back_after_run_stays_in_the_program(sit: Sit) -> None:
    """After a step of a program, another one runs to a fault. The step before it has its own condition, and its own source."""
    tab = sit("A5")
    tab.run("code().setValue(arguments[0])", "li a0, 111\nebreak\n")
    tab.click("#one")
    tab.wait("one(\"[data-edit='set x10']\")?.textContent === '111'")
    tab.run("code().setValue(arguments[0])", FAULTING)
    tab.click("#go")
    tab.wait("id('run').textContent === 'Running'")
    tab.click("#slice")
    tab.wait("id('run').textContent === 'Fault' && id('moment-count').textContent === 'step 12, now'")
    tab.click("#backward")
    tab.wait("id('moment-count').textContent === 'step 11 of 12'")
    assert tab.text("#run") == "Paused" and tab.text("#run-place") == "after line 3 · next line 4"
    assert tab.text("[data-edit='set x10']") == "0" and tab.text("#stop") == ""
    tab.click("#one")
    tab.wait("id('run').textContent === 'Fault' && id('says-past').hidden")
    _enter(tab, "back 12")
    tab.wait("id('moment-count').textContent === 'step 0 of 12'")
    assert tab.text("#run") == "Ready" and tab.text("#run-place") == "next line 1"
    tab.click("#go")
    tab.wait("id('run').textContent === 'Fault' && id('says-past').hidden")
    tab.run("code().setValue('nop')")
    tab.click("#backward")
    tab.wait("id('moment-count').textContent === 'step 11 of 12'")
    texts = "all('.CodeMirror').filter((each) => each.checkVisibility()).map((each) => each.CodeMirror.getValue())"
    note = "one('.of-built').checkVisibility()"
    assert tab.run(texts) == [FAULTING] and tab.run(note)
    tab.click("#now")
    tab.wait(f"{texts}[0] === 'nop' && !{note}")


def test_restart_warns_about_lost_state(sit: Sit) -> None:
    """Again begins with the same source and breakpoints in one click; a new machine asks where this one has anything."""
    tab = sit("A3")
    assert tab.run("id('again').disabled")
    tab.run("code().setValue(arguments[0])", DOUBLES)
    tab.click("#assemble")
    tab.wait("one('#listing .next')")
    tab.click("#listing [data-address='10008'] .text")
    tab.wait("one('.breakpoint')")
    tab.run("id('number').value = 3")
    tab.click("#many")
    tab.wait("id('run').textContent === 'Paused' && one('#listing .next').dataset.address === '10008'")
    tab.run("code().setValue('nop')")  # not written
    tab.click("#again")
    tab.wait("id('run').textContent === 'Ready' && one('#listing .next').dataset.address === '10000'")
    assert tab.run("one('.breakpoint').closest('tr').dataset.address") == "10008" and not tab.run(SHOWN_ADDRESS)
    assert "li a0, 7" in DOUBLES and "addi a0, zero, 7" in tab.text("#listing")
    tab.click("#new")
    assert "would be lost" in tab.text("#question")
    tab.click("#no")
    assert "vid.v" in tab.text("#listing") and "> setpc 10000" != tab.run("all('#log .asked').at(-1).textContent")
    tab.click("#new")
    tab.click("#yes")
    tab.wait("!id('listing').textContent.includes('vid.v') && id('again').disabled")
    tab.click("#new")  # which has nothing
    tab.wait("all('#log .asked').filter((item) => item.textContent === '> enter').length === 4")
    assert not tab.run("id('ask').open")
    tab.click("#menu summary")
    tab.click("#forget")
    tab.click("#no")
    assert tab.text("#who") == "Seat A3" and not tab.run("id('ask').open")
