"""The run bar and its keys: a changed source is built first, steps go over calls and out of functions, and what is off says why."""

import pathlib
from typing import TYPE_CHECKING

from page.conftest import Sit
from support.class_pages import Served, Tab, press_key

if TYPE_CHECKING:
    from selenium.webdriver import Chrome

DOUBLES = "vsetivli zero, 8, e32, m1, ta, ma\nvid.v v1\nvadd.vv v2, v1, v1\nebreak\n"
CALL = "li a0, 1\njal ra, twice\nebreak\ntwice: add a0, a0, a0\nret\n"  # at 10000, 10004, 10008, 1000c, 10010
A0 = "one(\"[data-edit='set x10']\").textContent"
NEXT = "one('#listing .next')?.dataset.address"
CONDITION = "id('run').textContent"

# The keys of docs/CLASS.md, each with the button that does the same.
KEYS = {
    "F5": "go",
    "Shift+F5": "halt",
    "Control+Shift+F5": "again",
    "F11": "one",
    "Control+F11": "one",
    "F10": "step-over",
    "Shift+F11": "step-out",
    "F9": "break-here",
    "F7": "backward",
    "Shift+F7": "forth",
    "Escape": "now",
    "F8": "next-problem",
    "Shift+F8": "previous-problem",
    "Control+Shift+B": "assemble",
    "Control+Enter": "assemble",
    "Control+Shift+Enter": "check",
    "Control+B": "fold-exercise",
    "Control+J": "fold-dock",
    "F6": "next-pane",
    "Shift+F6": "previous-pane",
    "F1": "show-reference",
    "Alt+Shift+H": "hand",
}


def write(tab: Tab, text: str) -> None:
    """Puts a source into the editor, as typing does."""
    tab.run("code().setValue(arguments[0])", text)


def test_run_and_step_build_a_changed_source(sit: Sit) -> None:
    """The first step loads the source; a change loads it anew, with the breakpoints; with problems the machine stays."""
    tab = sit("A1")
    assert tab.text("#run") == "Not begun"
    write(tab, DOUBLES)
    tab.click("#one")
    tab.wait(f"{CONDITION} === 'Paused' && {NEXT} === '10004'")
    tab.click("#show-listing")
    tab.click("#listing [data-address='10008'] .text")
    tab.wait("one('.breakpoint')")
    tab.click("#show-source")
    write(tab, f"li a0, 5\n{DOUBLES}")
    tab.click("#one")
    tab.wait(f"{A0} === '5' && {NEXT} === '10004'")
    assert tab.run("one('#listing .breakpoint').closest('tr').dataset.address") == "1000c"
    write(tab, "li a0, 6\nvadd v1\n")
    tab.click("#one")
    tab.wait("all('#mistakes li').length === 1 && code().getSelection() === 'vadd'")
    assert tab.run(A0) == "5" and tab.text("#run") == "Paused" and tab.text("#problems-count") == "1"


def test_stop_of_the_program_before_is_gone_while_another_is_built(sit: Sit) -> None:
    """Requests stay in the browser, so that the next program isn't built yet."""
    tab = sit("A2")
    write(tab, "ebreak\n")
    tab.click("#one")
    tab.wait("id('stop').textContent.includes('ebreak')")
    tab.run("WebSocket.prototype.send = () => {}")
    write(tab, "nop\n")
    tab.click("#one")
    tab.wait("id('run').dataset.condition === 'Assembling'")
    assert tab.text("#stop") == ""


def test_step_over_and_out_of_a_function(sit: Sit) -> None:
    tab = sit("A2")
    write(tab, CALL)
    tab.click("#one")
    tab.wait(f"{NEXT} === '10004'")
    press_key(tab, "F10")
    tab.wait(f"{NEXT} === '10008' && {A0} === '2'")
    press_key(tab, "Control+Shift+F5")
    tab.wait(f"{CONDITION} === 'Ready' && {NEXT} === '10000'")
    for address in ("10004", "1000c"):
        press_key(tab, "F11")
        tab.wait(f"{NEXT} === arguments[0]", address)
    assert tab.run("id('editor').checkVisibility()"), "a reset changes the tab"
    press_key(tab, "Shift+F11")
    tab.wait(f"{NEXT} === '10008' && {A0} === '2'")
    press_key(tab, "Control+Shift+F5")
    tab.wait(f"{CONDITION} === 'Ready'")
    tab.run("(id('until-line').value = 5, id('until-go').click())")
    tab.wait(f"{NEXT} === '10010' && {A0} === '2'")


def test_loading_a_program_is_one_entry_of_the_console(sit: Sit) -> None:
    """It unfolds to all its lines: a new machine, a page, four instructions, the ebreak after them, the start, and the program counter."""
    tab = sit("A3")
    write(tab, DOUBLES)
    tab.click("#assemble")
    tab.wait(f"{CONDITION} === 'Ready'")
    (entry,) = tab.run("all('#log > li').map((item) => item.querySelector('summary').textContent)")
    assert entry == "Load 4 instructions, from 0x10000 (13 lines)"
    assert not tab.run("one('#log details').open")
    asked = tab.run("all('#log .group .asked').map((item) => item.textContent.split(' ')[1]).join(' ')")
    assert asked == "enter map asm asm asm asm asm map set map poke set setpc"
    tab.command("set x5 1")
    assert tab.run("all('#log > .asked').map((item) => item.textContent)") == ["> set x5 1"]


def test_each_key_presses_its_button(tabs: "Chrome", program: pathlib.Path, tmp_path: pathlib.Path) -> None:
    """Each has one button, which it presses; the browser leaves the key to the page. Buttons name their keys."""
    served = Served(tmp_path / "class", program, "--course")
    try:
        tab = Tab(tabs, served, "A1")
        tab.wait("!id('exercise').hidden && text()")
        names = "all(`button:not(.teacher)[aria-keyshortcuts~='${arguments[0]}']`).map((each) => each.id || each.textContent)"
        for key, button in KEYS.items():
            assert tab.run(names, key) == [button]
        assert tab.run("all('button[aria-keyshortcuts]:enabled').every(({ title }) => title.endsWith(')'))")
        listen = """document.addEventListener('click', (event) => { event.stopImmediatePropagation(); event.preventDefault();
            window.pressed = event.target.id || event.target.textContent; }, true)"""
        held = "window.addEventListener('keydown', (event) => (window.isHeld = event.defaultPrevented))"
        tab.run(f"({listen}, {held})")
        for key, button in KEYS.items():
            tab.run("all('button:disabled').forEach((each) => (each.disabled = false))")
            tab.run("id('exercise').classList.remove('choosing')")  # as with an open exercise
            tab.run("(window.pressed = window.isHeld = null)")
            press_key(tab, key)
            tab.wait("window.isHeld !== null")
            assert (key, tab.run("[pressed, isHeld]")) == (key, [button, True])
    finally:
        served.end()


def test_earlier_keys_name_the_new_ones(sit: Sit) -> None:
    """Without a problem to go to, F8 steps, as in version 1.0, and says which key does; so does Ctrl F9."""
    tab = sit("A6")
    write(tab, DOUBLES)
    press_key(tab, "F8")
    tab.wait(f"{NEXT} === '10004'")
    assert tab.text("#key-says") == "Step is F11 now."
    press_key(tab, "Control+F9")
    tab.wait(f"{NEXT} === '10000'")
    assert tab.text("#key-says") == "Reset is Ctrl Shift F5 now."
    write(tab, "foo\nnop\nbar\n")
    press_key(tab, "F5")
    selected = "code().getSelection()"
    tab.wait(f"all('#mistakes li').length === 2 && {selected} === 'foo'")
    for word in ("bar", "foo"):
        press_key(tab, "F8")
        assert tab.run(selected) == word and tab.text("#key-says") == ""
    press_key(tab, "Shift+F8")
    assert tab.run(selected) == "bar"


def test_run_shows_what_its_last_instruction_read(sit: Sit) -> None:
    """`vadd.vv v1, v1, v1` doubles 0 to 7; the sources that it has written over come from a second machine."""
    tab = sit("A8")
    write(tab, "vsetivli zero, 8, e32, m1, ta, ma\nvid.v v1\nvadd.vv v1, v1, v1\nebreak\n")
    tab.click("#assemble")
    tab.wait(f"{CONDITION} === 'Ready'")
    tab.command("break 1000c")
    tab.click("#go")
    tab.wait("!id('slice').disabled")
    tab.click("#slice")
    cells = "all(`#elements .${arguments[0]} td[data-element]`).map((cell) => cell.firstChild.data).join(' ')"
    tab.wait(f"{cells} === '0 1 2 3 4 5 6 7'", "before")
    assert tab.run(cells, "after") == "0 2 4 6 8 10 12 14" and "Several instructions" not in tab.text(".card")


def test_what_is_off_says_why(sit: Sit) -> None:
    tab = sit("A7")
    title = "id(arguments[0]).title"
    assert tab.run(title, "halt") == "No program runs." and tab.run(title, "again").startswith("No source is loaded")
    press_key(tab, "Shift+F5")
    assert tab.text("#key-says") == "No program runs."
    write(tab, "")
    assert tab.run(title, "one") == "There is no program: write a source first."
    write(tab, "loop: j loop\n")
    assert tab.run(title, "one") == "Step, into a function that is called (F11 or Ctrl F11)"
    press_key(tab, "F5")
    tab.wait(f"{CONDITION} === 'Running'")
    assert tab.run(title, "one") == "The program runs: stop it first." and not tab.run("id('halt').disabled")
    press_key(tab, "Shift+F5")
    tab.wait(f"{CONDITION} === 'Paused' && id('go').textContent === 'Continue'")
    write(tab, "ebreak\n")
    assert tab.text("#go") == "Run"  # which loads the source
    press_key(tab, "F11")
    tab.wait(f"{CONDITION} === 'Ended'")
    press_key(tab, "F11")
    ended = "The program has ended: Run or Reset starts it again."
    assert tab.run(title, "one") == tab.text("#key-says") == ended and not tab.run("id('go').disabled")
    write(tab, "nop\nebreak\n")  # which a step loads
    assert tab.run(title, "one").startswith("Step, into")


def test_new_machine_is_compared_with_no_earlier_one(sit: Sit) -> None:
    """After a step that loads a source, and after Reset, only values are marked that the new program has written."""
    tab = sit("A5")
    marked = "all('#registers .changed, #facts .changed, .lanes .changed').map((each) => each.dataset.edit ?? each.textContent)"
    write(tab, "li t0, 9\nvsetivli zero, 8, e32, m1, ta, ma\nvid.v v1\nebreak\n")
    tab.run("id('number').value = 4")
    tab.click("#many")
    tab.wait(f"{CONDITION} === 'Ended'")
    tab.wait("id('vectors').textContent.includes('v1')")
    write(tab, "li a0, 5\nebreak\n")
    tab.click("#one")
    tab.wait(f"{A0} === '5'")
    assert tab.run(marked) == ["set x10"] and not tab.run("id('vectors').textContent.includes('v1')")
    tab.click("#again")
    tab.wait(f"{CONDITION} === 'Ready' && {A0} === '0'")
    assert tab.run(marked) == []


def test_registers_in_use_are_those_of_a_long_program(sit: Sit) -> None:
    """Its load takes several turns at the machine, whose messages come one by one; the program before used another register."""
    tab = sit("A6")
    for lines, register, other in ((0, 7, 1), (400, 1, 7)):
        write(tab, f"vsetivli zero, 8, e32, m1, ta, ma\nvid.v v{register}\nebreak\n" + "nop\n" * lines)
        tab.run("id('number').value = 3")
        tab.click("#many")
        tab.wait(f"{CONDITION} === 'Ended' && id('vectors').textContent.includes('v{register}')")
        assert not tab.run(f"id('vectors').textContent.includes('v{other}')")


def test_loaded_image_opens_its_listing(sit: Sit) -> None:
    """Also over a machine that has a source, where Source is in sight; an image that isn't loaded opens nothing."""
    tab = sit("A5")
    shown = "[id('editor').checkVisibility(), id('listing').checkVisibility()]"
    write(tab, "nop\nebreak\n")
    tab.click("#one")
    tab.wait(f"{CONDITION} === 'Paused'")
    tab.click("#show-source")
    tab.command("load other")
    assert tab.run(shown) == [True, False]
    tab.choose("#images", "sum")
    tab.click("#yes")
    tab.wait(f"{CONDITION} === 'Ready' && {shown}.join() === 'false,true'")


def test_fault_outside_of_memory_names_the_address(sit: Sit) -> None:
    """Nothing is mapped at address 0."""
    tab = sit("A6")
    write(tab, "jr zero\n")
    tab.click("#one")
    tab.wait(f"{CONDITION} === 'Paused'")
    tab.click("#one")
    tab.wait(f"{CONDITION} === 'Fault'")
    assert tab.text("#step") == "stopped at 0x0"


def test_fix_replaces_the_word(sit: Sit) -> None:
    """The nearest name is offered first, and undo brings back what was typed."""
    from selenium.webdriver.common.keys import Keys

    tab = sit("A8")
    write(tab, "vad.vv v1, v2, v3\n")
    tab.click("#go")
    tab.wait("all('#mistakes li button').length > 1")
    assert tab.run("all('#mistakes li button')[1].textContent") == "vadd.vv"
    tab.run("all('#mistakes li button')[1].click()")
    tab.wait("text() === 'vadd.vv v1, v2, v3\\n'")
    assert tab.run("all('#mistakes li').length") == 0
    tab.type(Keys.CONTROL, "z", Keys.NULL)
    assert tab.run("text()") == "vad.vv v1, v2, v3\n"


def test_hand_reaches_the_class(sit: Sit) -> None:
    """Alt Shift H raises the hand, in all tabs of the seat and before the teacher, and lowers it."""
    tab, other, teacher = sit("A4"), sit("A4"), sit("teacher")
    press_key(tab, "Alt+Shift+H")
    for page in (tab, other):
        page.wait("id('hand').textContent === 'Hand raised' && id('hand').ariaPressed === 'true'")
    teacher.wait("one('#seats .hand[data-seat=A4] .condition')?.textContent === '☝hand raised'")
    question = "hand raised: “Why is vl 4 after I have asked for 8 elements of 64 bits?”"
    teacher.run(f"one('#seats .hand .condition span:last-child').textContent = '{question}'")
    teacher.run("id('roster').style.width = '24rem'")  # as next to the columns of a course, at 1280 pixels
    cell = "one('#seats .hand .condition')"
    assert teacher.run(f"{cell}.scrollWidth <= {cell}.clientWidth")  # all of it is in sight
    press_key(other, "Alt+Shift+H")
    teacher.wait("!one('#seats [data-seat=A4].hand')")
    tab.wait("id('hand').textContent === 'Raise hand' && id('hand').ariaPressed === 'false'")


def test_run_shows_registers_before_its_last_instruction(sit: Sit) -> None:
    """`vadd.vv v2, v2, v1` has overwritten its source, which a second machine finds: 5, 5, 5, 5 and 0, 1, 2, 3."""
    tab = sit("A2")
    write(tab, "vsetivli zero, 4, e32, m1, ta, ma\nvid.v v1\nvmv.v.i v2, 5\nvadd.vv v2, v2, v1\nebreak\n")
    tab.click("#go")
    tab.wait(f"{CONDITION} === 'Running'")
    tab.run("id('slice').click()")  # in a menu; the clock is off
    cells = "[...one('.lanes tr.before').querySelectorAll('td')].slice(0, 4).map((cell) => cell.firstChild.data).join()"
    tab.wait(f"one('.lanes tr.before') && {cells} === '5,5,5,5'")
    assert "v2, v2, v1" in tab.text(".card") and "Several instructions" not in tab.text(".card")
