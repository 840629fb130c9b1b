"""The editor of a source: marks of the machine, problems with their fixes, keys, and its size, in Chromium."""

from typing import Any

import pytest

from page.conftest import Sit
from support.class_pages import SIGNS, Tab

SOURCE = """\
# Doubles.
start:  vsetivli zero, 8, e32, m1, ta, ma
        li t0, 0x12345          # two words
        vid.v v1
        ebreak
"""
WRONG = "        nop\n        vad.vv v1, v2, v3\n        addi a0, a1\n"
MARKED = "all('#editor .problem').map((word) => word.textContent).join()"
BELOW = "one('#editor .problems-below')?.textContent"
KINDS = """['executed', 'next'].map((kind) => one(`#editor .CodeMirror-linebackground.${kind}`)
    ?.parentElement.querySelector('.CodeMirror-line').textContent)"""
PLACES = "all('#mistakes li > :first-child').map((each) => each.textContent.split(':', 2).join(':'))"
SIZES = [(1280, 657), (1280, 640), (1080, 640), (1920, 1080), (820, 1180), (390, 844), (640, 400)]


@pytest.fixture
def started(sit: Sit) -> Tab:
    """A tab whose machine has SOURCE, with its editor in sight."""
    tab = sit("A1")
    tab.write(SOURCE)
    tab.click("#assemble")
    tab.wait("id('editor').hidden && one('#listing .next')")
    tab.click("#show-source")
    return tab


def test_lines_of_machine_are_marked(started: Tab) -> None:
    """The line of both words of `li` is one line; the marks go with the first change of the text."""
    started.wait(f"{SIGNS} === '▶2'")
    for executed, following in ((2, 3), (3, 3), (3, 4)):
        started.click("#one")
        lines = SOURCE.splitlines()
        kinds = f"JSON.stringify({KINDS}) === JSON.stringify(arguments[0])"
        started.wait(f"{SIGNS} === '▶{following}' && {kinds}", [lines[executed - 1], lines[following - 1]])
    started.run("code().replaceRange(' ', { line: 0, ch: 0 })")
    started.wait(f"{SIGNS} === '' && !one('#editor .executed')")


def test_breakpoint_is_set_at_line(started: Tab) -> None:
    """F9 sets that of the caret's line, at the first word of it, and a click on the number removes it."""
    from selenium.webdriver import ActionChains
    from selenium.webdriver.common.keys import Keys

    started.wait("one('#editor [data-type]')")  # the vector type, which may move the lines below it
    started.run("(code().focus(), code().setCursor(2, 0))")
    started.type(Keys.F9)
    started.wait(f"{SIGNS} === '▶2,●3' && id('log').textContent.includes('> break 10004')")
    number = started.run("all('#editor .CodeMirror-linenumber').find((each) => each.textContent === '3')")
    ActionChains(started.browser).click(number).perform()
    started.wait(f"{SIGNS} === '▶2' && id('log').textContent.includes('> unbreak 10004')")
    started.run("code().setCursor(0, 0)")
    started.type(Keys.F9)  # a comment has that of the next line
    started.wait(f"{SIGNS} === '●▶2' && id('log').textContent.includes('> break 10000')")
    started.click("#one")
    started.wait(f"{SIGNS} === '●2,▶3' && id('run').textContent === 'Paused'")
    started.click("#assemble")  # which keeps it, as Run does
    started.wait(f"{SIGNS} === '●▶2' && id('run').textContent === 'Ready'")


def test_console_takes_labels(started: Tab) -> None:
    """As the address that a command starts with, and without a command, with a sentence; the program's first address is 10000."""
    started.command("dis start 1")
    assert started.text("#log > li:last-child").startswith("0000000000010000 ")
    started.command("start")
    started.wait("id('stop').textContent.startsWith('start is a label, the address 0x10000.')")
    started.command("strat")
    started.wait("id('stop').textContent.includes('there is no command strat')")


def test_breakpoints_wait_for_the_program(sit: Sit) -> None:
    """They are shown before the first run, follow their lines, and stop the run; a change that is undone sets them, too."""
    from selenium.webdriver.common.keys import Keys

    tab = sit("A3")
    tab.write(SOURCE)
    for line in (0, 4, 3):  # from 0 on: a comment, ebreak, and vid.v
        tab.run("(code().focus(), code().setCursor(arguments[0], 0))", line)
        tab.type(Keys.F9)
    assert tab.run(SIGNS) == "○1,○4,○5" and tab.text("#stop") == ""
    tab.type(Keys.F9)  # which takes one back
    tab.run("code().replaceRange('# More.\\n', { line: 3, ch: 0 })")
    assert tab.run(SIGNS) == "○1,○6"
    tab.click("#many")  # ten instructions; the breakpoint lets three of them execute
    tab.wait(f"{SIGNS} === '●2,●▶6' && id('run').textContent === 'Paused'")
    tab.run("code().replaceRange(' ', { line: 0, ch: 0 })")
    tab.run("(code().focus(), code().setCursor(2, 0))")
    tab.type(Keys.F9)
    tab.wait(f"{SIGNS} === '○2,○3,○6'")  # also those of the loaded program
    tab.run("code().undo()")
    tab.wait(f"{SIGNS} === '●2,●3,●▶6'")


def test_breakpoint_of_the_loaded_program_stays_in_a_changed_source(sit: Sit) -> None:
    """It is hollow, follows its line, and a press of F9 removes it from the machine; the next one sets it for the changed source."""
    from selenium.webdriver.common.keys import Keys

    tab = sit("A4")
    tab.write("li a0, 3\nnop\naddi a0, a0, 1\nebreak\n")
    tab.run("(code().focus(), code().setCursor(2, 0))")
    tab.type(Keys.F9)
    tab.click("#one")
    tab.wait(f"{SIGNS} === '▶2,●3'")
    tab.run("code().replaceRange('# More.\\n', { line: 0, ch: 0 })")
    assert tab.run(SIGNS) == "○4"
    tab.run("code().setValue(code().getValue())")  # as another language does
    tab.run("code().replaceRange('addi a0, a0, 2\\nnop', { line: 3, ch: 0 }, { line: 3, ch: 14 })")
    assert tab.run(SIGNS) == "○4"
    tab.click("#one")
    tab.wait(f"{SIGNS} === '▶3,●4'")
    tab.run("code().replaceRange('# More.\\n', { line: 0, ch: 0 })")
    tab.run("(code().focus(), code().setCursor(4, 0))")
    tab.type(Keys.F9)
    tab.wait(f"{SIGNS} === '' && id('log').textContent.includes('> unbreak 10008')")
    tab.type(Keys.F9)
    assert tab.run(SIGNS) == "○5"
    tab.type(Keys.F9)
    tab.click("#one")
    tab.wait(f"{SIGNS} === '▶4'")


def test_hollow_breakpoints_come_back(sit: Sit) -> None:
    """Once a version that replaced the text is undone, and after a reload: one that waits, and one of the loaded program."""
    from selenium.webdriver.common.keys import Keys

    tab = sit("A6")
    tab.write("li a0, 3\nnop\naddi a0, a0, 1\nebreak\n")
    tab.run("(code().focus(), code().setCursor(2, 0))")
    tab.type(Keys.F9)
    tab.click("#one")
    tab.wait(f"{SIGNS} === '▶2,●3'")
    tab.run("code().replaceRange('# More.\\n', { line: 0, ch: 0 })")
    tab.run("(code().focus(), code().setCursor(2, 0))")
    tab.type(Keys.F9)
    assert tab.run(SIGNS) == "○3,○4"
    tab.run("(id('versions').selectedIndex = 1, id('versions').dispatchEvent(new Event('change')))")
    tab.wait("text().startsWith('li')")
    tab.run("code().undo()")
    assert tab.run("text()").startswith("# More.") and tab.run(SIGNS) == "○3,○4"
    tab.activate().refresh()
    tab.wait(f"text()?.startsWith('# More.') && {SIGNS} === '○3,○4'")
    tab.click("#many")
    tab.wait(f"{SIGNS} === '●▶3,●4'")


def test_pasted_source_has_no_breakpoints_of_the_one_before(sit: Sit) -> None:
    """Over the whole text: neither its first line nor its last one; undo brings them back."""
    from selenium.webdriver.common.keys import Keys

    tab = sit("A7")
    tab.write("nop\nli a0, 3\nebreak")
    for line in (0, 2):
        tab.run("(code().focus(), code().setCursor(arguments[0], 0))", line)
        tab.type(Keys.F9)
    assert tab.run(SIGNS) == "○1,○3"
    tab.run("code().execCommand('selectAll')")
    tab.run("code().replaceSelection('li a1, 1\\nli a2, 2\\nli a3, 3\\nebreak', null, 'paste')")
    assert tab.run(SIGNS) == ""
    tab.run("code().undo()")
    assert tab.run("text()") == "nop\nli a0, 3\nebreak" and tab.run(SIGNS) == "○1,○3"


def test_problems_are_shown_while_typing(sit: Sit) -> None:
    """Without a machine, in a moment; a key takes the word that is offered first, and undo takes that back."""
    from selenium.webdriver.common.keys import Keys

    tab = sit("A2")
    tab.write(WRONG)
    tab.wait(f"{MARKED} === 'vad.vv,1'")  # the last character where an operand is missing
    assert tab.run(PLACES) == ["2:9", "3:20"]
    assert tab.text("#run") == "Not begun"
    tab.run("(code().focus(), code().setCursor(0, 0))")
    assert tab.run(BELOW) is None
    tab.run("code().setCursor(1, 0)")
    assert "there is no instruction vad.vv" in tab.run(BELOW)
    first = tab.text(".problems-below button")
    tab.type(Keys.CONTROL, ".", Keys.NULL)
    assert tab.run("code().getLine(1)") == f"        {first} v1, v2, v3"
    tab.wait(f"{MARKED} === '1'")
    assert tab.run(BELOW) is None
    tab.type(Keys.CONTROL, "z", Keys.NULL)
    tab.wait(f"{MARKED} === 'vad.vv,1'")
    tab.click(".problems-below button")
    assert tab.run("code().getLine(1)") == f"        {first} v1, v2, v3"


def test_keys_comment_and_find(sit: Sit) -> None:
    from selenium.webdriver.common.keys import Keys

    tab = sit("A3")
    tab.write(SOURCE)
    tab.run("(code().focus(), code().setCursor(3, 0))")
    tab.type(Keys.CONTROL, "/", Keys.NULL)
    assert tab.run("code().getLine(3)").startswith("#")
    tab.type(Keys.CONTROL, "/", Keys.NULL)
    assert tab.run("text()") == SOURCE
    tab.type(Keys.CONTROL, "f", Keys.NULL)
    tab.keys("#editor .CodeMirror-search-field", "ebreak", Keys.ENTER)
    assert tab.run("code().getSelection()") == "ebreak"
    tab.run("(code().focus(), code().setCursor(3, 16))")
    tab.type(", v", Keys.CONTROL, " ", Keys.NULL)
    offered = tab.run("all('.CodeMirror-hints li').map((each) => each.textContent)")
    assert offered == [f"v{number}" for number in range(32)]
    tab.type(Keys.ESCAPE, *[Keys.BACKSPACE] * 3, Keys.ESCAPE, Keys.TAB)
    assert tab.run("text()") == SOURCE and tab.run("document.activeElement.id") == "assemble"


def test_control_characters_are_not_typed_and_are_shown(sit: Sit) -> None:
    """WebKitGTK has a keypress of Escape, as this event; a character of a file or a paste is shown by its number."""
    tab = sit("A1")
    tab.write("nop")
    press = "code().getInputField().dispatchEvent(new KeyboardEvent('keypress', arguments[0]))"
    tab.run("(code().focus(), code().setCursor(0, 3))")
    for character, key in ((0x1B, "Escape"), (0x20, " "), (0x78, "x"), (0x7F, "Delete")):
        tab.run(press, {"charCode": character, "key": key, "bubbles": True, "cancelable": True})
    assert tab.run("text()") == "nop x"
    tab.run("code().setValue('li a0, 1\\x1b # \\x7f\\u200b\\tend\\u202e\\u2066\\x85')")
    shown = (
        "all('#editor .cm-invalidchar').map((sign) => [sign.textContent, sign.title, sign.getAttribute('aria-label')])"
    )
    tab.wait(f"{shown}.length >= 3")
    numbers = ["U+001B", "U+007F", "U+200B", "U+202E", "U+2066", "U+0085"]
    assert tab.run(shown) == [[number] * 3 for number in numbers]


def test_editor_is_named_text_box(sit: Sit) -> None:
    """In the accessibility tree, with its lines and without their numbers."""
    tab = sit("A4")
    tab.write("nop\nret")
    tab.run("code().focus()")
    tree = tab.browser.execute_cdp_cmd("Accessibility.getFullAXTree", {})["nodes"]
    (box,) = (node for node in tree if node.get("name", {}).get("value") == "Assembler source" and not node["ignored"])
    assert box["role"]["value"] == "textbox"
    assert {"name": "multiline", "value": {"type": "boolean", "value": True}} in box["properties"]
    children = {node["nodeId"]: node for node in tree}
    names = [name for name in spoken(box, children) if name.strip()]
    assert names == ["nop", "ret"]


def spoken(node: dict[str, Any], nodes: dict[str, Any]) -> list[str]:
    """The texts below a node."""
    if node.get("role", {}).get("value") == "StaticText" and not node["ignored"]:
        return [node["name"]["value"]]
    return [text for child in node.get("childIds", []) if child in nodes for text in spoken(nodes[child], nodes)]


def test_editor_has_eight_lines_at_all_sizes(sit: Sit) -> None:
    """With problems below it as well; nothing makes the page wider than the window."""
    tab = sit("A5")
    tab.write(WRONG)
    tab.wait("all('#mistakes button').length")
    before = tab.browser.get_window_size()
    try:
        for width, height in SIZES:
            size = {"width": width, "height": height, "deviceScaleFactor": 1, "mobile": False}
            tab.browser.execute_cdp_cmd("Emulation.setDeviceMetricsOverride", size)
            lines = "code().getScrollInfo().clientHeight / code().defaultTextHeight()"
            assert tab.wait(f"innerWidth === {width} && {lines}") >= 8, (width, height)
            tab.wait("document.documentElement.scrollWidth <= innerWidth")
    finally:
        tab.browser.execute_cdp_cmd("Emulation.clearDeviceMetricsOverride", {})
        tab.browser.set_window_size(before["width"], before["height"])
