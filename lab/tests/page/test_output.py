"""The output of a program on a seat's page: also of one that never ends."""

import json
from typing import TYPE_CHECKING

from support.class_pages import Served, Tab, dialog

if TYPE_CHECKING:
    from selenium.webdriver import Chrome

LINES = [
    f"{word} is printed again and again, in sixty-four bytes a line".ljust(63, ".") for word in ("This", "That", "What")
]
PRINTS = f"""        la s1, end
again:  la s0, text
loop:   li a7, 64
        li a0, 1
        mv a1, s0
        li a2, 64
        ecall
        addi s0, s0, 64
        bne s0, s1, loop
        j again
text:   .ascii {json.dumps("".join(f"{line}{chr(10)}" for line in LINES))}
end:    nop
"""
# How often the panel was changed, and how many frames there were. Sizes are observed half a second late, as on a busy machine: new
# output comes between the click on the panel's tab and the observer.
COUNTS = """const Observer = ResizeObserver;
window.ResizeObserver = class extends Observer {
  constructor(notify) { super((...sizes) => setTimeout(notify, 500, ...sizes)); }
};
addEventListener("DOMContentLoaded", () => {
  Object.assign(window, { changes: 0, frames: 0 });
  new MutationObserver((changes) => (window.changes += changes.length)).observe(document.getElementById("output"),
    { childList: true });
  const count = () => requestAnimationFrame(count, (window.frames += 1));
  count();
});"""
LEFT = "id('output').scrollHeight - id('output').clientHeight - id('output').scrollTop"  # px below what is in sight
STOP = """const done = arguments[0], run = document.getElementById("run");
window.changes = 0;
new MutationObserver(() => run.textContent === "Paused" && done(window.changes)).observe(run, { childList: true });
document.getElementById("halt").click();"""  # the changes of the panel until the program is stopped


def test_endlessly_printing_program_is_stopped(tabs: "Chrome", own_class: Served) -> None:
    """The panel has the end in sight, is changed once a frame at most, and Stop is answered while all of it comes."""
    teacher, tab = Tab(tabs, own_class, "teacher"), Tab(tabs, own_class, "A1", COUNTS)
    tab.run("code().setValue(arguments[0])", PRINTS)
    tab.click("#assemble")
    tab.wait("one('#listing .next')")
    with dialog(teacher, "settings"):
        teacher.click("#clocks [name='on']")
        teacher.wait("one('#clocks [name=on]').checked")
    tab.click("#go")
    tab.wait("!id('output-new').hidden")  # the tab of the output is marked, and stays behind the console
    tab.click("#show-output")
    tab.wait("id('output').textContent.length > 9000")
    tab.wait(f"{LEFT} < 2")
    shown = tab.text("#output").splitlines()
    first = LINES.index(shown[0])
    assert shown == [LINES[(first + place) % 3] for place in range(len(shown))]
    tab.run("(id('output').scrollTop = 100)")
    tab.run("(window.changes = window.frames = 0)")
    tab.wait("window.changes > 5")
    assert tab.run("id('output').scrollTop") == 100
    changes, frames = tab.run("[window.changes, window.frames]")
    assert changes <= 2 * frames  # old output goes, and new output comes
    assert tab.activate().execute_async_script(STOP) < 40
    tab.run("(id('output').scrollTop = 1e9)")
    tab.command("step 1")
    assert tab.text("#output").splitlines()[-1] in LINES and tab.run(f"{LEFT} < 2")
