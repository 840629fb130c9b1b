"""A source in C in a class, in Chromium: chosen, compiled, with its messages at their lines, given, and shared."""

import pathlib
import shutil
from collections.abc import Iterator
from typing import TYPE_CHECKING

import pytest

from support.browser import CONTRAST
from support.class_pages import Explored, PIECES, SIGNS, Served, Tab, look_at
from support.skips import NO_SANDBOX, leave_out
from support.places import DATA, EXAMPLES
from vecmon_lab.compilers.compiler import Compiler

if TYPE_CHECKING:
    from selenium.webdriver import Chrome

SAXPY = (EXAMPLES / "kernels" / "saxpy.c").read_text("ascii")
TEXT = "text()"


@pytest.fixture
def with_c(clang: Compiler, program: pathlib.Path, tmp_path: pathlib.Path) -> Iterator[Served]:
    """A class that takes C."""
    if shutil.which("bwrap") is None:
        leave_out(NO_SANDBOX)
    served = Served(tmp_path / "class", program, "--cc", clang.name, takes_c=True)
    yield served
    served.end()


def put_in(tab: Tab, text: str, language: str = "C, O2") -> None:
    """Puts a source into the editor, and chooses its language."""
    tab.write(text)
    tab.choose("#language", language)


def test_c_kernel_is_built_and_shown(tabs: "Chrome", with_c: Served) -> None:
    """It is compiled, stepped with its lines next to the instructions, and given to others with its language."""
    from selenium.webdriver.common.keys import Keys

    tab, teacher = Tab(tabs, with_c, "A1"), Tab(tabs, with_c, "teacher")
    put_in(tab, SAXPY)
    assert tab.text("#assemble") == "Compile" and tab.text("#left") == ""
    tab.run("code().scrollTo(0, 0)")
    tab.wait(f"{PIECES}.join().includes('meta #include <riscv_vector.h>')")
    pieces = tab.run(PIECES)
    assert {"type int32_t", "keyword static"} <= set(pieces)
    assert "builtin __riscv_vsetvl_e32m2" in tab.run(f"(code().scrollTo(0, 300), code().refresh(), {PIECES})")
    tab.type(Keys.CONTROL, Keys.ENTER)
    tab.wait("id('editor').hidden && one('#listing .next')")
    shown = tab.run("all('#listing .source').map((cell) => cell.textContent).join()")
    assert "__riscv_vmacc_vx_i32m2(sum, factor" in shown and "(saxpy, inlined)" in shown
    look_at(teacher, "A1")
    teacher.wait("text() === arguments[0] && id('language').selectedOptions[0].text === 'C, O2'", SAXPY)
    teacher.click("#show-source")
    teacher.click("#take")
    assert teacher.run("id('given-language').selectedOptions[0].text") == "C, O2"
    other = Tab(tabs, with_c, "A2")
    teacher.click("#seats [data-seat='A2'] input")
    teacher.click("[name=how][value=replace]")
    teacher.click("#send-it")
    other.wait(f"{TEXT} === arguments[0] && id('assemble').textContent === 'Compile'", SAXPY)
    put_in(tab, "nop", "assembler")
    tab.type(Keys.CONTROL, "z", Keys.NULL)  # also of the choice of a language
    assert tab.run("id('language').selectedOptions[0].text") == "C, O2"


def test_line_step_shows_next_line(tabs: "Chrome", with_c: Served) -> None:
    """The current line is marked in the source and its number, at which a click sets a breakpoint."""
    from selenium.webdriver.common.keys import Keys

    tab = Tab(tabs, with_c, "A1")
    put_in(tab, SAXPY)
    tab.click("#assemble")
    tab.wait("one('#listing .next')")
    tab.click("#show-source")
    here = f"{SIGNS}.split(',').find((sign) => sign.includes('▶'))"
    tab.keys("body", Keys.F11)  # by lines, since the source is in C
    first = tab.wait(here)
    text = tab.run("one('#editor .next').parentElement.querySelector('.CodeMirror-line').textContent")
    assert text == SAXPY.splitlines()[int(first.strip("▶")) - 1] and int(first.strip("▶")) > 22
    assert_lines_are_tinted(tab, int(first.strip("▶")))
    tab.click("#step-over")
    tab.wait(f"{here} !== arguments[0]", first)
    line = SAXPY[: SAXPY.index("sum = __riscv_vmacc")].count("\n") + 1
    click_number(tab, line)
    tab.wait(f"{SIGNS}.split(',').includes('●{line}')")
    tab.click("#go")
    tab.wait("!id('slice').disabled")
    tab.click("#slice")
    tab.wait(f"{here} === arguments[0]", f"●▶{line}")
    tab.type(" ")  # another source than that in the machine
    assert not tab.run(here)


def assert_lines_are_tinted(tab: Tab, line: int) -> None:
    """Lines and their instructions have the same of three grounds; the pointer at an instruction marks its line, and all of it."""
    from selenium.webdriver import ActionChains

    tab.wait("one('#editor .lines').checkVisibility() && id('listing').checkVisibility()")
    tints = tab.run(
        """Object.fromEntries(all('#listing tr[data-line]').map(({ dataset, className }) =>
        [dataset.line, [className.match(/tint-\\d/)[0], code().lineInfo(dataset.line - 1).bgClass.match(/tint-\\d/)[0]]]))"""
    )
    assert all(own == other for own, other in tints.values()) and len({own for own, _ in tints.values()}) == 3
    row = tab.run("one('#listing .next')")
    assert row.get_attribute("data-line") == f"{line}"
    ActionChains(tab.browser).move_to_element(row).perform()
    marked = "all('#listing .linked').map(({ dataset }) => Number(dataset.line))"
    tab.wait(f"{marked}.length && {marked}.every((each) => each === {line}) && one('#editor .linked')")


def click_number(tab: Tab, line: int) -> None:
    """Clicks the number of a line in the editor."""
    from selenium.webdriver import ActionChains

    tab.run("code().scrollIntoView({ line: arguments[0] - 1, ch: 0 }, 40)", line)
    number = tab.wait(f"all('#editor .CodeMirror-linenumber').find((each) => each.textContent === '{line}')")
    ActionChains(tab.browser).click(number).perform()


def test_inlined_line_breakpoint_stops(tabs: "Chrome", with_c: Served) -> None:
    """A click sets a breakpoint in each copy, and another one removes them; where they are too many, the page says so."""
    tab = Tab(tabs, with_c, "A1")
    put_in(tab, (DATA / "images" / "prefix_sums.c").read_text("ascii"))
    tab.click("#assemble")
    tab.wait("one('#listing .next')")
    tab.click("#show-source")
    marks = f"{SIGNS}.split(',').filter((sign) => sign.includes('●')).join()"
    asked = "all('#log .asked').map((item) => item.textContent.slice(2).split(' ')[0]).join(' ')"
    click_number(tab, 10)
    # line 54 calls it: the same instruction
    tab.wait(f"{marks} === '●10,●54' && {asked}.endsWith('setpc break break')")
    click_number(tab, 17)
    tab.wait(f"{marks} === '●10,●17,●54'")
    click_number(tab, 10)
    tab.wait(f"{marks} === '●17' && {asked}.endsWith('break break unbreak unbreak')")
    tab.click("#go")
    tab.wait("!id('slice').disabled")
    tab.click("#slice")
    tab.wait(f"id('run').textContent === 'Paused' && {marks} === '●▶17'")
    tab.command(*(f"break {4 * place:x}" for place in range(10)))
    click_number(tab, 9)
    tab.wait(
        "id('stop').textContent.startsWith(arguments[0])",
        "Line 9 needs 5 breakpoints, and 4 of 16 are left: none was set.",
    )


def test_messages_are_shown_at_their_lines(tabs: "Chrome", with_c: Served) -> None:
    """In the editor, until it changes; and below it, from where a click leads to the place. A linker's have none."""
    tab = Tab(tabs, with_c, "A1")
    put_in(tab, "int main(void)\n{\n    /* one\n two */ return missing;\n}\n")
    comments = [piece for piece in tab.run(PIECES) if piece.startswith("comment")]
    assert comments == ["comment /* one", "comment two */"]
    tab.click("#assemble")
    tab.wait("one('#editor .problem')")
    assert tab.text("#editor .problem") == "missing" and "missing" in tab.run("one('#editor .problem-sign').title")
    assert tab.text("#mistakes").startswith("4:16: ")
    tab.click("#mistakes button")
    assert tab.run("code().indexFromPos(code().getCursor('from'))") == tab.run(f"{TEXT}.indexOf('missing')")
    tab.type("0")
    assert not tab.run("one('#editor .problem')")
    put_in(tab, "long other(void);\nint main(void) { return other(); }\n")
    tab.click("#assemble")
    tab.wait("id('mistakes').textContent === 'undefined symbol: other'")


def test_class_without_c_explains_why(tabs: "Chrome", program: pathlib.Path, tmp_path: pathlib.Path) -> None:
    served = Served(tmp_path / "class", program)
    tab, teacher = Tab(tabs, served, "A1"), Tab(tabs, served, "teacher")
    why = teacher.run("id('given-language').title")
    if not why:
        pytest.skip("this class takes C")
    assert why.startswith("C isn't available: ") and tab.run("id('language').title") == why
    assert tab.run("[...id('language').options].map((option) => option.disabled && option.hidden)").count(False) == 1
    served.end()


def test_given_source_reaches_seats(tabs: "Chrome", with_c: Served, tmp_path: pathlib.Path) -> None:
    """A link fills the editor of the seat that opens it, with its language, and compiles nothing; so does a file."""
    tab = Tab(tabs, with_c, "A1")
    put_in(tab, "int main(void) { return 'é'; } // ÿ\n", "C, O3-scalar")
    link = tab.copied_link()
    assert link.startswith(with_c.address("A1").partition("#")[0] + "#source=") and not set(
        link.partition("#source=")[2]
    ) - set("ABCDEFGHIJKLMNOPQRSTUVWXYZabcdefghijklmnopqrstuvwxyz0123456789-_")
    tab.run("Object.defineProperty(navigator, 'clipboard', { value: undefined })")  # as in a page without encryption
    tab.click("#link")
    tab.wait("id('copy').open && id('copied').value.slice(id('copied').selectionStart) === arguments[0]", link)
    other = Tab(tabs, with_c, "A2")
    other.run(f"void (location.hash = {link.partition('#')[2]!r})")
    other.wait(f"{TEXT}?.includes('é') && id('language').selectedOptions[0].text === 'C, O3-scalar'")
    assert other.run("document.title") == "Seat A2 – vecmon" and "#" not in other.activate().current_url
    assert other.text("#run") == "Not begun" and "A link has brought" in other.text("#stop")
    other.run("void (location.hash = 'source=junk')")
    other.wait("document.title === 'Seat A2 – vecmon' && !location.hash")
    file = tmp_path / "kernel.O1.c"
    file.write_text(SAXPY)
    other.run("id('open').hidden = false")
    other.keys("#open", str(file))
    other.wait(f"{TEXT} === arguments[0] && id('language').selectedOptions[0].text === 'C, O1'", SAXPY)


def test_stock_assembler_source_is_shown(tabs: "Chrome", with_c: Served, tmp_path: pathlib.Path) -> None:
    """Its source is compiled, and coloured as assembler; links and files have its name."""
    tab, text = Tab(tabs, with_c, "A3"), "        .rept 2\n        addi a0, a0, 4\n        .endr\n        ebreak\n"
    put_in(tab, text, "assembler, stock")
    assert tab.text("#assemble") == "Compile" and tab.text("#left") == ""
    tab.wait(f"{PIECES}.filter((piece) => piece.startsWith('variable-2 ')).length === 2")
    tab.click("#assemble")
    tab.wait("id('editor').hidden && one('#listing .next')")
    tab.run("id('by').value = 'line'")
    tab.click("#one")
    tab.wait("one('#listing .next').textContent.includes('ebreak')")
    tab.click("#show-source")
    link = tab.copied_link().partition("#")[2]
    other = Tab(tabs, with_c, "A4")
    other.run(f"void (location.hash = {link!r})")
    other.wait(f"{TEXT} === arguments[0] && id('language').selectedOptions[0].text === 'assembler, stock'", text)
    for name, language in (
        ("a.stock.s", "assembler, stock"),
        ("a.s", "assembler"),
        ("a.c", "C, O2"),
        ("a.O0.c", "C, O0"),
    ):
        file = tmp_path / name
        file.write_text(name)
        other.run("id('open').hidden = false")
        other.keys("#open", str(file))
        other.wait(
            f"{TEXT} === arguments[0] && id('language').selectedOptions[0].text === arguments[1]", name, language
        )
    assert other.run("id('against').hidden"), "only an own page puts listings side by side"


def test_listings_are_shown_side_by_side(
    tabs: "Chrome", clang: Compiler, program: pathlib.Path, tmp_path: pathlib.Path
) -> None:
    """They open in a tab of their own, for the text in the editor, with both profiles."""
    if shutil.which("bwrap") is None:
        leave_out(NO_SANDBOX)
    page = Explored(tmp_path / "page", program, EXAMPLES / "kernels" / "plain_sum.c", "--cc", clang.name)
    tab = Tab(tabs, page, "A1")
    tab.click("#show-source")
    before = set(tabs.window_handles)
    tab.choose("#against", f"{clang.name} O2-scalar")
    tab.wait("id('against').selectedIndex === 0")
    while not (opened := set(tabs.window_handles) - before):
        pass
    tabs.switch_to.window(opened.pop())
    tab.handle = tabs.current_window_handle
    heads = "all('#rows > thead th').map((head) => head.innerText)"
    tab.wait(f"{heads}.length === 2")
    one, other = tab.run(heads)
    assert one.startswith(f"{clang.name} O2\n") and other.startswith(f"{clang.name} O2-scalar\n")
    assert "did work" in one and "did work" not in other and "status 0" in one and "status 0" in other
    assert tab.run("all('#rows .text').some((text) => text.textContent.includes('vadd.vv'))")
    assert tabs.execute_script(CONTRAST) == []
    page.end()
