"""The start page of an author in Chromium: examples, new programs and recent sources begin the bench."""

import pathlib
from collections.abc import Iterator
from typing import TYPE_CHECKING

import pytest

from support.accessibility import accessible_nodes, nameless, tab_stops
from support.class_pages import Explored, Tab
from support.layouts import layout_faults
from support.places import EXAMPLES

if TYPE_CHECKING:
    from selenium.webdriver import Chrome

LOOP = (EXAMPLES / "strip_mined.s").read_text("utf-8").replace("#> step 60\n", "")  # which is a line for lessons
SHOWN = "[id('start-page').checkVisibility(), id('desk').checkVisibility()]"


@pytest.fixture
def page(tabs: "Chrome", program: pathlib.Path, tmp_path: pathlib.Path) -> Iterator[Tab]:
    """The page of `explore` without a file, in a browser that has kept nothing."""
    served = Explored(tmp_path / "explore", program, None)
    tab = Tab(tabs, served, "A1")
    yield tab
    tab.activate().get("about:blank")  # or the page reports that its server has gone
    served.end()


def test_example_begins_bench(page: Tab) -> None:
    """The start page has nothing else; a press puts the example into the editor, and the focus to Step."""
    page.wait("document.activeElement.id === 'new-program'")
    assert page.run(SHOWN) == [True, False] and not page.run("id('controls').checkVisibility()")
    names = page.run("all('.tile small').map((note) => note.textContent)")
    assert len(names) == len(set(names)) == 27 and {
        "strip_mined.s",
        "squares_of_five_numbers.s",
        "tail_added.s",
        "saxpy.c",
    } <= set(names)
    assert page.run("id('new-in-c').disabled") == (page.text("#why-no-c") != "")
    assert layout_faults(page.activate()) == {}
    assert nameless(accessible_nodes(page.browser), tab_stops(page.browser)) == []
    page.run("all('.tile').find((tile) => tile.textContent.endsWith('strip_mined.s')).click()")
    page.wait("document.activeElement.id === 'one' && !id('one').disabled")
    assert page.run(SHOWN) == [False, True] and page.run("text()") == LOOP
    page.click("#one")
    page.wait("one('#step .instruction')?.textContent.includes('addi a0, zero, 13')")


def test_example_leaves_machine_of_another_source(page: Tab, tmp_path: pathlib.Path) -> None:
    """Elements, listing and the stop of another program go with its machine; a source that is in the machine keeps it."""
    machine = (
        "[id('run').textContent, id('elements').checkVisibility(), id('stop').textContent, id('step').textContent]"
    )
    none = ["Not begun", False, "", "there is no machine here yet"]
    page.run("all('.tile').find((tile) => tile.textContent.endsWith('strip_mined.s')).click()")
    page.wait("document.activeElement.id === 'one'")
    page.click("#go")
    page.wait("id('run').textContent === 'Ended' && one('#elements td')")
    ended = page.run(machine)
    assert ended[:2] == ["Ended", True] and "Stopped at the ebreak" in ended[2]
    page.click("#to-start")
    page.run("all('#recent .tile').at(0).click()")  # the same source
    page.wait("id('desk').checkVisibility()")
    page.command("state")  # behind all that the page sent before
    assert page.run(machine) == ended
    page.click("#to-start")
    page.run("all('.tile').find((tile) => tile.textContent.endsWith('squares_of_five_numbers.s')).click()")
    page.wait("text().includes('Squares of five numbers') && id('run').textContent === 'Not begun'")
    assert page.run(machine) == none
    page.click("#show-listing")
    assert not page.run("one('#listing tr')?.checkVisibility()")
    page.click("#one")
    page.wait("one('#step .instruction')?.textContent.includes('auipc a1, 1')")
    (tmp_path / "other.s").write_text("nop\n")
    page.keys("#open", f"{tmp_path / 'other.s'}")
    page.wait("text() === 'nop\\n' && id('run').textContent === 'Not begun'")
    assert page.run(machine) == none


def test_recent_sources_come_back(page: Tab) -> None:
    """A typed source is among the recent sources, in the tab's next page too; New program has the first text again."""
    page.click("#new-program")
    first = page.wait("text()")
    assert "Doubles" in first
    page.write("# Mine.\n nop\n")
    page.click("#to-start")
    page.wait("id('start-page').checkVisibility()")
    assert page.run("all('#recent .tile b, #recent .tile span').map((each) => each.textContent)") == [
        "program.s",
        "Mine.",
    ]
    page.run("all('.tile').find((tile) => tile.textContent.endsWith('squares_of_five_numbers.s')).click()")
    page.wait("text().includes('Squares of five numbers') && id('desk').checkVisibility()")
    page.click("#to-start")
    page.wait("all('#recent .tile').length === 2")
    assert page.run("all('#recent .tile b').map((each) => each.textContent)") == [
        "squares_of_five_numbers.s",
        "program.s",
    ]
    page.run("all('#recent .tile')[1].click()")
    page.wait("text() === '# Mine.\\n nop\\n' && id('desk').checkVisibility()")
    page.click("#to-start")
    page.click("#new-program")
    page.wait("text() === arguments[0]", first)
