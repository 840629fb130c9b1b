"""Drawn actions at pages in a browser: after each one the state in sight is that of a machine which is stepped singly."""

import pathlib
from typing import TYPE_CHECKING

import pytest

from support.class_pages import Explored, Tab
from support.page_walks import PageWalk, opened
from support.site import built_site

if TYPE_CHECKING:
    from selenium.webdriver import Chrome

ACTIONS = 16
MIX_UP = """
from vecmon_lab.replay.legs import Leg, Legs
def restart(self, lines):
    self.legs += [Leg([f"{self.digit} leave"] * bool(self.legs) + lines)] if lines else []
    self._breaks, self.is_running, self.written = frozenset(), False, 0
Legs._restart = restart
"""


class MixedUp(Explored):
    """An author's page whose history goes on through a load."""

    before = f"exec({MIX_UP!r}); "


@pytest.mark.parametrize("kind", ["explore", "class"])
def test_drawn_actions_at_a_page(tabs: "Chrome", program: pathlib.Path, tmp_path: pathlib.Path, kind: str) -> None:
    with opened(kind, program, tmp_path, tabs) as (tab, reload):
        PageWalk(tab, program, 1, reload).run(ACTIONS)


@pytest.mark.site
def test_drawn_actions_in_the_playground(tabs: "Chrome", program: pathlib.Path, tmp_path: pathlib.Path) -> None:
    with opened(str(built_site()), program, tmp_path, tabs) as (tab, reload):
        PageWalk(tab, program, 1, reload).run(ACTIONS)


def test_history_that_goes_on_through_a_load_is_found(
    tabs: "Chrome", program: pathlib.Path, tmp_path: pathlib.Path
) -> None:
    """A planted error: the two instructions of the program before count as those of the new one."""
    served = MixedUp(tmp_path / "class", program, None)
    try:
        tab = Tab(tabs, served, "A1")
        tab.run("id('new-program').click()")
        walk = PageWalk(tab, program, 1, tabs.refresh)
        for action in ("build", "step", "step"):
            walk.act(action)
        walk.do("build")
        tab.wait("id('run').textContent === 'Ready' && id('moment-count').textContent === 'step 2, now'")
        assert "count is 'step 2, now', and should be 'step 0, now'" in walk.difference()
        walk.close()
    finally:
        served.end()
