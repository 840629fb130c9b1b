"""A class for tests of its pages, and tabs in it."""

import pathlib
from collections.abc import Callable, Iterator
from typing import TYPE_CHECKING

import pytest

from support.class_pages import Served, Tab, close_all

if TYPE_CHECKING:
    from selenium.webdriver import Chrome


Sit = Callable[[str], Tab]


@pytest.fixture(scope="module")
def served(program: pathlib.Path, tmp_path_factory: pytest.TempPathFactory) -> Iterator[Served]:
    """A class for all tests that don't restart or change its server."""
    served = Served(tmp_path_factory.mktemp("class") / "class", program)
    yield served
    served.end()


@pytest.fixture(scope="module")
def course(program: pathlib.Path, tmp_path_factory: pytest.TempPathFactory) -> Iterator[Served]:
    """A class of thirty-two with all exercises of the course."""
    folder = tmp_path_factory.mktemp("course") / "class"
    served = Served(folder, program, "--machines", "4", "--course", takes_c=True)
    yield served
    served.end()


@pytest.fixture
def own_class(program: pathlib.Path, tmp_path: pathlib.Path) -> Iterator[Served]:
    """A class for a test that ends its server."""
    served = Served(tmp_path / "class", program)
    yield served
    served.end()


@pytest.fixture
def tabs(browser: "Chrome") -> Iterator["Chrome"]:
    """The browser, for tabs, closed behind the test. Its console has said nothing then but of refused reconnections."""
    first = browser.current_window_handle
    browser.get_log("browser")
    yield browser
    shown = browser.get_log("browser")
    close_all(browser, [first])
    assert [entry for entry in shown if "/socket' failed: " not in entry["message"]] == []


@pytest.fixture
def sit(tabs: "Chrome", served: Served) -> Sit:
    """Opens a tab for somebody of the class."""
    return lambda role: Tab(tabs, served, role)
