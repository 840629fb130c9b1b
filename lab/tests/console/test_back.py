"""The console's way back: Ctrl-C ends it."""

import pathlib

import pytest

from support.images import make_image
from support.sources import COUNTDOWN
from vecmon_lab.console.lines import Console
from vecmon_lab.console.show import Screen
from vecmon_lab.guest.guest import started
from vecmon_lab.guest.symbols import Symbols


def test_interrupt_ends_way_back(
    program: pathlib.Path, tmp_path: pathlib.Path, capsys: pytest.CaptureFixture[str]
) -> None:
    """Ctrl-C is pressed, and then it isn't: the program is stopped at its EBREAK, whose instruction before is a branch."""
    make_image(program, tmp_path / "image", COUNTDOWN)
    with started(tmp_path / "image", write=lambda data: None) as guest:
        console = Console(guest, Screen(False), Symbols())
        console.do("run")
        capsys.readouterr()
        console.execution.interrupt.set()
        console.execution.back(1)
        console.execution.back_to_write("11008")
        stays = ["Interrupted: the program stays here.", "=> 10018  ebreak"]
        assert capsys.readouterr().out.splitlines() == stays * 2
        console.do("back")
        assert guest.pc == 0x10014


def test_progress_is_printed_at_a_terminal(monkeypatch: pytest.MonkeyPatch, capsys: pytest.CaptureFixture[str]) -> None:
    Screen(False).report("going back: 40 %")
    assert capsys.readouterr() == ("", "")
    monkeypatch.setattr("sys.stderr.isatty", lambda: True)
    Screen(False).report("going back: 40 %")
    assert capsys.readouterr() == ("", "Going back: 40 %.\n")
