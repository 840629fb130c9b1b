"""The command `site`: it copies the built site, and replaces nothing but an earlier one."""

import pathlib

import pytest

from support.commands import Lab
from vecmon_lab.playground import command


@pytest.mark.by_command("site")
def test_the_built_site_is_copied(lab: Lab, tmp_path: pathlib.Path, monkeypatch: pytest.MonkeyPatch) -> None:
    ready, out = tmp_path / "ready", tmp_path / "out"
    monkeypatch.setattr(command, "SITE", ready)
    status, _, told = lab("site", out)
    assert status == 2 and f"there is no built site here: in a clone, run tools/site {out}" in told and not out.exists()
    (ready / "play").mkdir(parents=True)
    for name in ("index.html", "playground.html", "play/index.html"):
        (ready / name).write_text(name)
    for _ in range(2):  # the second one replaces the first
        status, printed, _ = lab("site", out)
        assert status == 0 and printed.decode() == f"{out}/index.html\n{out}/playground.html\n"
        assert (out / "play" / "index.html").read_text() == "play/index.html"
    (tmp_path / "other").mkdir()
    (tmp_path / "other" / "work").write_text("mine")
    status, _, told = lab("site", tmp_path / "other")
    assert status == 2 and "has other files" in told
    assert (tmp_path / "other" / "work").read_text() == "mine"
