"""tools/checks/check_subjects: subjects that it accepts and refuses, and clones in which it leaves the check out."""

import os
import subprocess
from pathlib import Path

import pytest

from tools.checks import check_subjects


def git(folder: Path, *arguments: str) -> str:
    """Run git in a folder, without the settings of the user; return its output."""
    settings = ["-c", "user.name=a", "-c", "user.email=a@a.example", "-c", "init.defaultBranch=main"]
    environment = {"PATH": os.environ["PATH"], "HOME": str(folder)}
    command = ["git", *settings, *arguments]
    return subprocess.run(
        command, cwd=folder, env=environment, capture_output=True, text=True, check=True
    ).stdout.strip()


@pytest.fixture
def clone(tmp_path: Path) -> Path:
    """A repository with one commit whose subject breaks a rule."""
    (tmp_path / "clone").mkdir()
    git(tmp_path / "clone", "init", "--quiet")
    git(tmp_path / "clone", "commit", "--quiet", "--allow-empty", "--message=The first")
    return tmp_path / "clone"


@pytest.mark.parametrize(
    "subject",
    [
        "lab: add a test",
        "Add the licence",
        "tests, tools: process each file once",
        "must-fail: bring back an edit",
        "Embed the schema",
        "hart: " + "x" * 66,
    ],
)
def test_subject_accepted(subject: str) -> None:
    assert check_subjects.fault(subject) == ""


@pytest.mark.parametrize(
    "subject, part",
    [
        ("lab: the test of a page", "article 'the'"),
        ("A test of a page", "article 'A'"),
        ("lab: adds a test", "'adds'"),
        ("tests, tools: added a test", "'added'"),
        ("Adding a test", "'Adding'"),
        ("hart: " + "x" * 67, "73 characters, at most 72"),
    ],
)
def test_subject_refused(subject: str, part: str) -> None:
    assert part in check_subjects.fault(subject)


def test_check_covers_commits_after_base(clone: Path, capsys: pytest.CaptureFixture[str]) -> None:
    base = git(clone, "rev-parse", "HEAD")
    git(clone, "commit", "--quiet", "--allow-empty", "--message=lab: add a test")
    assert check_subjects.main(clone, base) == 0 and capsys.readouterr().out == ""
    git(clone, "commit", "--quiet", "--allow-empty", "--message=lab: adding a test")
    assert check_subjects.main(clone, base) == 1
    assert "lab: adding a test: begins with 'adding'" in capsys.readouterr().out


def test_check_is_skipped_without_base(clone: Path, tmp_path: Path, capsys: pytest.CaptureFixture[str]) -> None:
    base = git(clone, "rev-parse", "HEAD")
    git(clone, "commit", "--quiet", "--allow-empty", "--message=The second")
    git(tmp_path, "clone", "--quiet", "--depth=1", f"file://{clone}", "shallow")
    (tmp_path / "unpacked").mkdir()
    for folder in ("shallow", "unpacked"):
        assert check_subjects.main(tmp_path / folder, base) == 0
        assert capsys.readouterr().out.startswith("note: commit subjects aren't checked")
