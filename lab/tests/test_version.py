"""The version: `__version__` of the lab is its source, and each file that states it again has the same one."""

import re

import pytest

import vecmon_lab
from support.places import TOP

STATED = {
    "CITATION.cff": r"^version: (.*)$",
    "README.md": r"^\| version \| (\S+) \(\[changes\]\(CHANGELOG\.md\)\) \|$",
    "docs/LAB.md": r"^Version: (\S+)\+\d+\.g[0-9a-f]{12}$",  # PROVENANCE of a package
}


@pytest.mark.parametrize("page", STATED)
def test_page_states_version(page: str) -> None:
    assert re.findall(STATED[page], (TOP / page).read_text("utf-8"), re.MULTILINE) == [vecmon_lab.__version__]


def test_version_equals_changelog() -> None:
    """The newest version with a date, which is also the day in CITATION.cff, for each version one heading."""
    changelog = (TOP / "CHANGELOG.md").read_text("utf-8")
    headings = re.findall(r"^## (.*)$", changelog, re.MULTILINE)
    dated = [re.fullmatch(r"\[([0-9.]+)\] - (\d{4}-\d\d-\d\d)", it) for it in headings if it != "[Unreleased]"]
    newest = dated[0]
    assert all(dated) and newest and newest[1] == vecmon_lab.__version__
    assert f"\ndate-released: {newest[2]}\n" in (TOP / "CITATION.cff").read_text("utf-8")


@pytest.mark.parametrize("file", ["tools/package", "packaging/manual_page"])
def test_shell_scripts_read_version(file: str) -> None:
    """The expression of `sed` by which packages and manual pages get the version, with Python's syntax for groups."""
    [expression] = re.findall(
        r"version=\$\(sed -n 's/(.*?)/\\1/p' lab/vecmon_lab/__init__\.py\)", (TOP / file).read_text()
    )
    text = (TOP / "lab" / "vecmon_lab" / "__init__.py").read_text("utf-8")
    group = expression.replace(r"\(", "(").replace(r"\)", ")")
    assert re.findall(group, text, re.MULTILINE) == [vecmon_lab.__version__]
