"""The folder that Sphinx reads: the pages, the files they link to, and the book's first page."""

import os
import re
import shutil
from collections.abc import Iterator
from pathlib import Path

from tools.documents.book_html.navigation import Group, index_page

# The target of a link or a picture, without its anchor: not of one with a scheme, nor of one into the same page.
TARGET = re.compile(r"\]\(([^)#:\s]+)(?:#[^)\s]*)?\)")


def linked_paths(page: str, text: str) -> Iterator[str]:
    """Return the paths that a page links to, from the top of the repository; `page` is the page's own path."""
    for target in TARGET.findall(text):
        yield os.path.normpath(os.path.join(os.path.dirname(page), target))


def copy_linked(top: Path, stage: Path, path: str) -> None:
    """Copies a linked file to the same path in `stage`, or makes the folder; does nothing for a path outside, or of nothing."""
    source, copy = top / path, stage / path
    if path.startswith("..") or copy.exists():
        return
    if source.is_dir():
        copy.mkdir(parents=True)
    elif source.is_file():
        copy.parent.mkdir(parents=True, exist_ok=True)
        shutil.copyfile(source, copy)


def stage_sources(top: Path, groups: list[Group], stage: Path) -> None:
    """Fills the empty folder `stage`, in the layout of the repository, so that the links of the pages hold as they are."""
    pages = [page for group in groups for page in group.pages]
    for page in pages:
        copy_linked(top, stage, page)
    for page in pages:
        for path in linked_paths(page, (top / page).read_text("utf-8")):
            if not path.endswith(".md"):
                copy_linked(top, stage, path)
    (stage / "index.md").write_text(index_page(top, groups), "utf-8")
