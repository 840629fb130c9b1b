"""Texts of the book's pages for its search, which shows a part of each page that it finds."""

import html
import json
import re
from pathlib import Path

from docutils import nodes
from sphinx.application import Sphinx

FOLDER = Path("_static/excerpts")
PICTURE, TAG = re.compile(r"<svg.*?</svg>", re.DOTALL), re.compile(r"<[^>]*>")


def write_text(app: Sphinx, tree: nodes.document, page: str) -> None:
    """Writes the text of a page as a script that calls `bookText`: a page from a disk can load scripts only."""
    path = Path(app.outdir) / FOLDER / f"{page.replace('/', '-')}.js"
    path.parent.mkdir(parents=True, exist_ok=True)
    path.write_text(f"bookText({json.dumps(page)}, {json.dumps(text_of(tree))});\n", "utf-8")


def text_of(tree: nodes.Node) -> str:
    """Returns the text of a page below its title, without tags and pictures, in one line."""
    parts = [text_of_node(it) for it in tree.findall(nodes.Text) if not isinstance(it.parent, nodes.title)]
    return re.sub(r" (?=[,.;:)])", "", " ".join(" ".join(parts).split()))


def text_of_node(node: nodes.Text) -> str:
    """Returns the text of a node; that of HTML without its tags."""
    if not isinstance(node.parent, nodes.raw):
        return str(node.astext())
    return html.unescape(TAG.sub("", PICTURE.sub("", node.astext())))


def drop_page_titles(app: Sphinx) -> list[tuple[str, dict[str, object], str]]:
    """Removes the pages' own titles from the search's list of titles: their words find the pages, and these would be listed twice."""
    indexer = getattr(app.builder, "indexer", None)
    if indexer is not None:
        for page, titles in indexer._all_titles.items():
            indexer._all_titles[page] = [it for it in titles if it[0] != indexer._titles[page]]
    return []
