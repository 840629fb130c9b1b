"""Sphinx's configuration of the book. tools/documents/book passes the folder of sources; all warnings are errors."""

import re
import sys
from pathlib import Path
from typing import Any

from docutils import nodes
from sphinx.application import Sphinx
from sphinx.environment import BuildEnvironment

TOP = Path(__file__).resolve().parents[3]
sys.path.insert(0, str(TOP))

from tools.documents.book_html.excerpts import drop_page_titles, write_text  # noqa: E402
from tools.documents.book_html.lexers import RattleLexer, TranscriptLexer  # noqa: E402

found = re.search(r'^__version__ = "(.*)"', (TOP / "lab/vecmon_lab/__init__.py").read_text("utf-8"), re.MULTILINE)
assert found
project, release = "vecmon", found[1]
extensions = ["myst_parser"]
myst_heading_anchors = 6  # links to headings of all levels, as on a page of the repository
myst_ref_domains = ["std"]  # pages and headings; no page documents C++ or Python objects
smartquotes = False  # texts stay as the pages have them
highlight_language = "text"
root_doc = "index"

html_theme = "furo"
html_title = f"vecmon {release}"
html_static_path = ["book.css", "book_search.js"]
html_css_files = ["book.css"]
html_copy_source = False
html_show_sourcelink = False
html_show_copyright = False
html_show_sphinx = False
html_use_index = False
html_show_search_summary = (
    False  # a page from a disk can't fetch another one; book_search.js loads their texts as scripts
)
pygments_style = "default"

# Scripts that nothing of the theme or the search calls: 300 KB.
UNUSED_SCRIPTS = ("jquery.js", "underscore.js", "_sphinx_javascript_frameworks_compat.js")


def complete_head(_app: Sphinx, page: str, _template: str, context: dict[str, Any], _tree: nodes.Node | None) -> None:
    """Removes the unused scripts from a page's head, adds its own to the search, and says that there is no icon to load."""
    context["metatags"] = context.get("metatags", "") + '<link rel="icon" href="data:,"/>'
    context["script_files"] = [
        it for it in context["script_files"] if not str(getattr(it, "filename", it)).endswith(UNUSED_SCRIPTS)
    ]
    if page == "search":
        context["script_files"].append("_static/book_search.js")


def show_path(
    app: Sphinx, environment: BuildEnvironment, node: nodes.Element, text: nodes.Element
) -> nodes.Node | None:
    """Show the path of a link to a folder of the repository as code behind the link's text; the book doesn't contain the folder."""
    folder = Path(environment.doc2path(node["refdoc"])).parent / node["reftarget"]
    if not folder.is_dir():
        return None
    path = str(folder.resolve().relative_to(Path(app.srcdir).resolve()))
    return nodes.inline("", "", text, nodes.Text(" ("), nodes.literal(path, path), nodes.Text(")"))


def setup(app: Sphinx) -> None:
    app.add_lexer("text", TranscriptLexer)
    app.add_lexer("rust", RattleLexer)
    app.connect("missing-reference", show_path)
    app.connect("html-page-context", complete_head, priority=900)
    app.connect("doctree-resolved", write_text)
    app.connect("html-collect-pages", drop_page_titles)
