"""Pages with one inline style and one inline script, which their content security policy allows by hashes; and merge patches."""

import base64
import functools
import hashlib
import html
import json
import pathlib
import re
import string
from collections.abc import Iterable, Mapping
from types import MappingProxyType

from . import codemirror
from .modules import join_modules
from .texts import fill

LAB = pathlib.Path(__file__).resolve().parents[2]  # resolved, since modules.py resolves paths too
WEB = LAB / "page" / "web"  # files for browsers
PAGES, STYLES = WEB / "pages", WEB / "styles"
CODEMIRROR = WEB / "editor" / "codemirror.js"  # a module that is made from CodeMirror's files
CONNECTION = WEB / "common" / "connection.js"  # the connection to a server, which the playground replaces
_COMMENTS = re.compile(r" */\*.*?\*/\n*", re.DOTALL)  # matches comments in styles
PIECES = ("bench", "start_page", "teacher", "vectors")  # HTML files that several pages include


class Page:
    """A page by its name. Its content security policy allows only its inline style and script.

    The files of the page's own styles start with its name.

    style_source, script_source: the hashes of style and script, as sources in a content security policy
    """

    def __init__(
        self,
        name: str,
        folder: pathlib.Path = PAGES,
        replaced: Mapping[pathlib.Path, pathlib.Path] = MappingProxyType({}),
    ) -> None:
        """folder: the folder with the page's HTML and script, and with those of its styles that aren't in STYLES

        replaced: the paths of modules to use in place of other modules, by the other modules' paths
        """
        text = page_file(PAGES / "page.html").replace("$body", page_file(folder / f"{name}.html"))
        for piece in PIECES:
            text = text.replace(f"${piece}\n", page_file(PAGES / f"{piece}.html"))
        text = text.replace("$number_output", page_file(PAGES / "number_output.s"))
        self._template = string.Template(text)
        others = {str(path): str(other) for path, other in replaced.items()}
        self._script = join_modules(str(folder / f"{name}.js"), page_file, others)
        own = {path.name: path for each in (STYLES, folder) for path in each.glob(f"{name}*.css")}
        bench = ["bench.css", "lanes.css"] if 'class="bench"' in text else []
        has_editor = f"const ${CODEMIRROR.stem} = " in self._script
        library, editor = (codemirror.style(), ["editor.css"]) if has_editor else ("", [])
        shared = [STYLES / each for each in ("tokens.css", "parts.css", *bench, *editor)]
        styles = "".join(page_file(path) for path in [*shared, *(own[each] for each in sorted(own))])
        self._style = library + _COMMENTS.sub("", styles)
        self.style_source, self.script_source = _digest(self._style), _digest(self._script)
        sources = f"style-src {self.style_source}; script-src {self.script_source}"
        self.policy = f"default-src 'none'; img-src data:; {sources}; base-uri 'none'; form-action 'none'"

    def text(self, title: str, data: str = "", policy: str = "", **contents: str) -> str:
        """Return the page in HTML.

        title: the title, in HTML
        data: JSON that the page's script shows
        policy: a `meta` element with the content security policy, if no server sends it
        contents: HTML for the other places of the page; other places are empty
        """
        given = {"title": title, "style": self._style, "script": self._script, "data": data, "policy": policy}
        return self._template.substitute(dict.fromkeys(self._template.get_identifiers(), "") | given | contents)


@functools.cache
def _page(name: str) -> Page:
    """Return a page of the folder PAGES. Its files are read only once."""
    return Page(name)


def page_with_data(name: str, title: str, data: object, **contents: str) -> str:
    """Return a page that loads no files, as HTML.

    name: of the page; title: the title as text; data: the data that the page's script shows; contents: HTML for its other places
    """
    return filled_page(name, title, **contents, data=json.dumps(data, separators=(",", ":")).replace("<", "\\u003c"))


def filled_page(name: str, title: str, **contents: str) -> str:
    """Return a page that loads no files, as HTML. name: of the page; title: the title as text; contents: HTML for its places"""
    policy = f'<meta http-equiv="Content-Security-Policy" content="{_page(name).policy}">'
    return _page(name).text(html.escape(title), policy=policy, **contents)


def write_pages(folder: pathlib.Path, pages: Iterable[tuple[str, str, str]]) -> None:
    """Write pages into a folder, and then print the path and the title of each.

    pages: the name, the title and the HTML of each

    All files are written before the first line is printed, so that none is missing if a reader such as `head` closes the pipe.
    """
    written = []
    for name, title, page in pages:
        path = folder / f"{name}.html"
        path.write_text(page, "utf-8")
        written.append(f"{path}: {title}")
    print("\n".join(written))


def merge_patch(old: Mapping[str, object], new: Mapping[str, object]) -> dict[str, object]:
    """Return the merge patch (RFC 7396) that changes the old object to the new one. Their values mustn't be None."""
    patch: dict[str, object] = {key: None for key in old if key not in new}
    for key, value in new.items():
        before = old.get(key)
        if value is not before and value != before:
            patch[key] = merge_patch(before, value) if isinstance(value, dict) and isinstance(before, dict) else value
    return patch


def _digest(text: str) -> str:
    """Return the hash of an inline text as a source in a content security policy."""
    return f"'sha256-{base64.b64encode(hashlib.sha256(text.encode('utf-8')).digest()).decode('ascii')}'"


def page_file(path: pathlib.Path | str) -> str:
    """Return the text of a page's file, with texts in place of keys.

    The module of CodeMirror is made from the files of the library. Raises ValueError if there is no text for a key.
    """
    file = pathlib.Path(path)
    return codemirror.module() if file == CODEMIRROR else fill(file.name, file.read_text("utf-8"))
