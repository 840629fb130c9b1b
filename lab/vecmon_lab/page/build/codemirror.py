"""CodeMirror 5, the library of the pages' editor: its script and its style, from the files of Debian's libjs-codemirror.

`python -m vecmon_lab.page.build.codemirror` prints the paths of the files, for tools/site.
"""

import functools
import os
import pathlib

from ... import LabError
from ...places import CODEMIRROR

DEBIAN = pathlib.Path("/usr/share/javascript/codemirror")
LIBRARY = "lib/codemirror.js"
ADDONS = (
    "addon/comment/comment.js",
    "addon/dialog/dialog.js",
    "addon/edit/closebrackets.js",
    "addon/edit/matchbrackets.js",
    "addon/hint/show-hint.js",
    "addon/search/searchcursor.js",
    "addon/search/search.js",
    "addon/selection/active-line.js",
    "mode/clike/clike.js",
)
STYLES = ("lib/codemirror.css", "addon/dialog/dialog.css", "addon/hint/show-hint.css")


def folder() -> pathlib.Path:
    """Return the folder of CodeMirror 5: the one that the variable CODEMIRROR names, or that of the Python package, or Debian's.

    Raises LabError if the folder lacks one of the files.
    """
    path = pathlib.Path(os.environ.get("CODEMIRROR") or (CODEMIRROR if CODEMIRROR.is_dir() else DEBIAN))
    if missing := [name for name in (LIBRARY, *ADDONS, *STYLES) if not (path / name).is_file()]:
        raise LabError(
            f"{path / missing[0]} not found: install Debian's libjs-codemirror, or unpack CodeMirror 5 "
            "(https://codemirror.net/5/codemirror.zip) and name its folder in the variable CODEMIRROR"
        )
    return path


def style() -> str:
    """Return the styles of the editor. Raises LabError if CodeMirror isn't found."""
    return _joined(folder(), STYLES)


def module() -> str:
    """Return CodeMirror's script as a module that exports `CodeMirror`. Raises LabError if CodeMirror isn't found."""
    path = folder()
    return f"{_joined(path, (LIBRARY,))}export const CodeMirror = globalThis.CodeMirror;\n{_joined(path, ADDONS)}"


@functools.cache
def _joined(path: pathlib.Path, names: tuple[str, ...]) -> str:
    """Return the joined contents of files of a folder, in the order of their names in `names`."""
    return "".join(f"{(path / name).read_text('utf-8').rstrip()}\n" for name in names)


if __name__ == "__main__":
    print("\n".join((LIBRARY, *ADDONS, *STYLES)))
